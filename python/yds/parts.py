"""Long documents, in parts that the library answers one by one, and the answers put together again.

A document holds 4,000 jobs. `cut` makes parts of one of any length, `whole` makes one answer of the answers to them,
and `bounds` tells between which energies the least lies, where windows are open at the cuts.
"""

from __future__ import annotations

from typing import Iterable, Iterator, Optional, Sequence

from yds._bounds import Bounds, Search, Spent, read_spent
from yds._cut import MOST_PARTS, Writer, ranges
from yds._heads import MOST_JOBS, Head, Part, PartsError, Text, read_head
from yds._long import Long
from yds._numbers import integer
from yds._program import Answer, of_library
from yds._split import split as _split
from yds._whole import Whole, put_together

__all__ = [
    "Answer",
    "Bounds",
    "Head",
    "Part",
    "PartsError",
    "Spent",
    "Text",
    "Whole",
    "bounds",
    "cut",
    "read_head",
    "read_spent",
    "split",
    "whole",
]


def cut(
    lines: Iterable[bytes], jobs: int = MOST_JOBS, shift: bool = False, folder: Optional[str] = None
) -> Iterator[Part]:
    """The parts of a document with any number of jobs, slots and runs, each within the limits.

    lines are those of docs/format.md, each with its line feed, as a file has them; the jobs stand in order of release.
    Each part is a document, with all points and with the slots and runs of its jobs. jobs is how many it has at most.
    With shift the times of each part begin at 0, and those of the document may be above 1,000,000,000. folder is where
    two files of the document's size are made for the time being; None for the usual folder.

    A part ends at a quiet instant: each job has all of its runs before it or all behind it. It is one at which no
    window is open either, if there is such a one within the limits; else the next part's head says so. PartsError is
    raised where the document has a fault or no place to cut.

    >>> text = [b"job a 0 4 8\\n", b"job b 4 6 4\\n", b"job c 5 12 3\\n"]
    >>> for part in cut(text, jobs=1):
    ...     print(part.head.start, part.head.windows_open)
    0 False
    4 False
    5 True
    """
    jobs = integer(jobs, "the number of jobs of a part", 1)
    if jobs > MOST_JOBS:
        raise ValueError(f"a part has at most {MOST_JOBS} jobs, and not {jobs}")
    with Long(folder, shift) as long:
        long.read(lines)
        parts = list(ranges(long, jobs))
        if len(parts) > MOST_PARTS:
            raise PartsError(f"more than {MOST_PARTS} parts; give more jobs to each")
        yield from Writer(long, parts, folder).parts()


def split(lines: Iterable[bytes]) -> Iterator[Part]:
    """The parts that stand in a text one behind the other, as `yds_trace --parts` and `--cpu all` write them.

    lines are those of the text, as a file has them. Each part gets the points and comments that stand before the first
    one. Of several processors each has parts of its own: `part.head.cpu` tells which. PartsError is raised where a part
    is missing or the text is cut short, and where it ends with `failed`: the parts before that were whole.

    >>> head, end = b"# part 1: jobs 1 to 1, from 0 to 4, shift 0, the last\\n", b"# 1 job written, none left out\\n"
    >>> [part.text.count(b"point") for part in split([b"point 0 0\\n", head, b"job a 0 4 8\\n", end])]
    [1]
    """
    return _split(lines)


def whole(parts: Sequence[Text], answers: Sequence[Text], grid: Optional[int] = None) -> Whole:
    """The answers to all parts, in their order, as one answer to the whole.

    Each part and answer is bytes, or the file that holds it. All parts are of one processor, and all answers are to the
    same command. Where no window is
    open at the cuts, the lines are those that the program answers to the long document:

      plan, round, avr, oa   one text; levels of one speed are one level, the energy has the idle time between the parts
      compare, yds-energy    energies and times summed, with the idle time between the parts, in lowest terms
      audit                  feasible, or the first verdict that isn't, with the slot's number in the long document
      yds-misses             all misses, with the slots' numbers and the times of the long document, and their number
      check                  accepted, or the first condition that fails, with the level or slot of its part
      report                 one table

    Where windows are open, audit, yds-misses and yds-energy are the same. Comments above a verdict and behind energies
    tell what the parts say that a trace lacks. Of compare a line `plan at-least X` is left, and one of
    Average Rate: the least energy, and that of the policy, are at least X. That of the policy is known only where its
    run of all jobs rounds nowhere, for which grid, compare's, is needed. Comments say so. PartsError is raised where a part has no answer, or the answers make none of the whole.

    >>> parts = [part.text for part in cut([b"job a 0 4 8\\n", b"job b 2 6 4\\n", b"slot b 2 4 4\\n"], jobs=1)]
    >>> told = whole(parts, [b"work a given 0 wanted 8\\n", b"feasible\\n"])
    >>> told.yes, list(told.lines)
    (False, [b'work a given 0 wanted 8\\n'])
    """
    return put_together(parts, answers, grid)


def bounds(parts: Sequence[Text], jobs: int = MOST_JOBS, answer: Optional[Answer] = None) -> Bounds:
    """Between which energies the least of all jobs lies on the points, also where windows are open at every instant.

    parts are the texts of `cut`, or of one processor of `split`, as bytes or files. Their jobs are put into groups of at
    most so many, cut where no window is open if there is such an instant, else at one of at most 16 in the last tenth of
    the group: that at which both bounds come nearest, as seen on the 40 jobs on either side. answer is called with words
    and a document, and gives a status of the program and its answer; without it the library answers.

    Both bounds are exact numbers, over the horizon of all jobs, and the same where no window is open at any cut. The
    upper is None where the shortened windows made the top point too slow at each cut that was tried, and both are None
    where the top point is too slow for all jobs: `told` says so.

    >>> text = [b"job a 0 4 4\\n", b"job b 2 6 4\\n", b"point 0 1\\n", b"point 1 2\\n", b"point 2 5\\n"]
    >>> found = bounds([part.text for part in cut(text)], jobs=1)
    >>> found.lower, found.upper
    (Fraction(14, 1), Fraction(18, 1))
    """
    jobs = integer(jobs, "the number of jobs of a group", 1)
    if jobs > MOST_JOBS:
        raise ValueError(f"a group has at most {MOST_JOBS} jobs, and not {jobs}")
    return Search(parts, of_library() if answer is None else answer, jobs).bounds()
