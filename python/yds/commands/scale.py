"""yds-scale: the same jobs or tasks with more work, or less."""

from __future__ import annotations

import re
import sys
from typing import Callable, List, Sequence, Union

from yds._scaled import MOST_WORK, Factor, read_factor
from yds._text import Comment, Fault, Horizon, Job, Point, Rows, Task, lines, printable
from yds._words import DONE, Command, Files, Given, Option, WordsError, run

COMMAND = Command(
    "yds-scale",
    "the same jobs or tasks with more work, or less",
    """
Input: a document of jobs or of tasks; points and comments stay as they are. Output: the same with each work times the
factor, rounded up to a whole unit; a comment says how often it was rounded, and by how much at most.

    yds-scale --work 1.2 tasks.txt | yds_cli expand

All speeds of a plan grow by the factor with the works, so its peak does: report tells it, and no new plan is needed to
know it.
""",
    [Option("work", "a decimal or a fraction, as 1.2 or 6/5, above 0 and up to 1000", "FACTOR")],
    Files("DOCUMENT", 0, 1),
    "0 done; 1 a fault in the input; 2 a fault of the words. After both faults `failed` is written, which yds_cli refuses.",
    writes_document=True,
)
_LOST_WORK = re.compile(r"(# not due by [0-9]+: .*), work [0-9]+").fullmatch


def main(words: Sequence[str]) -> int:
    """Scales the document of the file, or of standard input."""
    return run(COMMAND, words, scale)


def scale(given: Given, write: Callable[[str], None]) -> int:
    """Writes the comment, and the lines."""
    if given.work is None:
        raise WordsError("no --work FACTOR is given")
    factor = read_factor(given.work)
    if factor is None:
        raise WordsError(f"--work {given.work} is no factor up to 1000, as 1.2 or 6/5")
    kept: List[str] = []
    excesses: List[int] = []
    rows = Rows()
    for line in lines(given.files):
        row = rows.row(line)
        if isinstance(row, (Job, Task)):
            kept.append(scaled(row, factor))
            excesses.append(factor.excess(row.work))
        elif row is None or isinstance(row, (Comment, Point, Horizon)):
            # Work that isn't in the document doesn't grow with it: the comment keeps its jobs and loses their work.
            lost = _LOST_WORK(line.text)
            kept.append(lost.group(1) if lost else line.text)
        else:
            told_kind = printable(line.fields[0])
            raise line.fault(f'"{told_kind}" doesn\'t grow with the work; give jobs or tasks alone', 0)
    rows.end()
    if not excesses:
        raise Fault("no job and no task line")
    write(told(given.work, factor, excesses))
    for text in kept:
        write(text)
    return DONE


def scaled(row: Union[Job, Task], factor: Factor) -> str:
    """The line with its new work."""
    work = factor.times(row.work)
    fields = row.line.fields
    if work > MOST_WORK:
        advice = f"above {MOST_WORK}; take a coarser unit of work"
        raise row.line.fault(f"the work becomes {work}, {advice}", len(fields) - 1)
    return " ".join([*fields[:-1], str(work)])


def told(text: str, factor: Factor, excesses: Sequence[int]) -> str:
    """The comment: how often the works were rounded, and by how much at most."""
    rounded = sum(map(bool, excesses))
    most = f", by at most {max(excesses)}/{factor.denominator}" if rounded else ""
    more = ", or a little more" if rounded else ""
    of_lines = f"rounded up in {rounded} of {len(excesses)} lines{most}"
    return f"# work times {text}, {of_lines}: the plan's peak is {text} times what it was{more}"


if __name__ == "__main__":
    sys.exit(main(sys.argv[1:]))
