"""yds-energy: what the slots or runs of a document spend on its points, in the lines of `yds_cli compare`."""

from __future__ import annotations

import re
import sys
from fractions import Fraction
from typing import Callable, Iterable, Iterator, List, Sequence

from yds._least import judged, least
from yds._program import of_environment
from yds._spent import Reading, Spent
from yds._text import Line, Rows, lines
from yds._words import DONE, NO, Command, Files, Given, Option, WordsError, run
from yds.commands._idle import IDLE, names_of

COMMAND = Command(
    "yds-energy",
    "what the slots or runs of a document spend on its points, in the lines of `yds_cli compare`",
    """
Input: a document with points and slots or runs, as of yds_trace, or of yds_cli plan or oa. Output: `NAME energy X` and
for each point `NAME time SPEED X`, in the document's units: power times time, time.

    yds-join points.txt trace.txt | yds-energy --name governor

A slot at a point's speed draws that point's power; another draws that of the neighbours on the points' lower hull, by
time; what isn't run from the first release to the last deadline or last end draws the first point's. Exact where every
slot is on a point and the times are whole or in ticks; else rounded to thousandths, as a comment says.

A deadline is missed where a job runs past it, or has less work by then than it needs, or where a comment of yds_trace
says so: of a job that was left out and was late, or one late by less than a unit of time. The last line tells how many
are missed: `# NAME misses 3 deadlines, the first JOB`. Comments above it tell how many jobs aren't in the document, or
not with their runs: their energy is in no line; how many have no work, as where all runs of a job are shorter than a
unit: these need nothing and are in time; and of how many the work isn't known, since they never ended or stand without
their runs: another speed, or a plan, that serves them whole may spend more and be later.

With --at a comment tells how often the speed changes, and how often the processor wakes, as yds-changes does of slots.
""",
    [
        Option("name", "the first word of each line (trace)", "NAME"),
        Option(
            "at",
            "not the slots: all jobs at this point, earliest deadline first, idle for the rest; the name is then at-SPEED, "
            "and what the document's own slots or runs missed is no miss of it",
            "SPEED",
        ),
        Option(
            "most-waste",
            "ends with 1 where more than N in 100 above the least energy is spent; the least is that of `yds_cli round`, or "
            "above the program's limits the upper of the bounds of yds-whole, so that a no is sure. A comment tells the waste",
            "N",
        ),
        IDLE,
    ],
    Files("DOCUMENT", 0, None),
    "0 done; 1 a deadline is missed, more is wasted than --most-waste allows, or a fault in the input; 2 a fault of the "
    "words.",
)


def main(words: Sequence[str]) -> int:
    """Tells what the files' document spends, or that of standard input."""
    return run(COMMAND, words, tell)


def tell(given: Given, write: Callable[[str], None]) -> int:
    """Writes the lines."""
    if given.at is not None and not re.fullmatch(r"[0-9]{1,20}", given.at):
        raise WordsError(f"--at {given.at} is no speed")
    name = given.name or ("trace" if given.at is None else f"at-{given.at}")
    if re.search(r"[\s#]", name):
        raise WordsError(f"--name {name} isn't one word")
    if given.most_waste is not None and not re.fullmatch(r"[0-9]{1,9}(\.[0-9]{1,9})?", given.most_waste):
        raise WordsError(f"--most-waste {given.most_waste} is no number")
    reading = Reading(given.at is None, names_of(given.idle))
    kept: List[str] = []
    source = lines(given.files)
    reading.read(Rows(source if given.most_waste is None else copied(source, kept)))
    spent = reading.of_slots() if given.at is None else reading.at(int(given.at))
    told = spent.lines(name, reading.prices.points)
    wastes = False
    if given.most_waste is not None:
        wastes, waste = judge(reading, spent, kept, Fraction(given.most_waste))
        told.insert(len(told) - bool(spent.misses.count), f"# {name} {waste}")
    for line in told:
        write(line)
    return NO if spent.misses.count or wastes else DONE


def copied(source: Iterable[Line], kept: List[str]) -> Iterator[Line]:
    """The lines, each also kept."""
    for line in source:
        kept.append(line.text)
        yield line


def judge(reading: Reading, spent: Spent, kept: Sequence[str], most: Fraction) -> "tuple[bool, str]":
    """Whether more is wasted, and the words that say how much."""
    text = "".join(line + "\n" for line in kept).encode("latin-1")
    jobs = reading.held.jobs
    bounds = least(text, len(jobs), reading.held.slots, max(job.deadline for job in jobs), of_environment())
    return judged(spent.energy, bounds, most)


if __name__ == "__main__":
    sys.exit(main(sys.argv[1:]))
