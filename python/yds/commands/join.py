"""yds-join: points, jobs and traces as one document, where their units are the same."""

from __future__ import annotations

import sys
from typing import Callable, Sequence

from yds._joined import Joined, shown
from yds._text import STANDARD_INPUT, lines
from yds._words import DONE, Command, Files, Given, run

COMMAND = Command(
    "yds-join",
    "points, jobs and traces as one document, where their units are the same",
    """
    yds-join points.txt trace.txt > governor.txt

Input: texts of one document, as of yds-points, yds_trace, yds-tasks and yds-rtapp. Output: their lines, one text after
the other.

The program reads no comments, so of points in one unit and a trace in another it would tell wrong energies. Here each
text's comments are read. Texts whose units of time, speed or power differ are refused, and so are two texts with
points, two traces of other clocks, two periods, a text with a line that is none of a document, or with no line at all,
and an answer of no. Where a text has jobs, tasks, slots or runs and tells no units, and another tells them, a comment
says whose units are taken for it.
""",
    files=Files("TEXT", 2, None),
    statuses="0 done; 1 a fault in the input; 2 a fault of the words. After both faults the last line is `failed`, which "
    "yds_cli refuses.",
    writes_document=True,
    streams=True,
)


def main(words: Sequence[str]) -> int:
    """Joins the texts of the files."""
    return run(COMMAND, words, join)


def join(given: Given, write: Callable[[str], None]) -> int:
    """Writes the lines of all texts, and whose units are taken for which."""
    for file in given.files:
        if file != STANDARD_INPUT:
            open(file, "rb").close()
    joined = Joined()
    for file in given.files:
        for line in lines([file]):
            joined.take(line)
            write(line.text)
        joined.finish(file)
    for text in joined.untold:
        if joined.told_by:
            write(f"# {shown(text)} tells no units: they are taken to be those of {shown(joined.told_by)}")
    return DONE


if __name__ == "__main__":
    sys.exit(main(sys.argv[1:]))
