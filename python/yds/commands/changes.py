"""yds-changes: how often a schedule changes the speed, and how often it wakes."""

from __future__ import annotations

import sys
from typing import Callable, Sequence

from yds._changes import Counting
from yds._text import Fault, Rows, Slot, lines
from yds._words import DONE, Command, Files, Given, run

COMMAND = Command(
    "yds-changes",
    "how often a schedule changes the speed, and how often it wakes",
    """
Input: a document with slots or runs, in the order of their times. Output: `slots N`; `changes N`, how often the speed
becomes another one, where time in which nothing runs has the speed 0, before the first slot and after the last too; and
`wakes N`, how many of these begin to run after such time.

    yds_cli round < document.txt | yds-changes

yds_cli takes changes to be free: these numbers, times what a change costs on your device, say whether they are.
yds-energy --at tells those of all jobs at one speed.
""",
    files=Files("DOCUMENT", 0, None),
)


def main(words: Sequence[str]) -> int:
    """Counts in the files' document, or in standard input's."""
    return run(COMMAND, words, count)


def count(given: Given, write: Callable[[str], None]) -> int:
    """Writes the counts."""
    counting = Counting()
    for row in Rows(lines(given.files)):
        if isinstance(row, Slot):
            counting.take(row)
    counts = counting.counts()
    if not counts.slots:
        answers = "the answer of plan, round, avr or oa"
        raise Fault(f"no slot and no run line; give a trace's document, or {answers}")
    for name, number in counts._asdict().items():
        write(f"{name} {number}")
    return DONE


if __name__ == "__main__":
    sys.exit(main(sys.argv[1:]))
