"""yds-explain: what `yds_cli check` found where it says K2 to K7, and what it expected."""

from __future__ import annotations

import sys
from typing import Callable, Sequence

from yds._explained import Judged
from yds._text import lines
from yds._words import DONE, Command, Files, Given, run

COMMAND = Command(
    "yds-explain",
    "what `yds_cli check` found where it says K2 to K7, and what it expected",
    """
Input: a document with slots and levels, and after it the answer of check. Output: a line or two on the condition that
failed, with the numbers found and expected. accepted, and K1 with its verdict, which has its numbers already, are
written as they are. In the document's units; speeds as decimals of 15 digits.

    yds_cli check < judged.txt > verdict.txt
    yds-explain judged.txt verdict.txt
""",
    files=Files("FILE", 0, None),
    statuses="0 explained; 1 a fault in the input; 2 a fault of the words.",
)


def main(words: Sequence[str]) -> int:
    """Explains the verdict in the files, or in standard input."""
    return run(COMMAND, words, explain)


def explain(given: Given, write: Callable[[str], None]) -> int:
    """Writes what was found and expected."""
    judged = Judged()
    judged.read(lines(given.files))
    for line in judged.told():
        write(line)
    return DONE


if __name__ == "__main__":
    sys.exit(main(sys.argv[1:]))
