"""yds-collect: one table of many answers of `yds_cli compare`."""

from __future__ import annotations

import sys
from fractions import Fraction
from typing import Callable, Dict, List, Sequence

from yds._text import base, lines
from yds._words import DONE, Command, Files, Given, run
from yds.tables import Collected, collect

COMMAND = Command(
    "yds-collect",
    "one table of many answers of `yds_cli compare`",
    """
    yds-collect out/*.txt > energies.tsv

Input: files, each with the answer to one document, and perhaps lines of yds-energy after it. Output: a table parted by
tabs, a row for each file in order: its name, the energy of plan, avr, oa and of what other sides there are (with six
decimals, - where there is none), the event points at which the policies were rounded to the grid, and the answer: ok,
or the line that says no. Energies are in the document's units.

A side that misses deadlines, as yds-energy tells, has no energy here, and a comment at the end of the table for each
such row says so. Others tell what yds-energy says of jobs whose energy is in no line, or whose work isn't known.
""",
    files=Files("FILE", 1, None),
    statuses="0 done; 1 a file can't be read or has a line that is of no such answer; 2 a fault of the words.",
)


def main(words: Sequence[str]) -> int:
    """Writes the table of the files."""
    return run(COMMAND, words, tell)


def tell(given: Given, write: Callable[[str], None]) -> int:
    """Writes the table, and the comments."""
    found = [(name_of(file), collect(lines([file]))) for file in given.files]
    sides: Dict[str, None] = dict.fromkeys(["plan", "avr", "oa"])
    for _, collected in found:
        sides.update(dict.fromkeys(collected.energies))
    write("\t".join(["document", *sides, "rounded", "answer"]))
    for name, collected in found:
        write("\t".join(cells(name, collected, list(sides))))
    for name, collected in found:
        told = [collected.late[side] for side in sides if side in collected.late]
        for comment in [*told, *collected.caveats]:
            write(f"# {name}: {comment}")
    return DONE


def name_of(file: str) -> str:
    """The file's name without its folders and its ending."""
    name = base(file).replace("\t", " ")
    return name.rsplit(".", 1)[0] if "." in name else name


def cells(name: str, collected: Collected, sides: Sequence[str]) -> List[str]:
    """A row."""
    energies = [None if side in collected.late else collected.energies.get(side) for side in sides]
    told = ["-" if energy is None else six_places(energy) for energy in energies]
    return [name, *told, "-" if collected.rounded is None else str(collected.rounded), collected.answer]


def six_places(value: Fraction) -> str:
    """The number with six decimals, to the nearest; a half goes to the even one."""
    above, rest = divmod(round(value * 10**6), 10**6)
    return f"{above}.{rest:06d}"


if __name__ == "__main__":
    sys.exit(main(sys.argv[1:]))
