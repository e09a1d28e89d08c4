"""yds-reports: one table of many answers of `yds_cli report --json`."""

from __future__ import annotations

import sys
from typing import Callable, List, Sequence

from yds._priced import decimal
from yds._text import NO, Fault, Line, lines, printable
from yds._words import DONE, Command, Files, Given, run
from yds.commands.collect import name_of
from yds.tables import report

COMMAND = Command(
    "yds-reports",
    "one table of many answers of `yds_cli report --json`",
    """
    yds-reports out/*.json > reports.tsv

Input: files, each with one answer. Output: a table parted by tabs: the file's name, jobs, work, first release, last
deadline, idle time, number of levels, the speed of the fastest level, the work by the levels' lengths together, and ok
or the refusal. In the document's units; fractions as decimals with at most six places.
""",
    files=Files("FILE", 1, None),
)
COLUMNS = ["document", "jobs", "work", "from", "to", "idle", "levels", "peak", "mean", "answer"]


def main(words: Sequence[str]) -> int:
    """Writes the table of the files."""
    return run(COMMAND, words, tell)


def tell(given: Given, write: Callable[[str], None]) -> int:
    """Writes the table."""
    write("\t".join(COLUMNS))
    for file in given.files:
        found = [line for line in lines([file]) if line.text.strip(" \t") and not line.text.startswith("#")]
        for line in found:
            write("\t".join(cells(file, line)))
        if not found:
            raise Fault("has no answer; look at what wrote it", file)
    return DONE


def cells(file: str, line: Line) -> List[str]:
    """A row."""
    try:
        row = report(line.text)
    except Fault as fault:
        raise line.fault(fault.told) from None
    if row is None and line.fields[0] not in NO:
        raise line.fault(f'"{printable(line.text)}" is no report and no refusal; give answers of yds_cli report --json')
    if row is None:
        return [name_of(file), *["-"] * (len(COLUMNS) - 2), line.text.replace("\t", " ")]
    return [name_of(file), *map(str, row[:6]), decimal(row.peak), decimal(row.mean), "ok"]


if __name__ == "__main__":
    sys.exit(main(sys.argv[1:]))
