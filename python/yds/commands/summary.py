"""yds-summary: how much more each policy spends than the plan, over many documents."""

from __future__ import annotations

import sys
from typing import Callable, Sequence

from yds._text import lines
from yds._words import DONE, Command, Files, Given, Option, run
from yds.tables import Counts, SideSummary, read_energies, summary

COMMAND = Command(
    "yds-summary",
    "how much more each policy spends than the plan, over many documents",
    """
Input: the table of yds-collect. Output: a table parted by tabs, a row for each side but the plan: in how many documents
it has an energy; in how many it is too slow, misses deadlines, or has no energy for another reason; the mean, the
median and the greatest of its energies, each divided by the plan's energy in the same document, with five decimals; and
the document of the greatest. A document in which a side has no energy isn't in that side's mean, so look at the counts
first. Comments tell how many documents are in no row.

    yds-summary energies.tsv
""",
    [Option("common", "only documents in which each side has an energy")],
    Files("ENERGIES.TSV", 0, 1),
)


def main(words: Sequence[str]) -> int:
    """Sums up the table of the file, or of standard input."""
    return run(COMMAND, words, sum_up)


def sum_up(given: Given, write: Callable[[str], None]) -> int:
    """Writes the table, and the comments."""
    table = read_energies(lines(given.files))
    sides, counts = summary(table, given.common)
    write("side\tdocuments\ttoo slow\tmisses\twithout\tmean\tmedian\tgreatest\tin")
    for side in sides:
        write("\t".join(cells(side)))
    write(f"# {counts.documents} documents, {counts.compared} compared{left_out(counts)}")
    if table.partial:
        partial = f"in {len(table.partial)} of them jobs have energy that is in no line, or work that isn't known"
        write(f"# {partial}; see the comments of the table")
    if table.moved:
        write(f"# in {len(table.moved)} of them deadlines of late jobs were moved; see the comments of the table")
    if counts.on_grid:
        rounded = (
            f"in {counts.on_grid} of them a policy was rounded to the grid, so its energy isn't quite the policy's"
        )
        write(f"# {rounded} own; see the column rounded")
    return DONE


def cells(side: SideSummary) -> Sequence[str]:
    """A side's row."""
    numbers = [side.mean, side.median, None if side.greatest is None else float(side.greatest)]
    told = ["-" if number is None else f"{number:.5f}" for number in numbers]
    counts = [side.documents, side.too_slow, side.misses, side.without]
    return [side.side, *map(str, counts), *told, side.greatest_in]


def left_out(counts: Counts) -> str:
    """How many documents aren't compared, and why."""
    reasons = [
        (counts.refused, "refused"),
        (counts.too_fast, "too fast for their points, by any schedule"),
        (counts.for_nothing, "with a plan that spends nothing"),
        (counts.not_common, "in which a side has no energy"),
        (counts.unanswered, "without an answer"),
    ]
    return "".join(f", {number} {reason}" for number, reason in reasons if number)


if __name__ == "__main__":
    sys.exit(main(sys.argv[1:]))
