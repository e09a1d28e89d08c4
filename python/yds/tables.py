"""Tables of many documents: what each policy spends in each, how much more that is than the plan, and their reports."""

from __future__ import annotations

import re
from fractions import Fraction
from statistics import fmean, median
from typing import Dict, Iterable, List, NamedTuple, Optional, Sequence, Set, Tuple

from yds._collected import Collected, ReportRow, collect, report
from yds._comments import PARTIAL
from yds._text import Fault, Line

__all__ = [
    "Collected",
    "Counts",
    "Energies",
    "EnergyRow",
    "ReportRow",
    "SideSummary",
    "collect",
    "read_energies",
    "report",
    "summary",
]

_ENERGY = re.compile(r"[0-9]{1,40}(\.[0-9]{1,40})?").fullmatch
_MISSES = re.compile(r"# (.*?: [^ ]+) misses [0-9]+ deadlines?, ").match
_PARTIAL = re.compile(rf"# (.*?): (?:part [0-9]+: )?(?:{PARTIAL})").match
_MOVED = re.compile(r"# (.*?): (?:part [0-9]+: )?with [0-9]+ deadlines? moved ").match
_NOT_SIDES = ("rounded", "answer")


class EnergyRow(NamedTuple):
    """A document's row: what each side spends, None where it has no energy, and what compare answered."""

    document: str
    energies: Dict[str, Optional[Fraction]]
    rounded: int
    answer: str


class Energies(NamedTuple):
    """The table of yds-collect."""

    sides: Sequence[str]
    """The sides but the plan, in their order."""
    rows: Sequence[EnergyRow]
    misses: Set[Tuple[str, str]]
    """The documents and sides of which a comment says that deadlines are missed."""
    partial: Set[str]
    """The documents of which a comment says that energy is in no line, or work isn't known."""
    moved: Set[str]
    """The documents of which a comment says that deadlines of late jobs were moved."""


class SideSummary(NamedTuple):
    """What one side spends, as a multiple of the plan, over the documents in which it has an energy."""

    side: str
    documents: int
    too_slow: int
    misses: int
    without: int
    mean: Optional[float]
    median: Optional[float]
    greatest: Optional[Fraction]
    greatest_in: str


class Counts(NamedTuple):
    """How many documents there are, and why some are in no row."""

    documents: int
    compared: int
    refused: int
    too_fast: int
    for_nothing: int
    not_common: int
    unanswered: int
    on_grid: int


def read_energies(lines: Iterable[Line]) -> Energies:
    """The rows of a table that yds-collect wrote."""
    misses: Set[Tuple[str, str]] = set()
    partial: Set[str] = set()
    moved: Set[str] = set()
    rows: List[EnergyRow] = []
    heading: List[str] = []
    for line in lines:
        if line.text.startswith("#"):
            late, told, late_moved = _MISSES(line.text), _PARTIAL(line.text), _MOVED(line.text)
            if late:
                document, _, side = late.group(1).rpartition(": ")
                misses.add((document, side))
            elif told:
                partial.add(told.group(1))
            elif late_moved:
                moved.add(late_moved.group(1))
        elif line.text.strip(" \t"):
            fields = line.text.split("\t")
            if heading:
                rows.append(_row(line, heading, fields))
            else:
                heading = _heading(line, fields)
    if not heading:
        raise Fault("no table; is this the table of yds-collect?")
    sides = [name for name in heading[1:] if name not in _NOT_SIDES and name != "plan"]
    return Energies(sides, rows, misses, partial, moved)


def _heading(line: Line, fields: List[str]) -> List[str]:
    if fields[0] != "document" or "plan" not in fields or "answer" not in fields:
        raise line.fault("no columns document, plan and answer; is this the table of yds-collect?")
    return fields


def _row(line: Line, heading: Sequence[str], fields: Sequence[str]) -> EnergyRow:
    if len(fields) != len(heading):
        raise line.fault(f"{len(fields)} columns, and the heading has {len(heading)}")
    cells = dict(zip(heading, fields))
    if cells["answer"] != "ok":
        return EnergyRow(fields[0], {}, 0, cells["answer"])
    energies = {name: _energy(line, name, cells[name]) for name in heading[1:] if name not in _NOT_SIDES}
    rounded = cells.get("rounded", "0")
    return EnergyRow(fields[0], energies, int(rounded) if rounded.isdigit() else 0, "ok")


def _energy(line: Line, name: str, text: str) -> Optional[Fraction]:
    if text == "-" and name != "plan":
        return None
    if not _ENERGY(text):
        raise line.fault(f"{text} is no energy of {'the plan' if name == 'plan' else name}")
    return Fraction(text)


def summary(table: Energies, common: bool = False) -> Tuple[List[SideSummary], Counts]:
    """A row for each side but the plan, and how many documents are in no row.

    With common, only documents count in which each side has an energy.
    """
    answered = [row for row in table.rows if row.answer == "ok"]
    spending = [row for row in answered if row.energies["plan"]]
    whole = [row for row in spending if None not in row.energies.values()]
    compared = whole if common else spending
    wrong = [row.answer for row in table.rows if row.answer != "ok"]
    refused = sum(answer.startswith("refused") for answer in wrong)
    too_fast = sum(answer.startswith("too-slow") for answer in wrong)
    counts = Counts(
        len(table.rows), len(compared), refused, too_fast,
        len(answered) - len(spending), len(spending) - len(compared), len(wrong) - refused - too_fast,
        sum(row.rounded > 0 for row in compared),
    )  # fmt: skip
    return [_of_side(table, side, compared) for side in table.sides], counts


def _of_side(table: Energies, side: str, rows: Sequence[EnergyRow]) -> SideSummary:
    ratios: List[Tuple[Fraction, str]] = []
    without: List[str] = []
    for row in rows:
        energy, plan = row.energies[side], row.energies["plan"]
        assert plan is not None
        if energy is None:
            without.append(row.document)
        else:
            ratios.append((energy / plan, row.document))
    late = sum((document, side) in table.misses for document in without)
    rest = len(without) - late
    counts = (rest, late, 0) if side in ("avr", "oa") else (0, late, rest)
    if not ratios:
        return SideSummary(side, 0, *counts, None, None, None, "-")
    greatest = max(ratio for ratio, _ in ratios)
    first = next(document for ratio, document in ratios if ratio == greatest)
    values = [float(ratio) for ratio, _ in ratios]
    return SideSummary(side, len(ratios), *counts, fmean(values), median(values), greatest, first)
