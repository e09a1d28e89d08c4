"""Rows of tables of many documents: what compare and yds-energy answered to each, and report --json."""

from __future__ import annotations

import json
import re
from fractions import Fraction
from typing import Any, Dict, Iterable, List, NamedTuple, Optional

from yds._comments import BESIDE
from yds._spelling import read_fraction
from yds._text import NO, Fault, Line, printable

_MISSES = re.compile(r"# ([^ ]+) misses [0-9]+ deadlines?, ").match
_CAVEAT = re.compile(rf"# (part [0-9]+: )?(?:{BESIDE})").match
_FRACTION = re.compile(r"[0-9]{1,30}(\+[0-9]{1,30}/[1-9][0-9]{0,29})?").fullmatch
NO_ANSWER = "no answer"


class Collected(NamedTuple):
    """What compare and yds-energy answered to a document."""

    energies: Dict[str, Optional[Fraction]]
    """Of each side its energy; None where it has none."""
    late: Dict[str, str]
    """What is told of the deadlines that a side misses."""
    rounded: Optional[int]
    """The event points at which the policies were rounded to the grid; None where nothing is told."""
    answer: str
    """'ok', or the line that says no."""
    caveats: List[str]
    """What is told beside the energies, as of energy that is in no line."""


def collect(lines: Iterable[Line]) -> Collected:
    """What the lines of an answer say."""
    energies: Dict[str, Optional[Fraction]] = {}
    late: Dict[str, str] = {}
    caveats: Dict[str, None] = {}
    rounded: Optional[int] = None
    answer = NO_ANSWER
    for line in lines:
        fields, text = line.fields, line.text
        misses = _MISSES(text)
        if misses:
            late[misses.group(1)] = text[2:]
        elif _CAVEAT(text):
            caveats[text[2:]] = None
        if not fields or fields[0].startswith("#"):
            continue
        kind = fields[1] if len(fields) > 1 else ""
        if fields[0] in NO:
            answer = text.replace("\t", " ")
        elif kind == "energy":
            _add(energies, line, fields)
            answer = "ok" if fields[0] == "plan" else answer
        elif kind == "rounded" and len(fields) == 3 and fields[2].isdigit() and len(fields[2]) <= 30:
            rounded = (rounded or 0) + int(fields[2])
        elif kind == "too-slow":
            energies.setdefault(fields[0], None)
        elif kind != "time" or len(fields) != 4 or not _FRACTION(fields[3]):
            raise line.fault(f'"{printable(text)}" is no line of compare or yds-energy')
    return Collected(energies, late, rounded, answer, list(caveats))


def _add(energies: Dict[str, Optional[Fraction]], line: Line, fields: List[str]) -> None:
    if len(fields) != 3 or not _FRACTION(fields[2]):
        raise line.fault(f'"{printable(line.text)}" is no line of compare or yds-energy', min(2, len(fields)))
    if energies.get(fields[0]) is not None:
        raise line.fault(f"the side {fields[0]} stands twice; write its lines into a new file", 0)
    energies[fields[0]] = read_fraction(fields[2].encode("latin-1"))


class ReportRow(NamedTuple):
    """What report says of a document."""

    jobs: int
    work: int
    start: int
    """The first release."""
    end: int
    """The last deadline."""
    idle: int
    levels: int
    peak: Fraction
    """The speed of the fastest level; 0 where there is none."""
    mean: Fraction
    """The works of all levels by their lengths; 0 where there is none."""


def report(text: str) -> Optional[ReportRow]:
    """The row of an answer of report --json; None where it is none."""
    try:
        found = json.loads(text)
    except (ValueError, RecursionError):
        return None
    if not isinstance(found, dict) or "levels" not in found:
        return None
    levels = found["levels"]
    names = ("jobs", "work", "from", "to", "idle")
    if not isinstance(levels, list) or not all(_is_count(found.get(name)) for name in names):
        raise Fault("the answer has no whole numbers jobs, work, from, to and idle, and no list of levels")
    if not all(_is_level(level) for level in levels):
        raise Fault("a level of the answer has no work, length and speed")
    peak = read_fraction(levels[0]["speed"].encode("latin-1")) if levels else Fraction(0)
    length = sum(level["length"] for level in levels)
    mean = Fraction(sum(level["work"] for level in levels), length) if levels else Fraction(0)
    numbers = [int(found[name]) for name in names]
    return ReportRow(numbers[0], numbers[1], numbers[2], numbers[3], numbers[4], len(levels), peak, mean)


def _is_count(value: Any) -> bool:
    return isinstance(value, int) and not isinstance(value, bool) and value >= 0


def _is_level(level: Any) -> bool:
    if not isinstance(level, dict) or not _is_count(level.get("work")) or not _is_count(level.get("length")):
        return False
    speed = level.get("speed")
    return bool(level["length"]) and isinstance(speed, str) and _FRACTION(speed) is not None
