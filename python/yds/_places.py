"""Where in a document's rows a fault is, and what the rule is that it breaks (those of docs/format.md)."""

from __future__ import annotations

import re
from typing import Dict, NamedTuple, Optional, Tuple

_FIELD = re.compile(rb"[^ \t\r]+")
_TABLES: Dict[bytes, Tuple[str, Tuple[str, ...]]] = {
    b"job": ("jobs", ("name", "release", "deadline", "work")),
    b"point": ("points", ("speed", "power")),
    b"slot": ("slots", ("job", "start", "end", "work")),
    b"run": ("slots", ("job", "start", "end", "speed")),
    b"level": ("levels", ("work", "length")),
    b"piece": ("pieces", ("start", "end")),
    b"member": ("members", ("name",)),
    b"task": ("tasks", ("name", "offset", "period", "deadline", "work")),
    b"ticks": ("ticks", ("ticks",)),
    b"horizon": ("horizon", ("horizon",)),
    b"grid": ("grid", ("grid", "rounded")),
    b"energy": ("energy", ("energy",)),
}
_SINGLE = ("ticks", "horizon", "grid", "energy")
_PARTS = ("pieces", "members")

_BILLION = "1,000,000,000"
_COARSER = "choose coarser units"
_TIME = f"a time is at most {_BILLION}"
_FRACTION = "and the denominator of a fraction at most 2^60 = 1,152,921,504,606,846,976"
_NEAR = f"{_FRACTION}; yds.schedule.near finds shorter fractions nearby"
_LIMITS: Dict[Tuple[str, str], str] = {
    ("jobs", "release"): f"{_TIME}; {_COARSER}",
    ("jobs", "deadline"): f"{_TIME}; {_COARSER}",
    ("jobs", "work"): f"a work is at most 1,000,000; {_COARSER}",
    ("points", "speed"): f"a point's speed is at most 4,000; {_COARSER}",
    ("points", "power"): f"a power is at most 1,000,000; {_COARSER}",
    ("slots", "start"): f"{_TIME}, {_NEAR}",
    ("slots", "end"): f"{_TIME}, {_NEAR}",
    ("slots", "work"): f"the work of a slot is at most 10^12, {_NEAR}",
    ("slots", "speed"): "a run's speed is at most 1,000,000, and its work at most 10^12",
    ("levels", "work"): "the work of a level is from 1 to 4,000,000,000",
    ("levels", "length"): f"the length of a level is from 1 to {_BILLION}",
    ("pieces", "start"): _TIME,
    ("pieces", "end"): _TIME,
    ("tasks", "offset"): f"an offset is at most {_BILLION}",
    ("tasks", "period"): f"a period is from 1 to {_BILLION}",
    ("tasks", "deadline"): f"a deadline is from 1 to {_BILLION} after the release",
    ("tasks", "work"): "a work is at most 1,000,000",
    ("ticks", "ticks"): f"the ticks of a unit of time are from 1 to {_BILLION}",
    ("horizon", "horizon"): f"a horizon is from 1 to {_BILLION}",
    ("grid", "grid"): "a grid is from 1 to 1,000,000",
    ("grid", "rounded"): "a count of event points is at most 1,000,000",
    ("energy", "energy"): f"an energy is at most 10^18, {_FRACTION}",
}
_MOST = {
    "jobs": "a document has at most 4,000 jobs; yds.parts.cut makes parts of a longer one",
    "points": "a document has at most 64 points",
    "slots": "a document has at most 100,000 slots and runs; yds.parts.cut makes parts of a longer one",
    "levels": "a document has at most 100,000 levels",
    "pieces": "a document has at most 100,000 pieces",
    "members": "a document has at most 100,000 members",
    "tasks": "there are at most 4,000 tasks",
}
_RULES = {
    "Misplaced": "this line has to stand before or behind another, or may stand once",
    "FieldCount": "the line has more or fewer fields than its kind",
    "BadName": "a name has 1 to 64 visible ASCII characters, that of a task at most 59",
    "DuplicateName": "another has this name",
    "UnknownName": "no job of this name stands before",
    "BadNumber": "a number has no sign, no leading zero and no decimal point",
    "EmptyWindow": "it must be after the release",
    "MixedEnds": "both ends of a slot have one denominator",
    "MixedGrain": "the works of one job have one denominator",
    "NoIdle": "the first point has the speed 0",
    "NotRising": "each point is faster than the one before",
    "GapsTooFine": "the speeds of the hull have gaps whose least common multiple is above 2^40; take a coarser unit",
    "TooManyJobs": "all tasks together have at most 4,000 jobs; take a shorter horizon",
}


class Place(NamedTuple):
    """The row of a document in which a fault is."""

    table: str
    """'jobs', 'points', 'slots', 'levels', 'pieces', 'members' or 'tasks'; or the one line of its kind, as 'grid'."""
    row: int
    """The row's place in its table, counted from 0; of a piece or member, in its level."""
    level: Optional[int]
    """The level of a piece or member; None where no level stands before it."""
    field: Optional[str]
    """The field, where it is one that the row has."""

    def __str__(self) -> str:
        row = self.table if self.table in _SINGLE else f"{self.table}[{self.row}]"
        if self.level is not None:
            row = f"levels[{self.level}].{row}"
        return row if self.field is None or self.table in _SINGLE else f"{row}.{self.field}"


def place_of(document: bytes, line: int, column: int) -> Optional[Place]:
    """The row and the field at this line and column; None where the line is none of a row."""
    lines = document.split(b"\n", line)[:line]
    kind = _kind(lines[-1])
    if kind not in _TABLES:
        return None
    table, fields = _TABLES[kind]
    starts = [found.start() + 1 for found in _FIELD.finditer(lines[-1])]
    at = starts.index(column) - 1 if column in starts else -1
    before = [_TABLES[other][0] for other in map(_kind, lines[:-1]) if other in _TABLES]
    level = None
    if table in _PARTS and "levels" in before:
        level = before.count("levels") - 1
        before = before[len(before) - before[::-1].index("levels") :]
    return Place(table, before.count(table), level, fields[at] if 0 <= at < len(fields) else None)


def _kind(line: bytes) -> bytes:
    """The first field of a line."""
    found = _FIELD.search(line)
    return found.group() if found else b""


def rule(reason: str, place: Optional[Place]) -> Optional[str]:
    """What holds of a document, and doesn't here."""
    if reason == "OutOfRange" and place is not None and place.field is not None:
        return _LIMITS.get((place.table, place.field))
    if reason == "TooMany" and place is not None:
        return _MOST.get(place.table)
    return _RULES.get(reason)
