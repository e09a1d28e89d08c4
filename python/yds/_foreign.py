"""The text of a schedule of another program: its numbers are decimals or fractions of any kind."""

from __future__ import annotations

import re
from fractions import Fraction
from typing import Dict, Iterable, List, NamedTuple, Optional

from yds._text import NO, Line, Units, printable
from yds.rows import Job

MOST_TIME, MOST_WORK, MOST_SLOT = 10**9, 10**6, 10**12
"""The greatest time, work of a job, and work of a slot of a document."""
MOST_SIGNS = 1000
_MIXED = re.compile(r"([0-9]+)\+([0-9]+)/([0-9]+)").fullmatch
_RATIO = re.compile(r"([0-9]+)/([0-9]+)").fullmatch
_DECIMAL = re.compile(r"([0-9]+\.?[0-9]*|\.[0-9]+)(?:[eE]([-+]?[0-9]+))?").fullmatch
_ENERGY = re.compile(r"[0-9]+(\+[0-9]+/[0-9]+)?").fullmatch
_EXPONENTS = range(-400, 41)


class ForeignSlot(NamedTuple):
    """A slot at its word: units of time, and of work."""

    line: Line
    job: str
    start: Fraction
    end: Fraction
    work: Fraction
    speed: Optional[Fraction]
    """Work per unit of time, where the line tells it in place of the work."""


class Foreign(NamedTuple):
    """A schedule of another program."""

    most: Fraction
    """By how much a number may be moved."""
    jobs: Dict[str, Job]
    slots: List[ForeignSlot]
    speeds: List[int]
    """The speeds of the points."""
    others: List[str]
    """The lines of the output that tell no slot."""
    below: List[Fraction]
    """By how much numbers were below 0, which are 0 here."""


def number(text: str) -> Optional[Fraction]:
    """The value of 3, 1.25, 2.5e-3, 10/3 or 3+1/3, with a sign or without; None where the text is none of these.

    >>> number("-3+1/3"), number("2.5e-3"), number("1/0")
    (Fraction(-10, 3), Fraction(1, 400), None)
    """
    if len(text) > MOST_SIGNS:
        return None
    bare = text[1:] if text[:1] in ("-", "+") else text
    value = _positive(bare)
    return -value if value is not None and text.startswith("-") else value


def _positive(text: str) -> Optional[Fraction]:
    mixed, ratio, decimal = _MIXED(text), _RATIO(text), _DECIMAL(text)
    if mixed:
        whole, above, below = map(int, mixed.groups())
        return Fraction(whole * below + above, below) if below else None
    if ratio:
        above, below = map(int, ratio.groups())
        return Fraction(above, below) if below else None
    if decimal is None:
        return None
    digits, exponent = decimal.groups()
    if exponent is not None and int(exponent) not in _EXPONENTS:
        return None
    return Fraction(digits) * Fraction(10) ** int(exponent or 0)


def read(source: Iterable[Line], most: Fraction = Fraction(0), tells_speeds: bool = False) -> Foreign:
    """The schedule of a text's lines. tells_speeds: the last field of a slot is its speed."""
    reading = _Reading(most, tells_speeds)
    for line in source:
        reading.take(line)
    return reading.finish()


class _Reading:
    """What is read so far."""

    def __init__(self, most: Fraction, tells_speeds: bool) -> None:
        self._found = Foreign(most, {}, [], [], [], [])
        self._tells_speeds = tells_speeds
        self._units = Units()
        self._ticks = False
        self._run: Optional[Line] = None

    def take(self, line: Line) -> None:
        """Reads a line."""
        fields = line.fields
        kind = fields[0] if fields else ""
        if kind in NO:
            raise line.fault(f"the input is an answer of no: {printable(line.text)}")
        if kind == "slot":
            self._slot(line, fields)
        elif kind == "job":
            self._job(line, fields)
        else:
            self._other(line, fields)

    def finish(self) -> Foreign:
        """What was read of all lines."""
        if self._run and self._ticks:
            raise self._run.fault("runs in ticks and slots in one document; write all as slots")
        return self._found

    def _slot(self, line: Line, fields: List[str]) -> None:
        if len(fields) != 5:
            raise line.fault(
                f"a slot needs NAME FROM TO {'SPEED' if self._tells_speeds else 'WORK'}", min(len(fields), 5)
            )
        if fields[1] not in self._found.jobs:
            raise line.fault(f"no job {printable(fields[1])} stands before this slot", 1)
        start = self._number(line, fields, 2, "FROM", MOST_TIME)
        end = self._number(line, fields, 3, "TO", MOST_TIME)
        if not self._tells_speeds:
            work = self._number(line, fields, 4, "WORK", MOST_SLOT)
            self._found.slots.append(ForeignSlot(line, fields[1], start, end, work, None))
            return
        speed = self._number(line, fields, 4, "SPEED", MOST_SLOT)
        if start > end:
            raise line.fault("TO is before FROM", 3)
        self._found.slots.append(ForeignSlot(line, fields[1], start, end, speed * (end - start), speed))

    def _job(self, line: Line, fields: List[str]) -> None:
        if len(fields) != 5:
            raise line.fault("a job needs NAME RELEASE DEADLINE WORK", min(len(fields), 5))
        if fields[1] in self._found.jobs:
            raise line.fault(f"a second job is named {printable(fields[1])}", 1)
        row = [self._whole(line, fields, place) for place in (2, 3, 4)]
        self._found.jobs[fields[1]] = Job(fields[1], *row)
        self._found.others.append(" ".join(["job", fields[1], *map(str, row)]))

    def _whole(self, line: Line, fields: List[str], place: int) -> int:
        value = self._number(line, fields, place, "a job's", MOST_WORK if place == 4 else MOST_TIME)
        if value.denominator != 1:
            raise line.fault(f"{fields[place]} isn't whole; a job's times and work are, in a finer unit", place)
        return value.numerator

    def _number(self, line: Line, fields: List[str], place: int, what: str, greatest: int) -> Fraction:
        """The number of a field. One below 0 by at most `most` is 0, and is kept in mind."""
        text = fields[place]
        value = number(text)
        if value is None or value < -self._found.most:
            why = " of 0 or more" if re.match(r"-[0-9.]", text) else ", as 3, 1.25, 2.5e-3, 10/3 or 3+1/3"
            raise line.fault(f"{what} {printable(text)} is no number{why}", place)
        if value > greatest:
            raise line.fault(f"{what} {printable(text)} is above {greatest}, the greatest of a document", place)
        if value < 0:
            self._found.below.append(-value)
        return max(value, Fraction(0))

    def _other(self, line: Line, fields: List[str]) -> None:
        kind, value = [*fields, "", ""][:2]
        if line.text.startswith("#") and " unit " in line.text:
            self._units.take(line)
        if kind == "point" and re.fullmatch("[0-9]{1,30}", value):
            self._found.speeds.append(int(value))
        if kind == "ticks" and value != "1":
            self._ticks = True
        if kind == "run":
            self._run = line
            if "." in line.text:
                raise line.fault("a run has whole ticks and a whole speed; write it as a slot, and give --speeds")
        if kind == "energy" and not _ENERGY(value):
            self._found.others.append(f"# left out: {line.text} (no fraction of a document)")
        else:
            self._found.others.append(line.text)
