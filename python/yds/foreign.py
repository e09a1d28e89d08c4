"""Schedules of other programs, with decimals or fractions of any kind, as slots of a document."""

from __future__ import annotations

from fractions import Fraction
from typing import Dict, List, NamedTuple, Optional, Sequence, Tuple

from yds._foreign import Foreign, ForeignSlot, read
from yds._near import Mended, Search, Unfit
from yds._numbers import total
from yds._spelling import common
from yds._text import Fault, Line

__all__ = ["Foreign", "ForeignSlot", "Mend", "Nearby", "SlotNear", "nearby", "read"]

_FIELDS = ("FROM", "TO", "WORK")
_BOUNDS = {"early": "FROM is before the release", "late": "TO is after the deadline"}


class SlotNear(NamedTuple):
    """A slot of the document: its ends over one denominator, its work over that of its job."""

    job: str
    start: Fraction
    end: Fraction
    work: Fraction
    per: int
    """The denominator of both ends."""
    grain: int
    """The denominator of the works of all slots of the job."""


class Mend(NamedTuple):
    """A condition that fails in the input and holds of the document, by how much it fails, and what it is."""

    amount: Fraction
    told: str


class Nearby(NamedTuple):
    """The slots of the document in the order of their times, and how far they are from the input."""

    slots: List[SlotNear]
    error: Fraction
    """By how much a number was moved at most."""
    place: str
    """The line and the field of that number; empty where none was moved."""
    mends: List[Mend]
    to_points: int
    """How many slots come to the speed of a point."""
    off_points: int
    """How many leave it."""
    first_off: int
    """The line of the first of these."""
    is_sorted: bool
    """Whether the input had another order."""
    left_out: int
    """How many slots have no work, or none once it is moved."""
    first_left_out: int
    """The line of the first of these."""


def nearby(given: Foreign) -> Nearby:
    """The schedule at its word, or with `most` above 0 one near it."""
    if not given.slots:
        raise Fault("no slot line; give the schedule as slot NAME FROM TO WORK")
    rows = [(slot.job, slot.start, slot.end, slot.work) for slot in given.slots]
    rates = [slot.speed for slot in given.slots if slot.speed is not None]
    try:
        search = Search(list(given.jobs.values()), given.speeds, rows, given.most, rates or None)
    except Unfit as fault:
        raise given.slots[fault.place].line.fault(_told(fault, given.most)) from None
    to_points, off_points = search.points()
    error, place = _greatest_move(given, search)
    order = sorted(range(len(rows)), key=lambda place: rows[place][1:3])
    return Nearby(
        _slots(search),
        error,
        place,
        _mends(given, search),
        len(to_points),
        len(off_points),
        _first(given, off_points),
        order != list(range(len(rows))),
        len(search.left_out),
        _first(given, search.left_out),
    )


def _told(fault: Unfit, most: Fraction) -> str:
    """What is wrong, and what to do."""
    if fault.cause == "short":
        both = spelled(fault.value, fault.value.denominator)
        return f"the slot is so short that both its ends become {both}; give a smaller --most"
    if fault.cause == "ends":
        advice = "a greater --most" if most else "--most, as 0.000001"
        return f"the two ends have no common denominator up to 2^60; give {advice}"
    why = f", and no move by --most makes them add up to {fault.value}" if most else "; give --most, as 0.000001"
    return f"the works of job {fault.job} have no common denominator up to 2^60{why}"


def _first(given: Foreign, places: Sequence[int]) -> int:
    return given.slots[places[0]].line.number if places else 0


def _slots(search: Search) -> List[SlotNear]:
    grains: Dict[str, int] = {}
    for place in search.kept:
        job, _, _, work = search.moved[place]
        grains[job] = common([grains.get(job, 1), work.denominator])
    found = []
    for place in search.kept:
        job, start, end, work = search.moved[place]
        found.append(SlotNear(job, start, end, work, common([start.denominator, end.denominator]), grains[job]))
    return found


def _greatest_move(given: Foreign, search: Search) -> Tuple[Fraction, str]:
    """How far a number was moved at most, and where first. A work that is speed times time isn't moved."""
    greatest: Tuple[Fraction, Optional[Tuple[Line, str]]] = (Fraction(0), None)
    for place in search.kept:
        slot, moved = given.slots[place], search.moved[place]
        for field, was, now in zip(_FIELDS, (slot.start, slot.end, slot.work), moved[1:]):
            if field == "WORK" and slot.job in search.at_rates:
                continue
            if abs(was - now) > greatest[0]:
                greatest = abs(was - now), (slot.line, field)
    error, where = greatest
    return error, "" if where is None else f"line {where[0].number}, {where[1]}"


def _mends(given: Foreign, search: Search) -> List[Mend]:
    """What fails in the input and holds here, in words."""
    works: Dict[str, List[Fraction]] = {}
    for slot in given.slots:
        works.setdefault(slot.job, []).append(slot.work)
    before = dict(zip(search.kept[1:], search.kept))
    found = []
    for mended in search.mended:
        if mended.index is None:
            how = "little" if total(works[mended.job]) < given.jobs[mended.job].work else "much"
            found.append(Mend(mended.amount, f"job {mended.job} was given too {how}"))
            continue
        line = given.slots[mended.index].line.number
        bound = _BOUNDS.get(mended.condition)
        if bound is None:
            bound = f"FROM is before the end of line {given.slots[before[mended.index]].line.number}"
        found.append(Mend(mended.amount, f"line {line}, {bound}"))
    return found


def spelled(value: Fraction, denominator: int) -> str:
    """The number as a document has it, over this multiple of its denominator.

    >>> spelled(Fraction(5, 2), 4), spelled(Fraction(3), 4)
    ('2+2/4', '3')
    """
    whole, rest = divmod(value.numerator * (denominator // value.denominator), denominator)
    return f"{whole}+{rest}/{denominator}" if rest else str(whole)


def told(value: Fraction) -> str:
    """Three digits of a number above 0, rounded up.

    >>> told(Fraction(1, 3)), told(Fraction(1, 250)), told(Fraction(9999, 10**6))
    ('3.34e-01', '4e-03', '1e-02')
    """
    exponent = len(str(value.numerator)) - len(str(value.denominator))
    if value < Fraction(10) ** exponent:
        exponent -= 1
    digits = -(-value * 100 // Fraction(10) ** exponent)
    if digits == 1000:
        digits, exponent = 100, exponent + 1
    shown = f"{digits // 100}.{digits % 100:02d}".rstrip("0").rstrip(".")
    return f"{shown}e{exponent:+03d}"
