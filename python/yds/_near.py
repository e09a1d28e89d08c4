"""A schedule of exact numbers near one of decimals. `yds.schedule.near` says what it does."""

from __future__ import annotations

import math
from dataclasses import dataclass
from fractions import Fraction
from typing import Any, Callable, Dict, Iterable, List, Optional, Sequence, Set, Tuple

from yds._forms import Form, name, read
from yds._numbers import Decimalish, decimal, total
from yds._spelling import common
from yds.rows import Job, Slot

_GREATEST = 2**60
"""The greatest denominator of a document."""

Row = Tuple[str, Fraction, Fraction, Fraction]


@dataclass(frozen=True)
class Mended:
    """A condition that fails in what was given, and holds of the schedule nearby."""

    condition: str
    """'early', 'late', 'overlap' or 'work', as the causes of a verdict."""
    job: str
    """The job that is concerned."""
    index: Optional[int]
    """The place of the slot in the given list, counted from 0; None for 'work'."""
    amount: Fraction
    """By how much it fails (units of time; of work for 'work')."""


@dataclass(frozen=True)
class Near:
    """A schedule of exact numbers, and how far it is from what was given."""

    slots: Tuple[Slot, ...]
    """The slots in the given order, but for those that were left out."""
    error: Fraction
    """By how much a number was moved at most (units of time or of work)."""
    index: Optional[int]
    """The place in the given list of the slot whose number that was; None where none was moved."""
    field: Optional[str]
    """The field of that number: 'start', 'end' or 'work'."""
    mended: Tuple[Mended, ...]
    """What fails in the given numbers and holds here. Look at it before a yes is believed."""
    left_out: Tuple[int, ...]
    """The places in the given list of slots without work, or without any once they are moved."""
    to_points: Tuple[int, ...]
    """The places of slots that run at the speed of a point here, and didn't as they were given."""
    off_points: Tuple[int, ...]
    """The places of slots that ran at the speed of a point as they were given, and don't here."""


def near(jobs: Sequence[Job], speeds: Iterable[int], slots: Iterable[Any], most: Decimalish) -> Near:
    """The schedule nearby, for a document's jobs and the speeds of its points."""
    bound = decimal(most)
    if not 0 <= bound < Fraction(1, 2):
        raise ValueError(f"most is from 0 to below 1/2, and not {most!r}")
    try:
        return Search(jobs, speeds, _taken(slots, bound), bound).found()
    except Unfit as fault:
        raise ValueError(_told(fault)) from None


class Unfit(ValueError):
    """What no document has: a slot that vanishes, or numbers without a common denominator."""

    def __init__(self, cause: str, place: int, job: str, value: Fraction) -> None:
        self.cause, self.place, self.job, self.value = cause, place, job, value
        """cause: 'short', and value is what both ends of the slot become; 'ends'; or 'works', and value is what the job
        needs. place is that of the slot, or of the job's first."""
        super().__init__(cause)


def _told(fault: Unfit) -> str:
    if fault.cause == "short":
        return f"slots[{fault.place}] is so short that both its ends become {fault.value}: take a smaller most"
    if fault.cause == "ends":
        return f"the ends of slots[{fault.place}] have no common denominator up to 2^60: take a greater most"
    return (
        f"the works of job {fault.job} have no common denominator up to 2^60, "
        f"and no move by most makes them add up to {fault.value}: take a greater most"
    )


def _taken(slots: Iterable[Any], most: Fraction) -> List[Row]:
    """The slots at their word."""

    def number(value: Any) -> Fraction:
        taken = decimal(value)
        if taken < -most:
            raise ValueError(f"{value!r} is below 0, by more than most")
        return taken

    form = Form("slots", ("job", "start", "end", "work"), (name, number, number, number))
    return [(job, start, end, work) for job, start, end, work in read(form, slots)]


class Search:
    """The given slots, and those nearby."""

    def __init__(
        self,
        jobs: Sequence[Job],
        speeds: Iterable[int],
        given: List[Row],
        most: Fraction,
        rates: Optional[Sequence[Fraction]] = None,
    ) -> None:
        """speeds: those of the points. rates: the speed of each slot, where these and no works were given."""
        self._jobs = {job.name: job for job in jobs}
        self._speeds = set(speeds)
        self._given = given
        self._most = most
        self._rates = rates
        for place, (job, *_) in enumerate(given):
            if job not in self._jobs:
                raise ValueError(f"slots[{place}].job: the document has no job {job!r}")
        self.mended: List[Mended] = []
        self.at_rates: Set[str] = set()
        """The jobs whose works are speed times time, with the ends as they are moved."""
        ends = [(_simplest_near(start, most), _simplest_near(end, most)) for _, start, end, _ in given]
        works = self._works(ends)
        self.moved = [(row[0], *ends[place], works[place]) for place, row in enumerate(given)]
        self.kept = sorted(
            (place for place, row in enumerate(self.moved) if row[3]),
            key=lambda place: (given[place][1], given[place][2]),
        )
        """The places of the slots with work, in the order of their times as given."""
        for place in sorted(self.kept):
            self._look_at(place, self.moved[place])
        self._bounds()

    def found(self) -> Near:
        """The schedule nearby, with all that is told of it."""
        error, index, field = self._greatest_move()
        to_points, off_points = self.points()
        return Near(
            tuple(Slot(*self.moved[place]) for place in sorted(self.kept)),
            error,
            index,
            field,
            tuple(self.mended),
            self.left_out,
            to_points,
            off_points,
        )

    @property
    def left_out(self) -> Tuple[int, ...]:
        """The places of slots without work, or without any once they are moved."""
        return tuple(place for place, row in enumerate(self.moved) if not row[3])

    def points(self) -> Tuple[Tuple[int, ...], Tuple[int, ...]]:
        """The places of slots that come to the speed of a point, and of those that leave one."""
        was, is_now = (self._at_points(rows) for rows in (self._given, self.moved))
        return tuple(sorted(is_now - was)), tuple(sorted(was - is_now))

    def _look_at(self, place: int, moved: Row) -> None:
        """Raises Unfit where the slot vanished, or no document can have its ends."""
        job, start, end, _ = moved
        given = self._given[place]
        if start == end and given[1] != given[2]:
            raise Unfit("short", place, job, start)
        if common([start.denominator, end.denominator]) > _GREATEST:
            raise Unfit("ends", place, job, start)

    def _works(self, ends: Sequence[Tuple[Fraction, Fraction]]) -> Dict[int, Fraction]:
        """The work of each slot, moved job by job."""
        places: Dict[str, List[int]] = {}
        for place, (job, _, _, work) in enumerate(self._given):
            if work > 0:
                places.setdefault(job, []).append(place)
        works = {place: Fraction(0) for place in range(len(self._given))}
        for job, its in places.items():
            given = [self._given[place][3] for place in its]
            wanted = Fraction(self._jobs[job].work)
            moved = self._by_rates(job, its, ends, wanted)
            if moved is None:
                moved = self._works_of(job, its[0], given, wanted)
            if total(given) != wanted and total(moved) == wanted:
                self.mended.append(Mended("work", job, None, abs(total(given) - wanted)))
            works.update(zip(its, moved))
        return works

    def _by_rates(
        self, job: str, its: List[int], ends: Sequence[Tuple[Fraction, Fraction]], wanted: Fraction
    ) -> Optional[List[Fraction]]:
        """Speed times time of the job's slots, where that adds up to what it needs."""
        if self._rates is None or not self._most:
            return None
        moved = [self._rates[place] * (ends[place][1] - ends[place][0]) for place in its]
        if total(moved) != wanted or not _has_one_denominator(moved):
            return None
        self.at_rates.add(job)
        return moved

    def _works_of(self, job: str, first: int, given: List[Fraction], wanted: Fraction) -> List[Fraction]:
        """The works of a job's slots: those that add up to what it needs, if there are some, and else as given."""
        ways: Tuple[Callable[[], Optional[List[Fraction]]], ...] = (
            lambda: [_simplest_near(work, self._most) for work in given],
            lambda: given,
            lambda: _shared(given, wanted, self._most),
        )
        for way in ways:
            moved = way()
            if moved is not None and total(moved) == wanted and _has_one_denominator(moved):
                return moved
        if not _has_one_denominator(given):
            raise Unfit("works", first, job, wanted)
        return given

    def _bounds(self) -> None:
        """What fails of each slot as given and holds as moved."""
        before: Optional[int] = None
        for place in self.kept:
            (job, start, end, _), (_, new_start, new_end, _) = self._given[place], self.moved[place]
            row = self._jobs[job]
            if start < row.release <= new_start:
                self.mended.append(Mended("early", job, place, row.release - start))
            if end > row.deadline >= new_end:
                self.mended.append(Mended("late", job, place, end - row.deadline))
            if before is not None and start < self._given[before][2] and new_start >= self.moved[before][2]:
                self.mended.append(Mended("overlap", job, place, self._given[before][2] - start))
            before = place

    def _greatest_move(self) -> Tuple[Fraction, Optional[int], Optional[str]]:
        """How far a number was moved at most, and which."""
        greatest: Tuple[Fraction, Optional[int], Optional[str]] = (Fraction(0), None, None)
        for place, (old, new) in enumerate(zip(self._given, self.moved)):
            for field, one, other in zip(("start", "end", "work"), old[1:], new[1:]):
                if abs(one - other) > greatest[0]:
                    greatest = abs(one - other), place, field
        return greatest

    def _at_points(self, rows: Sequence[Row]) -> Set[int]:
        """The places of slots that run at the speed of a point."""
        return {
            place
            for place in self.kept
            if rows[place][1] < rows[place][2] and rows[place][3] / (rows[place][2] - rows[place][1]) in self._speeds
        }


def _simplest_near(value: Fraction, most: Fraction) -> Fraction:
    """The fraction of least denominator within most of the value, and not below 0; the value where it is whole."""
    if value < 0:
        return Fraction(0)
    if not most or value.denominator == 1:
        return value
    return simplest(max(value - most, Fraction(0)), value + most)


def simplest(low: Fraction, high: Fraction) -> Fraction:
    """The fraction of least denominator from low to high, of those the least: by their continued fractions.

    >>> simplest(Fraction(31, 100), Fraction(35, 100))
    Fraction(1, 3)
    """
    wholes = []
    while True:
        whole = math.floor(low)
        if low == whole or math.floor(high) > whole:
            wholes.append(math.ceil(low))
            break
        wholes.append(whole)
        low, high = 1 / (high - whole), 1 / (low - whole)
    found = Fraction(wholes.pop())
    while wholes:
        found = wholes.pop() + 1 / found
    return found


def _shared(given: Sequence[Fraction], wanted: Fraction, most: Fraction) -> Optional[List[Fraction]]:
    """The works, all moved by one amount so that they add up; None where one would be moved by more than most."""
    if not most:
        return None
    scale = 1
    while scale * most < 4:
        scale *= 10
    half = Fraction(1, 2)
    near_by = [
        work if work.denominator <= scale else Fraction(math.floor(work * scale + half), scale) for work in given
    ]
    amount = (wanted - total(near_by)) / len(given)
    moved = [work + amount for work in near_by]
    if any(new <= 0 or abs(new - old) > most for new, old in zip(moved, given)):
        return None
    return moved


def _has_one_denominator(values: Iterable[Fraction]) -> bool:
    return common(value.denominator for value in values) <= _GREATEST
