"""What the slots of a document spend on its points, or all its jobs at one of them, and which deadlines are missed."""

from __future__ import annotations

from fractions import Fraction
from typing import Dict, Iterable, List, NamedTuple, Optional, Sequence, Set, Tuple

from yds._comments import LEFT_OUT, LESS_THAN_UNIT, Missing, note_of, workless
from yds._held import Held, HeldJob
from yds._idle import Idle
from yds._priced import Prices, Sum, decimal
from yds._served import at_speed
from yds._text import Comment, Fault, Job, Point, Row, Slot, Ticks, spelled


class Misses:
    """The missed deadlines: how many, and the first, which is that of the earliest deadline."""

    def __init__(self) -> None:
        self.count = 0
        self.first = ""
        self._earliest: Optional[int] = None

    def add(self, job: str, due: Optional[int]) -> None:
        """One more. One whose deadline isn't known is the first only where there is no other."""
        if not self.count or (due is not None and (self._earliest is None or due < self._earliest)):
            self.first, self._earliest = job, due
        self.count += 1


class Spent(NamedTuple):
    """What a side spends."""

    energy: Fraction
    times: List[Fraction]
    """Units of time at each point."""
    is_rounded: bool
    """Whether the numbers are told in thousandths."""
    misses: Misses
    told: List[str]
    """What is told beside it, as comments."""
    changes: Optional[Tuple[int, int]] = None
    """How often one speed changes, and wakes; None where slots are spent."""

    def lines(self, name: str, points: Sequence[Tuple[int, int]]) -> List[str]:
        """The lines of compare, and the comments."""
        lines = [f"{name} energy {self._number(self.energy)}"]
        lines += [f"{name} time {speed} {self._number(time)}" for (speed, _), time in zip(points, self.times)]
        lines += ["# rounded to thousandths"] if self.is_rounded else []
        lines += [] if self.changes is None else [f"# {name} changes {self.changes[0]}, wakes {self.changes[1]}"]
        lines += self.told
        if self.misses.count:
            deadlines = "deadlines" if self.misses.count > 1 else "deadline"
            lines.append(f"# {name} misses {self.misses.count} {deadlines}, the first {self.misses.first}")
        return lines

    def _number(self, value: Fraction) -> str:
        if self.is_rounded:
            return spelled((2000 * value + 1) // 2, 1000)
        return spelled(value.numerator, value.denominator)


class Reading:
    """A document that was read: its points and jobs, the time at each point, and what comments tell."""

    def __init__(self, with_slots: bool, idle: Sequence[str] = ()) -> None:
        """idle: the names of threads that are taken for idle."""
        self.held = Held()
        self.prices = Prices()
        self.idle = Idle(idle)
        self.missing = Missing(self.idle.takes)
        self._with_slots = with_slots
        self._known_late: List[Tuple[str, Optional[int]]] = []
        self._times: Dict[int, Sum] = {}
        self._busy = Sum()
        self._unpriced: List[Slot] = []
        self._last: Optional[Slot] = None
        self._start: Optional[Tuple[int, int]] = None
        self._is_rounded = self._has_slots = self._in_ticks = False

    def read(self, rows: Iterable[Row]) -> None:
        """Reads all rows."""
        for row in rows:
            if isinstance(row, Comment):
                self._take_comment(row)
            elif isinstance(row, Job):
                self.held.take_job(row)
            elif isinstance(row, Slot):
                self._take_slot(row)
            elif isinstance(row, Point):
                if self._times:
                    raise row.line.fault("a point behind a slot; put all points before the slots", 0)
                self.prices.take(row)
        if not self.prices.points:
            raise Fault("no point line; put the points before the document, as yds-join points.txt trace.txt")
        if not self.held.jobs:
            raise Fault("no job line")
        if self._with_slots and not self.held.slots:
            answers = "the answer of plan, round, avr or oa"
            raise Fault(f"no slot and no run line; the input is a trace's document, or {answers}")
        for slot in self._unpriced:
            self._price(slot)

    def _take_comment(self, row: Comment) -> None:
        self.missing.take(row.text)
        note = note_of(row.text)
        if note is not None and note.late is not None and note.kind in (LEFT_OUT, LESS_THAN_UNIT):
            self._known_late.append((note.job, None if note.window is None else note.window[1]))

    def _take_slot(self, slot: Slot) -> None:
        before = self._last
        if before is not None and slot.start * before.per < before.end * slot.per:
            advice = "sort them, or see what yds_cli audit says"
            raise slot.line.fault(f"it begins before the {slot.kind} above it has ended; {advice}", 2)
        self.held.take_slot(slot)
        self._start = self._start or (slot.start, slot.per)
        self._last = slot
        if slot.kind == "slot":
            self._has_slots = True
            self._is_rounded = self._is_rounded or slot.per > 1 or slot.grain > 1
        else:
            self._in_ticks = self._in_ticks or slot.per > 1
        if not self._with_slots:
            return
        if self.prices.points:
            self._price(slot)
        else:
            self._unpriced.append(slot)

    def _price(self, slot: Slot) -> None:
        shares = self.prices.shares(slot)
        if not shares:
            where = f"from {decimal(Fraction(slot.start, slot.per))} to {decimal(Fraction(slot.end, slot.per))}"
            told = f"the speed {decimal(slot.speed)} {where} is above the top point {self.prices.top}"
            raise slot.line.fault(told, 4)
        self._is_rounded = self._is_rounded or len(shares) > 1
        self._busy.add(slot.end - slot.start, slot.per)
        for share in shares:
            self._times.setdefault(share.place, Sum()).add(share.numerator, share.denominator)

    @property
    def _window(self) -> Tuple[int, int]:
        return min(job.release for job in self.held.jobs), max(job.deadline for job in self.held.jobs)

    def of_slots(self) -> Spent:
        """What the slots spend, from the first release or begin to the last deadline or end."""
        first, last = map(Fraction, self._window)
        assert self._start is not None and self._last is not None
        first = min(first, Fraction(*self._start))
        last = max(last, Fraction(self._last.end, self._last.per))
        times = [self._times[place].value() if place in self._times else Fraction(0) for place in range(self._points)]
        times[0] += last - first - self._busy.value()
        energy = sum((power * time for (_, power), time in zip(self.prices.points, times)), Fraction(0))
        misses = Misses()
        late = {job.name for job in self.held.jobs if job.late or not job.is_done}
        for name, due in self._known_late:
            if name in self.missing.moved:
                continue
            if self.held.named(name) is None:
                misses.add(name, due)
            else:
                late.add(name)
        self._add(misses, late)
        is_rounded = self._is_rounded or (self._has_slots and self._in_ticks)
        return Spent(energy, times, is_rounded, misses, self._told())

    def at(self, speed: int) -> Spent:
        """What all jobs spend at the point of this speed, idle for the rest."""
        found = [place for place, point in enumerate(self.prices.points) if point[0] == speed]
        if not found or not speed:
            raise Fault(f"no point has the speed {speed}")
        jobs = [(job.release, job.deadline, job.wanted) for job in self.held.jobs]
        first, last = self._window
        if sum(job[2] for job in jobs) > speed * (last - first):
            raise Fault(f"the work of all jobs is more than the point {speed} does in the whole time")
        points = self.prices.points
        served = at_speed(jobs, speed, points[found[0]][1], points[0][1])
        times = [Fraction(0)] * self._points
        times[0], times[found[0]] = served.idle, served.running
        misses = Misses()
        self._add(misses, {self.held.jobs[place].name for place in served.missed})
        return Spent(served.energy, times, False, misses, self._told(), (served.changes, served.wakes))

    @property
    def _points(self) -> int:
        return len(self.prices.points)

    def _add(self, misses: Misses, late: Set[str]) -> None:
        for job in self.held.jobs:
            if job.name in late:
                misses.add(job.name, job.deadline)

    def _told(self) -> List[str]:
        found = self.held.workless()
        told = [workless(len(found), found[0].name)] if found else []
        return [*told, *self.missing.told(), *self.idle.told()]
