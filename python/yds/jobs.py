"""Jobs of a document with slots: when each began and ended, and which missed their deadlines."""

from __future__ import annotations

import re
from fractions import Fraction
from math import inf
from typing import Dict, Iterable, Iterator, List, NamedTuple, Optional, Set, Tuple, Union

from yds._comments import (
    HIDDEN,
    LEFT_OUT,
    LESS_THAN_UNIT,
    NOT_ENDED,
    WITHOUT_RUNS,
    Clock,
    Ends,
    Note,
    moved_by,
    moved_of,
    note_of,
)
from yds._held import Held, HeldJob
from yds._judged import Misses, misses
from yds._lacking import Lacking
from yds._missed import Miss
from yds._priced import Prices, Sum, speed_text
from yds._text import Comment, Fault, Job, Line, Point, Row, Rows, Slot, Ticks
from yds._unknown import Unknown

__all__ = ["JobRow", "Jobs", "Miss", "Misses", "Moved", "Number", "late_moved", "misses", "table"]

Number = Union[Fraction, float]
"""An exact number, or inf."""


class JobRow(NamedTuple):
    """A job of the table, in the document's units. None is what isn't known."""

    job: str
    left_out: str
    """Why it isn't in the document; empty where it is."""
    release: Optional[Number] = None
    deadline: Optional[Number] = None
    begin: Optional[Number] = None
    """When its first slot begins; inf where it never began."""
    end: Optional[Number] = None
    """When its last slot ends; inf where it never ended."""
    response: Optional[Number] = None
    slack: Optional[Number] = None
    """The time from end to deadline, below 0 where it is late."""
    late: Optional[Number] = None
    at_least: bool = False
    """Whether it was later than that by an unknown time."""
    energy: Optional[Fraction] = None


class Jobs(NamedTuple):
    """The table, and what the comments tell of the trace's clock."""

    rows: List[JobRow]
    clock: Clock
    workless: List[str]
    """The names of the jobs in the document that have no work."""
    lacking: Lacking
    """What the trace lacks: where events were lost, or no line tells of some time, whole jobs may have been."""
    unknown: Unknown
    """The jobs of which it isn't known whether they were in time."""


_REFUSED = re.compile(r"# refuse ([^ ]+) from [0-9]+ to [0-9]+ work ").match
REFUSED_BY_ADMIT = "refused by admit"


class _Reading:
    """What is read of a document for the table."""

    def __init__(self) -> None:
        self.held = Held()
        self.prices = Prices()
        self.clock = Clock()
        self.ends = Ends()
        self.lacking = Lacking()
        self.unknown = Unknown()
        self.ticks: Optional[int] = None
        self.order: List[Union[HeldJob, Note]] = []
        self.notes: Dict[str, Note] = {}
        self.late_ms: Dict[str, str] = {}
        self.open_ms: Dict[str, str] = {}
        """Of each job that hadn't ended where the trace ends, how long after its deadline that is."""
        self.hidden: Set[str] = set()
        self.energies: Dict[str, Sum] = {}
        self._unpriced: List[Slot] = []

    def take(self, row: Row) -> None:
        """Reads a row."""
        if isinstance(row, Comment):
            self._take_comment(row)
        elif isinstance(row, Job):
            self.order.append(self.held.take_job(row))
        elif isinstance(row, Slot):
            self.held.take_slot(row)
            if self.prices.points:
                self._price(row)
            else:
                self._unpriced.append(row)
        elif isinstance(row, Point):
            if self.energies:
                raise row.line.fault("a point behind a slot; put all points before the slots", 0)
            self.prices.take(row)
        elif isinstance(row, Ticks):
            self.ticks = row.ticks

    def _take_comment(self, row: Comment) -> None:
        self.clock.take(row.text)
        self.lacking.take(row.text)
        self.unknown.take(row.text)
        moved = moved_of(row.text)
        if moved is not None:
            self.held.take_moved(*moved)
        if self.ends.take(row.text):
            return
        refused = _REFUSED(row.text)
        if refused:
            self.order.append(Note(LEFT_OUT, refused.group(1), REFUSED_BY_ADMIT, None, False, False, None, row.text))
        note = note_of(row.text)
        if note is None:
            return
        if note.kind == LEFT_OUT:
            self.order.append(note)
        elif note.kind == WITHOUT_RUNS:
            self.notes[note.job] = note
        elif note.kind in (*HIDDEN, LESS_THAN_UNIT) and note.late is not None:
            self.late_ms[note.job] = note.late
            self.hidden |= {note.job} if note.kind in HIDDEN else set()
        elif note.kind == NOT_ENDED and note.late is not None:
            self.open_ms[note.job] = note.late

    def finish(self) -> None:
        """Says that all rows are read."""
        if not self.order:
            raise Fault("no job line")
        if not self.held.slots and self.ticks is None:
            answers = "the answer of plan, round, avr or oa"
            raise Fault(f"no slot and no run line; the input is a trace's document, or {answers}")
        if self.prices.points:
            for slot in self._unpriced:
                self._price(slot)

    def _price(self, slot: Slot) -> None:
        shares = self.prices.shares(slot)
        if not shares:
            above = f"the speed {speed_text(slot)} of {slot.job} is above the top point {self.prices.top}"
            raise slot.line.fault(f"{above}; leave the points out, or give those of this processor", 4)
        energy = self.energies.setdefault(slot.job, Sum())
        for share in shares:
            energy.add(self.prices.points[share.place][1] * share.numerator, share.denominator)


def table(rows: Iterable[Row], microseconds: Optional[int] = None) -> Jobs:
    """The table of a document's rows. microseconds: those of a unit of time, where no comment tells them."""
    reading = _Reading()
    for row in rows:
        reading.take(row)
    reading.finish()
    if microseconds is not None:
        reading.clock.unit = microseconds
    filled = _Filled(reading)
    workless = [job.name for job in reading.held.workless()]
    rows_of = [filled.row(one) for one in reading.order]
    return Jobs(rows_of, reading.clock, workless, reading.lacking, reading.unknown)


class _Filled:
    """The rows of what was read."""

    def __init__(self, reading: _Reading) -> None:
        self._reading = reading

    def row(self, one: Union[HeldJob, Note]) -> JobRow:
        """The row of a job, or of one that was left out."""
        if isinstance(one, Note):
            return self._noted(one.job, one.reason, one.window, one)
        note = self._reading.notes.get(one.name)
        if note is not None:
            window = note.window
            if window is not None and window[0] >= 0:
                window = (one.release, one.deadline)
            begin = self._begin(one)
            energy = self._reading.energies.get(one.name)
            row = self._noted(one.name, "", window, note)
            return row._replace(begin=None if begin == inf else begin, energy=energy.value() if energy else None)
        return self._of_slots(one)

    def _noted(self, job: str, left_out: str, window: Optional[Tuple[int, int]], note: Note) -> JobRow:
        """The row of a job whose runs aren't in the document."""
        release, deadline = (None, None) if window is None else (Fraction(window[0]), Fraction(window[1]))
        end: Optional[Number] = None
        late: Optional[Number] = None
        if note.never:
            end = late = inf
        elif note.late is not None:
            late = self._units(note.late)
            if deadline is not None and not note.at_least:
                end = deadline + late
        response = None if end is None or release is None else end - release
        slack = None if late is None else -late if late or end is None or deadline is None else deadline - end
        return JobRow(job, left_out, release, deadline, None, end, response, slack, late, note.at_least)

    def _of_slots(self, job: HeldJob) -> JobRow:
        reading = self._reading
        release, deadline = Fraction(job.release), Fraction(job.deadline)
        late_ms = reading.late_ms.get(job.name)
        if late_ms is not None:
            late: Number = self._units(late_ms)
            end: Number = deadline + late
        else:
            end = self._end(job)
            late = max(end - deadline, Fraction(0)) if end != inf else inf
        slack = -late if late else deadline - end
        energy = reading.energies.get(job.name)
        spent = energy.value() if energy else Fraction(0) if reading.prices.points else None
        return JobRow(job.name, "", release, deadline, self._begin(job), end, end - release, slack, late, False, spent)

    def _begin(self, job: HeldJob) -> Number:
        told = self._reading.ends.begin.get(job.name)
        if told is not None:
            return Fraction(told, self._reading.ticks or 1)
        if job.begin is not None:
            return Fraction(*job.begin)
        if job.name in self._reading.notes:
            return inf
        return Fraction(job.release) if job.is_done else inf

    def _end(self, job: HeldJob) -> Number:
        told = self._reading.ends.end.get(job.name)
        if not job.is_done:
            return inf
        if told is not None:
            return Fraction(told, self._reading.ticks or 1)
        return Fraction(job.release) if job.end is None else Fraction(*job.end)

    def _units(self, milliseconds: str) -> Fraction:
        unit = self._reading.clock.unit
        if not unit:
            raise Fault("no comment tells the unit of time; give --us")
        return Fraction(milliseconds) * 1000 / unit


class Moved(NamedTuple):
    """A document in which each late job's deadline is where it ended, rounded up to a unit of time."""

    lines: List[str]
    moved: List[str]
    """The jobs whose deadlines were moved."""
    unended: List[str]
    """Those among them that hadn't ended: their deadlines are where the last is known of them."""
    undone: List[str]
    """Jobs that didn't get their work, and of which nothing is known after their deadline: these stay."""


def late_moved(source: Iterable[Line], microseconds: Optional[int] = None) -> Moved:
    """The document of these lines with the deadlines of late jobs moved. microseconds: those of a unit of time."""
    kept: List[Line] = []
    reading = _Reading()
    for row in Rows(_kept(source, kept)):
        reading.take(row)
    reading.finish()
    if microseconds is not None:
        reading.clock.unit = microseconds
    return _Moving(reading).document(kept)


def _kept(source: Iterable[Line], kept: List[Line]) -> Iterator[Line]:
    for line in source:
        kept.append(line)
        yield line


class _Moving:
    """Where the windows of late jobs end."""

    def __init__(self, reading: _Reading) -> None:
        self._reading = reading
        self._filled = _Filled(reading)
        self._found = Moved([], [], [], [])

    def document(self, kept: Iterable[Line]) -> Moved:
        """The lines, each moved job with a comment below it."""
        for line in kept:
            fields = line.fields
            if moved_of(line.text) is not None:
                continue
            if fields[:1] == ["job"]:
                self._take(fields[1], line.text)
            else:
                self._found.lines.append(line.text)
        return self._found

    def _take(self, name: str, text: str) -> None:
        job = self._reading.held.named(name)
        assert job is not None
        end = self._end(job)
        if end is None or end <= job.deadline:
            self._found.lines.append(text)
            self._found.undone.extend([name] if not job.is_done and name not in self._reading.notes else [])
            return
        until = -(-end.numerator // end.denominator)
        work = job.wanted - (name in self._reading.hidden and job.work == (job.wanted - 1) * job.grain)
        self._found.lines.extend([f"job {name} {job.release} {until} {work}", moved_by(name, until - job.deadline)])
        self._found.moved.append(name)
        self._found.unended.extend([] if job.is_done or name in self._reading.hidden else [name])

    def _end(self, job: HeldJob) -> Optional[Fraction]:
        """The job's end, or until when it is known not to have ended; None where that isn't known."""
        if job.name in self._reading.notes:
            return None
        row = self._filled.row(job)
        if row.end is not None and row.end != inf:
            return Fraction(row.end)
        known = [Fraction(*job.end)] if job.end is not None else []
        open_ms = self._reading.open_ms.get(job.name)
        if open_ms is not None and self._reading.clock.unit:
            known.append(job.deadline + Fraction(open_ms) * 1000 / self._reading.clock.unit)
        return max(known, default=None)
