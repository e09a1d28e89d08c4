"""A document, read whole for its page: its rows, the spans of time in which somebody ran, and its comments."""

from __future__ import annotations

import re
from bisect import bisect_left
from fractions import Fraction
from typing import Dict, Iterable, List, NamedTuple, Optional, Tuple

from yds._comments import Clock, moved_of, other_span
from yds._idle import Idle
from yds._lacking import Lacking
from yds._text import Comment, Fault, Job, Line, Point, Rows, Slot, Ticks, Units

_NUMBER = re.compile(r".+\.([0-9]{1,64})(?:@[0-9]+)?").fullmatch


def number_of(job: str) -> Optional[int]:
    """The number of a job in its task, as of a share of it; None where its name has none.

    >>> number_of("decode.12"), number_of("a"), number_of("decode.12@3")
    (12, None, 12)
    """
    found = _NUMBER(job)
    return None if found is None else int(found.group(1))


class Span(NamedTuple):
    """A time in which a job, or a thread that isn't listed, had the processor."""

    start: Fraction
    end: Fraction
    name: str
    """The job, or NAME-PID of the thread."""
    work: Fraction
    """Units of work; 0 of a thread that isn't listed."""

    @property
    def length(self) -> Fraction:
        """Units of time."""
        return self.end - self.start

    @property
    def speed(self) -> Fraction:
        """Work per unit of time."""
        return self.work / self.length


class Spans:
    """Spans in the order of their begins."""

    def __init__(self, spans: Iterable[Span]) -> None:
        self.all = sorted(spans)
        self._starts = [span.start for span in self.all]
        self._longest = max((span.length for span in self.all), default=Fraction(0))

    def within(self, start: Fraction, end: Fraction) -> List[Span]:
        """What of the spans lies from start to end, each cut to that, with its share of the work."""
        first = bisect_left(self._starts, start - self._longest)
        last = bisect_left(self._starts, end)
        found = []
        for span in self.all[first:last]:
            begin, close = max(span.start, start), min(span.end, end)
            if begin < close:
                found.append(Span(begin, close, span.name, span.work * (close - begin) / span.length))
        return found


class Gathered:
    """The rows of a document."""

    def __init__(self, lines: Iterable[Line], idle: Iterable[str] = ()) -> None:
        """idle: the names of threads that are taken for idle."""
        self.lines: List[Line] = []
        self.idle = Idle(idle)
        self.lacking = Lacking()
        self.jobs: Dict[str, Job] = {}
        self.moved: Dict[str, int] = {}
        """By how many units of time deadlines were moved to the ends of late jobs."""
        self.points: List[Tuple[int, int]] = []
        self.comments: List[str] = []
        self.clock = Clock()
        self.ticks: Optional[int] = None
        self._slots: List[Slot] = []
        self._others: List[Tuple[int, int, str]] = []
        self.units = self._read(lines)
        if not self.jobs:
            raise Fault("no job line; look at what wrote the document")
        if not self._slots and self.ticks is None:
            raise Fault(
                "no slot and no run line, so there is nothing to judge; give a trace's document, or the answer of plan, "
                "round, avr or oa"
            )
        per = self.ticks or 1
        self.slots = Spans(
            Span(
                Fraction(slot.start, slot.per), Fraction(slot.end, slot.per), slot.job, Fraction(slot.work, slot.grain)
            )
            for slot in self._slots
        )
        self.others = Spans(
            Span(Fraction(start, per), Fraction(end, per), name, Fraction(0)) for start, end, name in self._others
        )

    def _read(self, lines: Iterable[Line]) -> Units:
        rows = Rows(self._kept(lines))
        for row in rows:
            if isinstance(row, Job):
                self.jobs[row.name] = row
            elif isinstance(row, Slot):
                self._slots.append(row)
            elif isinstance(row, Point):
                self.points.append((row.speed, row.power))
            elif isinstance(row, Ticks):
                self.ticks = row.ticks
            elif isinstance(row, Comment):
                self._take_comment(row.text)
        return rows.units

    def _kept(self, lines: Iterable[Line]) -> Iterable[Line]:
        for line in lines:
            self.lines.append(line)
            yield line

    def _take_comment(self, text: str) -> None:
        self.clock.take(text)
        moved, other = moved_of(text), other_span(text)
        if moved is not None:
            self.moved[moved[0]] = moved[1]
        if other is None:
            self.comments.append(text)
            self.lacking.take(text)
        elif not self.idle.takes(other):
            self._others.append((other.start, other.end, f"{other.name}-{other.pid}"))

    @property
    def text(self) -> bytes:
        """All lines, as the program reads them."""
        return _joined(line.text for line in self.lines)

    def due(self, name: str) -> int:
        """The deadline of this job, before it was moved to its end, if it was."""
        return self.jobs[name].deadline - self.moved.get(name, 0)

    def question(self, jobs: Optional[Iterable[Tuple[str, int, int, int]]] = None) -> bytes:
        """The points, and these jobs or else the document's, as a document without slots and comments."""
        rows = ((job.name, job.release, job.deadline, job.work) for job in self.jobs.values()) if jobs is None else jobs
        points = [f"point {speed} {power}" for speed, power in self.points]
        return _joined([*points, *(f"job {name} {start} {end} {work}" for name, start, end, work in rows)])

    @property
    def start(self) -> Fraction:
        """The first release or begin."""
        return min(
            [Fraction(min(job.release for job in self.jobs.values())), *(one.start for one in self.slots.all[:1])]
        )

    @property
    def end(self) -> Fraction:
        """The last deadline or end."""
        last = max(job.deadline for job in self.jobs.values())
        return max([Fraction(last), *(span.end for span in self.slots.all)])


def _joined(lines: Iterable[str]) -> bytes:
    return "".join(line + "\n" for line in lines).encode("latin-1")
