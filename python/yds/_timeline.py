"""A document as a picture over time needs it: jobs with their windows and misses, runs, who else ran, points and units."""

from __future__ import annotations

import re
from fractions import Fraction
from typing import Dict, Iterable, List, NamedTuple, Optional, Sequence, Tuple

from yds._comments import (
    CUT_OFF,
    LEFT_OUT,
    NOT_ENDED,
    WITHOUT_RUNS,
    Ends,
    Note,
    OtherSpan,
    left_out_jobs,
    note_of,
    other_span,
)
from yds._held import Held, HeldJob
from yds._idle import Idle
from yds._lacking import Lacking
from yds._passed import check
from yds._pixels import Stretch
from yds._scales import Units, units_of_told
from yds._text import Comment, Fault, Job, Other, Point, Row, Slot, Ticks
from yds._text import Units as ToldUnits

LATE, NOT_DONE = "late", "not done"
_NUMBERED = re.compile(r"(.+)\.(?:[0-9]+|before)(?:@[0-9]+)?").fullmatch


class Window(NamedTuple):
    """A job that the picture shows. Times are in the document's units."""

    name: str
    task: str
    release: Optional[float]
    """None where its window isn't known."""
    deadline: float
    miss: str
    """LATE, NOT_DONE, or empty."""
    late: Optional[Fraction]
    """How long after its deadline it ended, or was seen last; None where it isn't known."""
    at_least: bool = False
    """Whether it was later than that by an unknown time."""


class Absent(NamedTuple):
    """A job that the trace had and the document hasn't."""

    name: str
    window: Optional[Tuple[int, int]]
    late: Optional[str]
    """Milliseconds after its deadline, as they are written; None where nothing is told."""
    at_least: bool = False
    """Whether it was later than that by an unknown time."""


class Timeline(NamedTuple):
    """What is drawn of a document over time."""

    jobs: List[Window]
    runs: List[Stretch]
    """The row of each is its job's place in jobs."""
    points: List[Tuple[int, int]]
    absent: List[Absent]
    """Jobs that were left out, but for those that the user cut off, each told alone."""
    counted: int
    """Jobs that were left out, and are told by their number."""
    others: List[Tuple[str, float, float]]
    """Who else ran, and when."""
    idle: List[Tuple[str, float]]
    """The names of threads that are taken for idle, and for how long each had the processor while a job waited."""
    lacking: Lacking
    units: Units
    is_trace: bool
    """Whether it has runs."""
    is_plan: bool
    """Whether it has the levels of a plan."""


def task_of(name: str) -> str:
    """The name without its last dot and number, or `before` of a trace's first job, and the processor of a share behind it.

    >>> task_of("decode.2"), task_of("j7"), task_of("decode.2@1"), task_of("decode.before")
    ('decode', 'j7', 'decode', 'decode')
    """
    found = _NUMBERED(name)
    return found.group(1) if found else name


def is_numbered(name: str) -> bool:
    """Whether it is a task's name with a number."""
    return _NUMBERED(name) is not None


class _Reading:
    """A document while it is read."""

    def __init__(self, idle: Sequence[str]) -> None:
        self.held = Held()
        self.idle = Idle(idle)
        self.lacking = Lacking()
        self.ends = Ends()
        self.ticks = 1
        self.points: List[Tuple[int, int]] = []
        self.runs: List[Stretch] = []
        self.notes: Dict[str, Note] = {}
        self.left_out: Dict[str, Note] = {}
        self.counted = 0
        self.others: List[OtherSpan] = []
        self.units = ToldUnits()
        self.is_trace = self.is_plan = False
        self._places: Dict[str, int] = {}

    def take(self, row: Row) -> None:
        """Reads a row."""
        if isinstance(row, Slot):
            self._take_slot(row)
        elif isinstance(row, Comment):
            self._take_comment(row)
        elif isinstance(row, Job):
            self._places[self.held.take_job(row).name] = len(self._places)
        elif isinstance(row, Point):
            self.points.append((row.speed, row.power))
        elif isinstance(row, Ticks):
            self.ticks = row.ticks
        elif isinstance(row, Other):
            check(row)
            self.is_plan = self.is_plan or row.fields[0] == "level"

    def _take_slot(self, row: Slot) -> None:
        job = self.held.take_slot(row)
        speed = row.work * row.per / (row.grain * (row.end - row.start))
        self.runs.append(Stretch(self._places[job.name], row.start / row.per, row.end / row.per, speed))
        self.is_trace = self.is_trace or row.kind == "run"

    def _take_comment(self, row: Comment) -> None:
        if " unit " in row.text:
            self.units.take(row.line)
        if self.ends.take(row.text) or self.lacking.take(row.text):
            return
        note, several, other = (note_of(row.text), left_out_jobs(row.text), other_span(row.text))
        if note is not None and note.kind == LEFT_OUT:
            if note.reason not in CUT_OFF:
                self.left_out.setdefault(note.job, note)
        elif note is not None:
            self.notes[note.job] = note
        elif several is not None and several.reason not in CUT_OFF:
            self.counted += several.number
        elif other is not None and not self.idle.takes(other):
            self.others.append(other)

    def window(self, job: HeldJob, units: Units) -> Window:
        """A job with what is known of its miss."""
        note = self.notes.get(job.name)
        release: Optional[float] = job.release
        deadline, miss, late = job.deadline, "", None
        if note is not None and note.kind == WITHOUT_RUNS:
            if note.window is None:
                release = None
            elif note.window[0] < 0:
                release, deadline = note.window
        if note is not None:
            miss = NOT_DONE if note.kind == NOT_ENDED or note.never else LATE
            late = None if note.late is None else _of_milliseconds(note.late, units)
        if late is None:
            late = self._after(job, deadline)
        if not miss:
            miss = NOT_DONE if not job.is_done else LATE if late else ""
        at_least = note is not None and note.at_least
        return Window(job.name, task_of(job.name), release, deadline, miss, late or None, at_least)

    def _after(self, job: HeldJob, deadline: int) -> Fraction:
        """How long after the deadline the job's last run ends, or the end that a comment tells."""
        ends = [Fraction(deadline)]
        ends += [] if job.end is None else [Fraction(*job.end)]
        told = self.ends.end.get(job.name)
        ends += [] if told is None else [Fraction(told, self.ticks)]
        return max(ends) - deadline


def _of_milliseconds(text: str, units: Units) -> Optional[Fraction]:
    """A length in the document's units; None where its unit isn't known."""
    try:
        return None if units.time is None else Fraction(text) / 1000 / units.time
    except ValueError:
        return None


def timeline(rows: Iterable[Row], units: Optional[Units] = None, idle: Sequence[str] = ()) -> Timeline:
    """What is drawn of a document's rows. `units` are those of the document where its comments aren't to tell them.

    idle: the names of threads that are taken for idle.
    """
    reading = _Reading(idle)
    for row in rows:
        reading.take(row)
    if not reading.held.jobs:
        raise Fault("no job; is this a document?")
    if not reading.runs:
        raise Fault("no slot; give a trace's document or the answer of plan, round, avr or oa")
    units = units_of_told(reading.units) if units is None else units
    others = [(f"{one.name}-{one.pid}", one.start / reading.ticks, one.end / reading.ticks) for one in reading.others]
    absent = [
        Absent(note.job, note.window, note.late, note.at_least or note.never) for note in reading.left_out.values()
    ]
    jobs = [reading.window(job, units) for job in reading.held.jobs]
    unseen = [(name, ticks / reading.ticks) for name, ticks in reading.idle.ticks.items()]
    known = (reading.runs, reading.points, absent, reading.counted, others, unseen, reading.lacking, units)
    return Timeline(jobs, *known, reading.is_trace, reading.is_plan)
