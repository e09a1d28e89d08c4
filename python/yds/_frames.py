"""The job lines of an application in the place of a trace's: which run is whose, and what is known of its end."""

from __future__ import annotations

import re
from fractions import Fraction
from typing import Dict, Iterable, Iterator, List, NamedTuple, Optional, Sequence, Tuple

from yds._comments import (
    LEFT_OUT,
    LESS_THAN_UNIT,
    NOT_ENDED,
    WITHIN_TICK,
    WITHOUT_RUNS,
    Clock,
    Ends,
    LeftOut,
    Note,
    left_out_jobs,
    note_of,
    other_span,
)
from yds._priced import decimal
from yds._text import Comment, Fault, Job, Line, Point, Row, Rows, Slot, Ticks, base, counted
from yds._unknown import OfThread, of_thread

BEFORE = "before from"
"""The reason of a job that began before the time from which on the trace was asked for."""
MOVED = "ran on another processor"
"""The reason of a job that began at or after that time: yds_trace tells it only where none before it holds."""
_NUMBERED = re.compile(r"(.+)\.(-1|before|[0-9]{1,18})").fullmatch
_SHARE = re.compile(r".+\.(?:before|[0-9]+)@[0-9]+").fullmatch
_PART = re.compile(r"# part [0-9]+:").match
_OF_JOBS = re.compile(r"# (?:[0-9]+ jobs? written, |the deadline of |APART of |late: )").match
_OF_UNITS = re.compile(r"# .*(?:time 0 is [0-9]|time unit [0-9])").match
_HEAD = re.compile(r"# (.+); time 0 is [0-9]").match
_CUT_OFF = re.compile(r"# left out: ([0-9]{1,18}) jobs? before from or after to").fullmatch


class Run(NamedTuple):
    """A run of a job of the trace, in its ticks."""

    job: str
    start: int
    end: int
    speed: int


class Trace(NamedTuple):
    """The document of a trace."""

    head: str
    """What its first comment says before time 0."""
    clock: Clock
    khz: Fraction
    """Kilohertz in a unit of speed."""
    ticks: int
    jobs: Dict[str, Job]
    notes: List[Note]
    groups: List[LeftOut]
    """Jobs of which one comment tells several."""
    ends: Ends
    runs: List[Run]
    points: List[str]
    threads: List[OfThread]
    """What is told of the threads of jobs."""
    comments: List[str]
    """The comments that tell nothing of single jobs."""

    @property
    def tick(self) -> Fraction:
        """Microseconds in a tick."""
        return Fraction(self.clock.unit or 0, self.ticks)


class Frames(NamedTuple):
    """The job lines of an application."""

    file: str
    jobs: Dict[str, Job]
    lines: List[str]
    us: Optional[Fraction]
    """Microseconds in a unit of time; None where no comment tells them."""
    khz: Optional[Fraction]


def read_frames(source: Iterable[Line], file: str) -> Frames:
    """The job lines of a file, with its comments and points."""
    rows = Rows(source)
    jobs: Dict[str, Job] = {}
    told: List[str] = []
    for row in rows:
        if isinstance(row, Job):
            if row.name in jobs:
                raise row.line.fault(f"a second job is named {row.name}", 1)
            if row.deadline <= row.release:
                raise row.line.fault("the deadline isn't after the release", 3)
            jobs[row.name] = row
        elif not isinstance(row, (Comment, Point)):
            raise row.line.fault("a file of jobs has job and point lines, and comments", 0)
        told.append(row.line.text)
    if not jobs:
        raise Fault("no job line", file)
    return Frames(file, jobs, told, rows.units.value("time"), rows.units.value("speed"))


def read_trace(source: Iterable[Line]) -> Trace:
    """The document of a trace, as yds_trace writes it."""
    reading = _Reading()
    rows = Rows(source)
    for row in rows:
        if isinstance(row, Comment):
            reading.take_comment(row)
        elif isinstance(row, Job):
            reading.take_job(row)
        elif isinstance(row, Slot):
            reading.take_run(row)
        elif isinstance(row, Ticks):
            reading.take_ticks(row)
        elif isinstance(row, Point):
            reading.points.append(row.line.text)
        else:
            raise _not_of_trace(row)
    return reading.finish(rows.units.value("speed"))


def _of_share(name: str) -> str:
    return f"{name} is what a job ran on one of its processors; leave --moved out where the document is made"


def _not_of_trace(row: Row) -> Fault:
    return row.line.fault("this is no line of a trace's document; give what yds_trace writes", 0)


class _Reading:
    """What is read of a trace's document so far."""

    def __init__(self) -> None:
        self.points: List[str] = []
        self._clock = Clock()
        self._ends = Ends()
        self._jobs: Dict[str, Job] = {}
        self._notes: List[Note] = []
        self._groups: List[LeftOut] = []
        self._runs: List[Run] = []
        self._threads: List[OfThread] = []
        self._comments: List[str] = []
        self._ticks: Optional[int] = None
        self._head = "a kernel trace"

    def take_comment(self, row: Comment) -> None:
        """Reads a comment."""
        if _PART(row.text):
            raise row.line.fault("this is a part; give the whole trace's document, and cut what is written")
        self._clock.take(row.text)
        head = _HEAD(row.text)
        if head is not None:
            self._head = head.group(1)
        if self._ends.take(row.text) or _OF_JOBS(row.text) or _OF_UNITS(row.text):
            return
        note, group, thread = note_of(row.text), left_out_jobs(row.text), of_thread(row.text)
        if note is not None and _SHARE(note.job):
            raise row.line.fault(_of_share(note.job))
        if group is not None and _NUMBERED(group.first) and _NUMBERED(group.last):
            self._groups.append(group)
        elif note is not None and (note.job in self._jobs or _NUMBERED(note.job)):
            self._notes.append(note)
        elif thread is not None:
            self._threads.append(thread)
        else:
            self._comments.append(row.line.text)

    def take_job(self, row: Job) -> None:
        """Reads a job."""
        if row.name in self._jobs:
            raise row.line.fault(f"a second job is named {row.name}", 1)
        if _SHARE(row.name):
            raise row.line.fault(_of_share(row.name), 1)
        if _NUMBERED(row.name) is None:
            raise row.line.fault(f"the job {row.name} has no number, as decode.0; give what yds_trace writes", 1)
        self._jobs[row.name] = row

    def take_run(self, row: Slot) -> None:
        """Reads a run."""
        if row.kind != "run":
            raise _not_of_trace(row)
        if row.job not in self._jobs:
            raise row.line.fault(f"no job {row.job} stands before this run", 1)
        self._runs.append(Run(row.job, row.start, row.end, row.work // (row.end - row.start)))

    def take_ticks(self, row: Ticks) -> None:
        """Reads how many ticks a unit has."""
        if self._ticks is not None:
            raise row.line.fault("a second line of ticks", 0)
        self._ticks = row.ticks

    def finish(self, khz: Optional[Fraction]) -> Trace:
        """The document, of which all lines are read."""
        if self._ticks is None:
            raise Fault("the trace's document has no ticks line; give what yds_trace writes")
        if self._clock.zero is None or not self._clock.unit or not khz:
            raise Fault(
                "no comment tells time 0 and the units of the trace; give what yds_trace writes, with its comments"
            )
        return Trace(
            *(self._head, self._clock, khz, self._ticks, self._jobs, self._notes, self._groups),
            *(self._ends, self._runs, self.points, self._threads, self._comments),
        )


# --- Which job is whose.


class Told(NamedTuple):
    """A job of the trace: its task, its number, and its begin and deadline in the trace's units, where they are known."""

    name: str
    task: str
    number: int
    begin: Optional[int]
    deadline: Optional[int]
    note: Optional[Note]
    """What a comment tells of its end, or why it was left out."""
    is_before: bool
    """Whether it is known to begin before the time from which on the trace was asked for."""
    has_runs: bool


def told_jobs(trace: Trace) -> List[Told]:
    """The jobs of the trace, those too of which comments alone tell, in the order of their tasks and numbers."""
    notes = {note.job: note for note in trace.notes}
    found = []
    for name in dict.fromkeys([*trace.jobs, *notes]):
        numbered = _NUMBERED(name)
        if numbered is None:
            continue
        number = -1 if numbered.group(2) == "before" else int(numbered.group(2))
        note, row = notes.get(name), trace.jobs.get(name)
        is_gone = note is not None and note.kind in (LEFT_OUT, WITHOUT_RUNS)
        begin, deadline = (row.release, row.deadline) if row is not None and not is_gone else (None, None)
        if note is not None and note.window is not None:
            begin, deadline = note.window
        is_before = note is not None and note.reason == BEFORE
        found.append(Told(name, numbered.group(1), number, begin, deadline, note, is_before, not is_gone))
    return sorted(found, key=lambda one: (one.task, one.number))


class Span(NamedTuple):
    """Jobs of a task that one comment tells together: from which number to which, and why they were left out."""

    task: str
    first: int
    last: int
    group: LeftOut


def spans(groups: Sequence[LeftOut]) -> List[Span]:
    """The numbers of the groups."""
    numbers = [(_number(group.first), _number(group.last)) for group in groups]
    return [Span(group.task, first, last, group) for group, (first, last) in zip(groups, numbers)]


def _number(name: str) -> int:
    """The number of a job, by its name."""
    number = name.rpartition(".")[2]
    return -1 if number == "before" else int(number)


def first_numbers(
    jobs: Sequence[Told], groups: Sequence[Span], zero: Fraction, asked: Dict[str, int]
) -> Dict[str, int]:
    """The number of each task's first job that begins at time 0 of the frames or later.

    zero: that time in the trace's units. asked: the numbers that are given. One that isn't known is a fault.
    """
    firsts: Dict[str, int] = {}
    for task in dict.fromkeys([*(job.task for job in jobs), *(group.task for group in groups)]):
        its = [job for job in jobs if job.task == task and job.number >= 0]
        together = [group for group in groups if group.task == task]
        before = _before(its, together, zero)
        behind = _behind(its, together, zero)
        least = max(before, default=-1) + 1
        numbers = [*(job.number for job in its), *(group.last for group in together)]
        greatest = min(behind, default=max([least, *(number + 1 for number in numbers)]))
        firsts[task] = asked.get(task, least)
        if task not in asked and least < greatest:
            which = _which(task, least, greatest if behind else None)
            why = _why(its, together, range(least, greatest))
            told = f"which job of {task} is the first at or after time 0 isn't known: {which}{why}"
            raise Fault(f"{told}; give it, as --first {task}.{least}")
    return firsts


def _before(its: Sequence[Told], together: Sequence[Span], zero: Fraction) -> List[int]:
    """The numbers of jobs of a task that surely begin before time 0. zero: as for first_numbers."""
    found = [job.number for job in its if (job.is_before and zero >= 0) or (job.begin is not None and job.begin < zero)]
    named = [*(job.number for job in its), *(group.first for group in together)]
    # What is asked for from a time on: no comment names the jobs before it, and their numbers are the least.
    return [*found, min(named) - 1] if zero >= 0 and min(named, default=0) > 0 else found


def _behind(its: Sequence[Told], together: Sequence[Span], zero: Fraction) -> List[int]:
    """The numbers of jobs of a task that surely begin at time 0 or later. zero: as for first_numbers."""
    found = [job.number for job in its if job.begin is not None and job.begin >= zero and not job.is_before]
    if zero <= 0:
        found += [job.number for job in its if job.note is not None and job.note.reason == MOVED]
        found += [group.first for group in together if group.group.reason == MOVED]
    return found


def _which(task: str, least: int, greatest: Optional[int]) -> str:
    """The jobs that may be the first."""
    if greatest is None:
        return f"{task}.{least} or a later one"
    between = "or" if greatest == least + 1 else "to"
    return f"{task}.{least} {between} {task}.{greatest}"


def _why(its: Sequence[Told], together: Sequence[Span], open_numbers: range) -> str:
    """Why a begin isn't known: of a job with one of the numbers, or of several."""
    for job in its:
        if job.number in open_numbers and job.begin is None:
            reason = f": {job.note.reason}" if job.note is not None and job.note.reason else ""
            return f" (when {job.name} began isn't told{reason})"
    for group in together:
        if group.first < open_numbers.stop and group.last >= open_numbers.start:
            count = counted(group.group.number, "job", "jobs")
            return f" (when {count} from {group.group.first} on began isn't told: {group.group.reason})"
    return ""


class Placed(NamedTuple):
    """Which job of the trace is which of the application's."""

    frame_of: Dict[str, str]
    """Of each job of the trace that has its runs here, the application's job."""
    gone: List[Tuple[str, Told]]
    """The application's jobs whose runs aren't here, each with the trace's."""
    unknown: Dict[str, List[str]]
    """Of each task, its jobs of which the application tells nothing."""
    before: int
    """How many jobs begin before time 0."""


def place(frames: Frames, jobs: Sequence[Told], firsts: Dict[str, int]) -> Placed:
    """Gives each job of the trace, from time 0 on, the application's line: NAME.k for the k-th of a task, or NAME."""
    placed = Placed({}, [], {}, 0)
    before = 0
    for job in jobs:
        number = job.number - firsts[job.task]
        if job.number < 0 or number < 0:
            before += 1
            continue
        frame = next((name for name in (f"{job.task}.{number}", job.task) if name in frames.jobs), None)
        if frame is None:
            placed.unknown.setdefault(job.task, []).append(f"{job.task}.{number}")
        elif job.has_runs:
            placed.frame_of[job.name] = frame
        else:
            placed.gone.append((frame, job))
    return placed._replace(before=before)


# --- What is written.


class Scale(NamedTuple):
    """How times of the trace become the application's."""

    ticks: int
    """Ticks of the trace in a unit of time of the application."""
    per_unit: int
    """Ticks of the trace in its own unit of time."""
    zero: int
    """The application's time 0, in ticks of the trace."""
    tick: Fraction
    """Microseconds in a tick."""

    def end_of(self, job: Told) -> Optional[Fraction]:
        """When a job of the trace ended at the least, in ticks from time 0, by its deadline and how late it was told to be.

        The deadline was rounded down to a unit, and the lateness up to a microsecond.
        """
        if job.note is None or job.note.late is None or job.deadline is None:
            return None
        late = (Fraction(job.note.late) * 1000 - 1) / self.tick
        return job.deadline * self.per_unit - self.zero + max(late, Fraction(0))

    def milliseconds(self, ticks: Fraction) -> str:
        """A time in milliseconds, rounded up to a microsecond."""
        micro = -(-ticks * self.tick // 1)
        return f"{micro // 1000}.{micro % 1000:03d}"


def scale(trace: Trace, us: Fraction, zero: Fraction) -> Scale:
    """How times become the application's. us: microseconds in its unit. zero: its time 0 in units of the trace."""
    ticks = us / trace.tick
    if ticks.denominator != 1:
        finer = f"yds_trace --us {us}" if us.denominator == 1 else "a finer --us to yds_trace"
        raise Fault(f"a unit of {us} us is no whole number of the trace's ticks of {trace.tick} us; give {finer}")
    if zero.denominator != 1:
        raise Fault(
            "time 0 of the jobs is no whole number of the trace's units after its own; give it to yds_trace as --from"
        )
    return Scale(ticks.numerator, trace.ticks, zero.numerator * trace.ticks, trace.tick)


class Ended(NamedTuple):
    """What is told of the ends of the application's jobs."""

    notes: List[str]
    """Comments on jobs that are late, and don't look so by their runs."""
    left: List[str]
    """Comments on jobs that are left out."""
    dropped: List[str]
    """The trace's jobs whose runs aren't written: they hadn't ended where the trace ends, before their deadline."""
    unsure: List[str]
    """The application's jobs that end in the tick of their deadline."""
    late: int
    """How many are late and have no runs."""


class _Judge:
    """Judges the jobs by the application's deadlines."""

    def __init__(self, trace: Trace, frames: Frames, placed: Placed, by: Scale) -> None:
        self._trace, self._frames, self._by = trace, frames, by
        self._shown: Dict[str, int] = {}
        for run in trace.runs:
            self._shown[run.job] = max(self._shown.get(run.job, run.end), run.end)
        self._notes: List[str] = []
        self._left: List[str] = []
        self._dropped: List[str] = []
        self._unsure: List[str] = []
        self._placed = placed

    def told(self, jobs: Sequence[Told]) -> Ended:
        """What is told of all jobs. Where several are one of the application's, the last one tells its end."""
        last = {self._placed.frame_of[job.name]: job for job in jobs if job.name in self._placed.frame_of}
        for frame, job in last.items():
            if job.note is not None and job.note.kind == NOT_ENDED:
                self._not_ended(frame, job)
            else:
                self._with_runs(frame, job)
        late = sum(self._without_runs(frame, job) for frame, job in self._placed.gone)
        return Ended(self._notes, self._left, self._dropped, self._unsure, late)

    def _not_ended(self, frame: str, job: Told) -> None:
        due, seen = self._due(frame), self._by.end_of(job)
        if seen is not None and seen > due:
            self._notes.append(f"# {NOT_ENDED}: {frame}, {self._behind(seen - due)}")
            return
        self._dropped.append(job.name)
        self._leave(frame, "not ended")

    def _with_runs(self, frame: str, job: Told) -> None:
        due, shown = self._due(frame), self._shown.get(job.name)
        known = self._end(job, shown)
        if known is None or (shown is not None and shown - self._by.zero > due):
            return
        end, within = known
        if end > due:
            self._notes.append(f"# {WITHIN_TICK}: {frame}, {self._behind(end - due)}")
        elif due < end + within:
            self._unsure.append(frame)

    def _end(self, job: Told, shown: Optional[int]) -> Optional[Tuple[Fraction, Fraction]]:
        """When the job ended at the least, in ticks from time 0, and within how many ticks from then."""
        kind = "" if job.note is None else job.note.kind
        tick = Fraction(1)
        told = self._trace.ends.end.get(job.name, shown)
        if kind == LESS_THAN_UNIT and job.deadline is not None:
            return Fraction(job.deadline * self._by.per_unit - self._by.zero), tick * self._by.per_unit
        if kind == WITHIN_TICK:
            end = self._by.end_of(job)
            return None if end is None else (end, self._by.per_unit + 1 / self._by.tick)
        return None if told is None else (Fraction(told - self._by.zero), tick)

    def _without_runs(self, frame: str, job: Told) -> int:
        """Tells of a job whose runs aren't in the trace's document, and gives 1 where it is known to be late."""
        due, end = self._due(frame), self._by.end_of(job)
        reason = "" if job.note is None else job.note.reason
        if job.note is None or end is None or end <= due:
            self._leave(frame, reason)
            return 0
        how = "not ended " if job.note.never else "at least "
        late = f"{how}{self._behind(end - due)}{self._window(frame)}"
        self._notes.append(f"# {WITHOUT_RUNS}: {frame} ({reason}), {late}")
        return 1

    def _due(self, frame: str) -> int:
        return self._frames.jobs[frame].deadline * self._by.ticks

    def _behind(self, ticks: Fraction) -> str:
        return f"{self._by.milliseconds(ticks)} ms after its deadline"

    def _window(self, frame: str) -> str:
        return f"; window {self._frames.jobs[frame].release} {self._frames.jobs[frame].deadline}"

    def _leave(self, frame: str, reason: str) -> None:
        self._left.append(f"# {LEFT_OUT}: {frame} ({reason}){self._window(frame)}")


def document(trace: Trace, frames: Frames, us: Fraction, zero: Fraction, asked: Dict[str, int]) -> Iterator[str]:
    """The lines of the document with the application's jobs.

    us: microseconds in its unit of time. zero: its time 0 in units of the trace's time. asked: the numbers of first jobs.
    """
    by = scale(trace, us, zero)
    jobs = told_jobs(trace)
    firsts = first_numbers(jobs, spans(trace.groups), zero, asked)
    placed = place(frames, jobs, firsts)
    if not placed.frame_of:
        tasks = ", ".join(dict.fromkeys(job.task for job in jobs)) or "none"
        raise Fault(f"no job of the trace has a line in {base(frames.file)}; the trace's tasks are {tasks}")
    judged = _Judge(trace, frames, placed, by).told(jobs)
    written = _Written(trace, frames, by, placed, judged, firsts)
    yield from written.head()
    yield from written.jobs()
    yield from written.runs()
    yield from written.comments(jobs)


class _Written:
    """The lines of the document."""

    def __init__(
        self, trace: Trace, frames: Frames, by: Scale, placed: Placed, judged: Ended, firsts: Dict[str, int]
    ) -> None:
        self._trace, self._frames, self._by, self._placed, self._judged = trace, frames, by, placed, judged
        self._firsts = firsts
        self._names = {job: frame for job, frame in placed.frame_of.items() if job not in set(judged.dropped)}

    def head(self) -> Iterator[str]:
        """Time 0, and the units."""
        zero = self._by.zero * self._by.tick * 1000
        seconds, nano = self._trace.clock.zero or (0, 0)
        total = seconds * 10**9 + nano + zero.numerator // zero.denominator
        us, khz = self._by.tick * self._by.ticks, self._trace.khz
        yield f"# {self._trace.head}; time 0 is {total // 10**9}.{total % 10**9:09d} s"
        units = (
            f"time unit {decimal(us)} us, speed unit {decimal(khz)} kHz, work unit {decimal(us * khz / 1000)} cycles"
        )
        yield f"# {units}"

    def jobs(self) -> Iterator[str]:
        """Points, and the application's jobs."""
        yield from self._trace.points
        yield from self._frames.lines

    def runs(self) -> Iterator[str]:
        """The ticks, and the runs."""
        yield f"ticks {self._by.ticks}"
        for run in self._trace.runs:
            name = self._names.get(run.job)
            if name is not None:
                yield f"run {name} {run.start - self._by.zero} {run.end - self._by.zero} {run.speed}"

    def comments(self, jobs: Sequence[Told]) -> Iterator[str]:
        """What is known of jobs, and what isn't here."""
        yield from self._judged.notes
        yield from self._begins_and_ends(jobs)
        yield from self._of_threads()
        yield from self._judged.left
        yield from self._together()
        yield from self._unplaced(jobs)
        for comment in self._trace.comments:
            span = other_span(comment)
            if span is None:
                yield comment
            elif span.end > self._by.zero:
                begin = max(span.start - self._by.zero, 0)
                yield f"# other {span.name}-{span.pid} {begin} {span.end - self._by.zero}"
        left = len(self._judged.left) + sum(map(len, self._placed.unknown.values())) + self._placed.before
        left += sum(group.number for group in self._trace.groups) + self._cut_off()
        written = len(self._frames.jobs)
        late = self._judged.late
        without = f", {late} late without {'its' if late == 1 else 'their'} runs" if late else ""
        yield f"# {counted(written, 'job', 'jobs')} written, {left or 'none'} left out{without}"

    def _together(self) -> Iterator[str]:
        """The comments on several jobs that were left out, by the application's numbers."""
        for task, first, last, group in spans(self._trace.groups):
            number = self._firsts.get(task, 0)
            names = [f"{task}.{place - number}" if place >= number else "before time 0" for place in (first, last)]
            span = f"the first {names[0]}, the last {names[1]}"
            yield f"# {LEFT_OUT}: {counted(group.number, 'job', 'jobs')} of {task} ({group.reason}), {span}"

    def _cut_off(self) -> int:
        """How many jobs the trace's document tells in a line that were before or after what was asked for."""
        found = [_CUT_OFF(comment) for comment in self._trace.comments]
        return sum(int(told.group(1)) for told in found if told is not None)

    def _begins_and_ends(self, jobs: Sequence[Told]) -> Iterator[str]:
        """Begins and ends that no run shows: of several jobs that are one, the begin of the first and the end of the last."""
        its = [(self._names[job.name], job.name) for job in jobs if job.name in self._names]
        first = {frame: job for frame, job in reversed(its)}
        last = dict(its)
        for frame in dict.fromkeys(frame for frame, _ in its):
            for kind, known, job in (("begins", self._trace.ends.begin, first), ("ends", self._trace.ends.end, last)):
                if job[frame] in known:
                    yield f"# {kind}: {frame} {known[job[frame]] - self._by.zero}"

    def _of_threads(self) -> Iterator[str]:
        """What threads did with jobs that are here."""
        names = {**self._names, **{job.name: frame for frame, job in self._placed.gone}}
        told = [f"# {one.kind}: {names[one.job]}" for one in self._trace.threads if one.job in names]
        yield from dict.fromkeys(told)

    def _unplaced(self, jobs: Sequence[Told]) -> Iterator[str]:
        """What has no place."""
        file = base(self._frames.file)
        for task, names in self._placed.unknown.items():
            span = f", the first {names[0]}, the last {names[-1]}" if len(names) > 1 else f", {names[0]}"
            yield f"# {LEFT_OUT}: {counted(len(names), 'job', 'jobs')} of {task} (not in {file}){span}"
        if self._placed.before:
            yield f"# {counted(self._placed.before, 'job of the trace begins', 'jobs of the trace begin')} before time 0"
        gone = sum((run.end - run.start for run in self._trace.runs if run.job not in self._names), 0)
        if gone:
            yield f"# jobs of the trace that aren't here ran for {self._by.milliseconds(Fraction(gone))} ms"
        yield from self._doubts(jobs)

    def _doubts(self, jobs: Sequence[Told]) -> Iterator[str]:
        """What may be otherwise than it looks."""
        file = base(self._frames.file)
        ran = set(self._names.values())
        idle = [name for name, row in self._frames.jobs.items() if name not in ran and row.work]
        if idle:
            yield f"# {counted(len(idle), f'job of {file} has', f'jobs of {file} have')} no run here, the first {idle[0]}"
        odd = [self._names[job.name] for job in jobs if job.name in self._names and self._is_odd(job)]
        if odd:
            begin = counted(len(odd), "job begins outside of its window", "jobs begin outside of their windows")
            yield f"# {begin}, the first {odd[0]}; look at time 0 and at --first"
        unsure = self._judged.unsure
        if unsure:
            when = f"in the tick of {'its' if len(unsure) == 1 else 'their'} deadline, or within a unit of it"
            late = f"{'it' if len(unsure) == 1 else 'they'} may be late by less than that"
            yield f"# {counted(len(unsure), 'job ends', 'jobs end')} {when}: {late}, the first {unsure[0]}"

    def _is_odd(self, job: Told) -> bool:
        """Whether the job surely begins outside of its window."""
        if job.begin is None:
            return False
        row = self._frames.jobs[self._names[job.name]]
        if self._names[job.name] == job.task:
            return False
        least, most = (time * self._by.per_unit - self._by.zero for time in (job.begin, job.begin + 1))
        return most <= row.release * self._by.ticks or least >= row.deadline * self._by.ticks
