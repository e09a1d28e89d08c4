"""The missed deadlines of a document, and the document as it would be without them."""

from __future__ import annotations

from typing import Dict, Iterator, List, NamedTuple, Optional, Sequence, Set, Tuple

from yds._comments import HIDDEN, LEFT_OUT, LESS_THAN_UNIT, NOT_ENDED, WITHOUT_RUNS, Clock, Ends, Note, moved_of, note_of
from yds._held import Held, HeldJob, Moment, is_before
from yds._lacking import Lacking
from yds._text import Comment, Job, Line, Row, Rows, Slot, Ticks
from yds._unknown import Unknown


class Miss(NamedTuple):
    """A missed deadline: the job, and the line that tells it."""

    job: str
    text: str


class Reading:
    """A document that was read: its jobs with what their slots give, and what comments tell of lateness."""

    def __init__(self) -> None:
        self.held = Held()
        self.clock = Clock()
        self.ends = Ends()
        self.ticks = 1
        self.notes: List[Note] = []
        self.lacking = Lacking()
        self.unknown = Unknown()

    def rows(self, rows: Rows) -> Iterator[Row]:
        """The rows, passed on once they are read here."""
        for row in rows:
            self._take(row)
            yield row

    def _take(self, row: Row) -> None:
        if isinstance(row, Comment):
            self.clock.take(row.text)
            self.ends.take(row.text)
            self.lacking.take(row.text)
            self.unknown.take(row.text)
            note, moved = note_of(row.text), moved_of(row.text)
            if note is not None and note.late is not None:
                self.notes.append(note)
            if moved is not None:
                self.held.take_moved(*moved)
        elif isinstance(row, Job):
            self.held.take_job(row)
        elif isinstance(row, Slot):
            self.held.take_slot(row)
        elif isinstance(row, Ticks):
            self.ticks = row.ticks


class Mended:
    """What keeps each job from being late or unfinished: a later deadline, less work, or no job at all."""

    def __init__(self, reading: Reading) -> None:
        self.deadlines: Dict[str, int] = {
            job.name: -(-job.end[0] // job.end[1]) for job in reading.held.late if job.end
        }
        undone = [job for job in reading.held.jobs if not job.is_done]
        self.works: Dict[str, int] = {job.name: job.work // job.grain for job in undone}
        self.gone: Set[str] = {job.name for job in undone if job.work % job.grain}

    def line(self, row: Row) -> Optional[str]:
        """The row's line in the mended document; None where it has none."""
        if isinstance(row, (Job, Slot)):
            name = row.name if isinstance(row, Job) else row.job
            if name in self.gone:
                return None
            if isinstance(row, Job) and (name in self.deadlines or name in self.works):
                deadline, work = self.deadlines.get(name, row.deadline), self.works.get(name, row.work)
                return f"job {name} {row.release} {deadline} {work}"
        return row.line.text


class Told:
    """The lines that tell the missed deadlines."""

    def __init__(self, reading: Reading) -> None:
        self._reading = reading
        self._notes = {
            note.job: note for note in reading.notes if note.kind in (NOT_ENDED, *HIDDEN) and not note.at_least
        }
        self._without_runs = {note.job for note in reading.notes if note.kind == WITHOUT_RUNS}

    def by_slots(self) -> List[Miss]:
        """Those that the slots show: late jobs, and such as don't get their work."""
        held = self._reading.held
        unfinished = [job for job in held.jobs if not job.is_done and not job.late]
        told = [Miss(job.name, self._late(job)) for job in held.late]
        told += [Miss(job.name, self._unfinished(job)) for job in unfinished]
        return [miss for miss in told if miss.job not in self._without_runs]

    def by_comments(self, told: Sequence[Miss]) -> List[Miss]:
        """Those that comments tell, but for jobs that are told already."""
        done = {miss.job for miss in told}
        found = []
        for note in self._reading.notes:
            job = self._reading.held.named(note.job)
            if note.kind in (WITHOUT_RUNS, NOT_ENDED, *HIDDEN) and (note.job in done or job is None):
                continue
            due = ""
            if note.window is not None:
                due = self._reading.clock.due_at(note.window[1])
            elif job is not None and note.job not in self._without_runs:
                due = self._reading.clock.due_at(job.deadline)
            found.append(Miss(note.job, note.text + due))
        return found

    def _late(self, job: HeldJob) -> str:
        note = self._notes.get(job.name)
        numerator, per = self._end(job)
        text = f"late slot {job.last_slot} {job.name} {_spelled(numerator, per)} deadline {job.deadline}"
        by = _spelled(numerator - job.deadline * per, per)
        if note is not None:
            text += f", {_lateness(note)}"
        elif job.is_done:
            text += f", by {by}"
        else:
            text += f", by at least {by}: {_given(job)}"
        return text + self._reading.clock.due_at(job.deadline)

    def _unfinished(self, job: HeldJob) -> str:
        note = self._notes.get(job.name)
        lateness = "" if note is None else f", {_lateness(note)}"
        return f"work {job.name} {_given(job)}{lateness}{self._reading.clock.due_at(job.deadline)}"

    def _end(self, job: HeldJob) -> Moment:
        """The job's end, or a later one that a comment tells, whose run is too short to be in the document."""
        assert job.end is not None
        tick = self._reading.ends.end.get(job.name)
        told = None if tick is None else (tick, self._reading.ticks)
        return told if told is not None and is_before(job.end, told) else job.end


def _lateness(note: Note) -> str:
    ended = "not ended " if note.kind == NOT_ENDED or note.never else ""
    return f"{ended}{note.late} ms after its deadline"


def _given(job: HeldJob) -> str:
    return f"given {_spelled(job.work, job.grain)} wanted {job.wanted}"


def _spelled(numerator: int, denominator: int) -> str:
    """The number as audit writes it: over the denominator of the document, which may not be the lowest."""
    above, rest = divmod(numerator, denominator)
    return f"{above}+{rest}/{denominator}" if rest else str(above)
