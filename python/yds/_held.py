"""A document's jobs, with what its slots give them: begin, end and work of each, in whole numbers over a denominator."""

from __future__ import annotations

from typing import Dict, Iterable, List, NamedTuple, Optional, Tuple

from yds._text import Job, Line, Slot

Moment = Tuple[int, int]
"""A time: numerator and denominator."""


def is_before(one: Moment, other: Moment) -> bool:
    """Whether the one time comes before the other."""
    if one[1] == other[1]:
        return one[0] < other[0]
    return one[0] * other[1] < other[0] * one[1]


class HeldJob:
    """A job, and what its slots have given it so far."""

    __slots__ = ("name", "release", "deadline", "wanted", "begin", "end", "last_slot", "work", "grain", "late")

    def __init__(self, row: Job) -> None:
        self.name = row.name
        self.release, self.deadline, self.wanted = row.release, row.deadline, row.work
        self.begin: Optional[Moment] = None
        self.end: Optional[Moment] = None
        self.last_slot = 0
        """The number of the slot with the last end, from 1."""
        self.work, self.grain = 0, 1
        """What the slots give: work/grain."""
        self.late = False
        """Whether a slot ends after the deadline."""

    def take(self, slot: Slot, number: int) -> bool:
        """Adds the slot of this number, from 1; True where the job is seen to be late by it, and wasn't before."""
        start, end = (slot.start, slot.per), (slot.end, slot.per)
        if self.begin is None or is_before(start, self.begin):
            self.begin = start
        if self.end is None or not is_before(end, self.end):
            self.end, self.last_slot = end, number
        if slot.grain == self.grain:
            self.work += slot.work
        else:
            self.work, self.grain = self.work * slot.grain + slot.work * self.grain, self.grain * slot.grain
        if self.late or slot.end <= self.deadline * slot.per:
            return False
        self.late = True
        return True

    def end_later(self, by: int) -> bool:
        """Takes so much off the deadline, which was moved; True where the job is seen to be late by it, and wasn't before."""
        self.deadline -= by
        if self.late or self.end is None or self.end[0] <= self.deadline * self.end[1]:
            return False
        self.late = True
        return True

    @property
    def is_done(self) -> bool:
        """Whether the slots give all of its work."""
        return self.work >= self.wanted * self.grain


class Held:
    """The jobs of a document in the order of their lines, and those that are late in the order in which slots show it."""

    def __init__(self) -> None:
        self.jobs: List[HeldJob] = []
        self.late: List[HeldJob] = []
        self.slots = 0
        self._named: Dict[str, HeldJob] = {}

    def take_job(self, row: Job) -> HeldJob:
        """The next job."""
        if row.name in self._named:
            raise row.line.fault(f"a second job is named {row.name}", 1)
        job = self._named[row.name] = HeldJob(row)
        self.jobs.append(job)
        return job

    def take_slot(self, row: Slot) -> HeldJob:
        """The next slot or run."""
        job = self.job_of(row.job, row.line, row.kind)
        self.slots += 1
        if job.take(row, self.slots):
            self.late.append(job)
        return job

    def take_moved(self, name: str, by: int) -> None:
        """A deadline of the document is later by so much than that of the job."""
        job = self._named.get(name)
        if job is not None and job.deadline - by > job.release and job.end_later(by):
            self.late.append(job)

    def job_of(self, name: str, line: Line, kind: str) -> HeldJob:
        """The job of this name, which has to stand before."""
        found = self._named.get(name)
        if found is None:
            raise line.fault(f"no job {name} stands before this {kind}", 1)
        return found

    def named(self, name: str) -> Optional[HeldJob]:
        """The job of this name; None where there is none."""
        return self._named.get(name)

    def workless(self) -> List[HeldJob]:
        """The jobs without work."""
        return [job for job in self.jobs if not job.wanted]
