"""Whether the top speed throughout would have met a deadline that was missed."""

from __future__ import annotations

import re
from fractions import Fraction
from typing import List, NamedTuple, Optional, Tuple

from yds._beside_least import Asked
from yds._gathered import Gathered
from yds._heads import MOST_JOBS, MOST_TIME
from yds._waited import Waited

YES, NO, OTHERWISE, UNKNOWN = "yes", "no", "otherwise", "unknown"
_REFUSE = re.compile(rb"# refuse ([^ ]+) from ([0-9]+) to ([0-9]+) work ([0-9]+) top [0-9]+")


class Refusal(NamedTuple):
    """From start to end (units of time) there is more work than the top speed does."""

    start: int
    end: int
    work: int


class AtTop(NamedTuple):
    """What the top speed throughout would have done for a job."""

    verdict: str
    """YES: in the same order, with the same waits for others, it ends in time. NO: the listed jobs due by its deadline
    are too much for the top speed, whatever the order. OTHERWISE: neither; then it is the waits or the order."""
    top: int
    end: Optional[Fraction]
    """When it would have ended in the same order, with the same waits for others, at the latest; None where its work
    isn't known."""
    refusal: Optional[Refusal]
    """NO: where."""


def at_top(given: Gathered, asked: Asked, job: str, went: Optional[Waited], ended: bool) -> Optional[AtTop]:
    """Whether this job would have met its deadline; None where the document has no points.

    went is where its time went, None where that isn't known; ended says whether it was seen to end.
    """
    if len(given.points) < 2:
        return None
    top, due = given.points[-1][0], given.due(job)
    end = went.end_at(top) if went is not None and ended else None
    if end is not None and end <= due:
        return AtTop(YES, top, end, None)
    rows = _due_by(given, job)
    if len(rows) > MOST_JOBS or due > MOST_TIME:
        return AtTop(UNKNOWN, top, end, None)
    status, text = asked.ask("admit", str(top), text=given.question(rows))
    if status:
        return AtTop(UNKNOWN, top, end, None)
    refusal = _refusal(text, job)
    if refusal is not None:
        return AtTop(NO, top, end, refusal)
    return AtTop(UNKNOWN if not ended or went is None else OTHERWISE, top, end, None)


def _due_by(given: Gathered, job: str) -> List[Tuple[str, int, int, int]]:
    """The jobs that are due by this job's deadline, in the order of their deadlines, and it as the last.

    With the earliest deadline first, no other job is before it. Jobs whose windows end before all that follow begin
    don't matter, and aren't there.
    """
    due = given.due(job)
    jobs = ((one.name, one.release, given.due(one.name), one.work) for one in given.jobs.values())
    rows = [row for row in jobs if row[2] <= due]
    rows.sort(key=lambda row: (row[2], row[0] == job))
    kept: List[Tuple[str, int, int, int]] = []
    since = given.jobs[job].release
    for row in reversed(rows):
        if row[2] <= since and row[0] != job:
            break
        since = min(since, row[1])
        kept.append(row)
    return kept[::-1]


def _refusal(text: bytes, job: str) -> Optional[Refusal]:
    """Why the job is refused; None where it is admitted."""
    for name, start, end, work in _REFUSE.findall(text):
        if name == job.encode("latin-1"):
            return Refusal(int(start), int(end), int(work))
    return None
