"""The jobs of a document, task by task: how many were late, how long they took, and how far apart they begin."""

from __future__ import annotations

from fractions import Fraction
from math import inf
from typing import Dict, Iterable, List, NamedTuple, Optional, Sequence, Set, Tuple

from yds._gathered import Gathered, number_of
from yds._timeline import task_of
from yds.jobs import JobRow, Number

LEAST_GAPS = 2
"""From so many distances on between the begins of jobs that follow one another, a period is told."""


class TaskRow(NamedTuple):
    """A task: its jobs, and numbers in the document's units of time. None is what isn't known."""

    name: str
    jobs: int
    missed: int
    left_out: int
    median: Optional[Number]
    most: Optional[Number]
    """95 in 100 of the responses are at most this."""
    greatest: Optional[Number]
    """The greatest response; inf where a job never ended."""
    unknown: int
    """Of so many jobs in the document the response isn't known."""
    slack: Optional[Number]
    """The least time from an end to its deadline; below 0 where a job was late."""
    ran: Fraction
    period: Optional[Number]
    """The median distance of begins."""
    deadlines: List[int]
    """The least and the greatest of the times from release to deadline; one number where they are the same."""
    lost: Optional[int]
    """How many begins were passed over, since the job before hadn't ended; None where there is no period."""


def rank(values: Sequence[Number], hundredths: int) -> Optional[Number]:
    """The least of the values, in rising order, that so many in 100 don't exceed; None of no values.

    >>> rank([1, 2, 3, 4], 50), rank([1, 2, 3, 4], 95), rank([7], 50)
    (2, 4, 7)
    """
    return values[max(0, -(-len(values) * hundredths // 100) - 1)] if values else None


def by_task(given: Gathered, rows: Iterable[JobRow], missed: Set[str]) -> List[TaskRow]:
    """The tasks in the order of their first jobs, and behind them those of jobs that were left out alone."""
    tasks: Dict[str, List[JobRow]] = {}
    for row in sorted(rows, key=lambda row: bool(row.left_out)):
        tasks.setdefault(task_of(row.job), []).append(row)
    ran: Dict[str, Fraction] = {}
    for span in given.slots.all:
        task = task_of(span.name)
        ran[task] = ran.get(task, Fraction(0)) + span.length
    return [_row(name, own, missed, ran.get(name, Fraction(0))) for name, own in tasks.items()]


def together(given: Gathered, rows: Iterable[JobRow], missed: Set[str]) -> TaskRow:
    """All jobs as those of one task, which has no period."""
    ran = sum((span.length for span in given.slots.all), Fraction(0))
    return _row("", list(rows), missed, ran)._replace(period=None, lost=None)


def _row(name: str, rows: Sequence[JobRow], missed: Set[str], ran: Fraction) -> TaskRow:
    own = [row for row in rows if not row.left_out]
    responses = sorted(row.response for row in own if row.response is not None)
    slacks = [row.slack for row in own if row.slack is not None]
    lengths = {int(row.deadline - row.release) for row in own if row.deadline is not None and row.release is not None}
    period = _period(rows)
    return TaskRow(
        name,
        len(own),
        sum(row.job in missed for row in rows),
        len(rows) - len(own),
        rank(responses, 50),
        rank(responses, 95),
        rank(responses, 100),
        len(own) - len(responses),
        min(slacks, default=None),
        ran,
        period,
        sorted({min(lengths), max(lengths)}) if lengths else [],
        None if not period else _lost(rows, period),
    )


def _followers(rows: Iterable[JobRow]) -> List[Tuple[JobRow, JobRow]]:
    """The jobs whose releases are known, each with the next of its task by number."""
    numbered = {number_of(row.job): row for row in rows if row.release is not None}
    return [
        (row, numbered[number + 1]) for number, row in numbered.items() if number is not None and number + 1 in numbered
    ]


def _period(rows: Iterable[JobRow]) -> Optional[Number]:
    gaps = sorted(later.release - row.release for row, later in _followers(rows))  # type: ignore[operator]
    return rank(gaps, 50) if len(gaps) >= LEAST_GAPS else None


def _lost(rows: Iterable[JobRow], period: Number) -> int:
    """The begins that were due after a job's begin and before its end, and at which no job began.

    One within half a period of the next job's begin isn't lost: that job began late.
    """
    lost = 0
    for row, later in _followers(rows):
        assert row.release is not None and later.release is not None
        end = inf if row.end is None and row.late else row.end
        if end is not None:
            until = min(end, later.release - period / 2)
            lost += max(0, -int(-(until - row.release) // period) - 1)
    return lost
