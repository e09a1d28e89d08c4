"""Periodic tasks under a horizon: their jobs, their period, and the jobs that aren't due by the horizon."""

from __future__ import annotations

from fractions import Fraction
from math import gcd
from typing import Iterable, Iterator, List, NamedTuple, Optional, Sequence, Tuple

from yds._foreign import number
from yds._near import simplest
from yds._spelling import common
from yds._text import Comment, Horizon, Line, Rows
from yds._text import Task as TaskRow

__all__ = ["JobOfTask", "Lost", "Tasks", "jobs", "lost_by", "period", "read"]

MOST_COMMON = 1_000_000_000


class Task(NamedTuple):
    """A task: units of time, and of work."""

    name: str
    offset: int
    period: int
    deadline: int
    work: int


class Tasks(NamedTuple):
    """A set of tasks, and what stands beside it."""

    horizon: Optional[int]
    tasks: Sequence[Task]
    comments: Sequence[str]


class JobOfTask(NamedTuple):
    """A job: units of time, and of work."""

    name: str
    release: int
    deadline: int
    work: int


class Lost(NamedTuple):
    """The jobs of a task that aren't due by the horizon."""

    task: Task
    jobs: int
    """How many are released before the horizon and due after it."""
    released: int
    """How many are released before the horizon; 0 where the first is released later."""

    def told(self) -> str:
        """What a comment says of them."""
        if not self.released:
            return f"{self.task.name}, released first at {self.task.offset}"
        return f"{self.task.name}, {self.jobs} of {self.released} jobs, work {self.jobs * self.task.work}"

    @property
    def hangs_over(self) -> bool:
        """Whether a horizon that is a multiple of the periods leaves out a job, too."""
        task = self.task
        return not self.released or task.offset % task.period + task.deadline > task.period


class NotWhole(NamedTuple):
    """A time or a work that isn't whole, and by how much all have to be multiplied so that each is."""

    line: Line
    place: int
    """Its field, from 0."""
    value: Fraction
    """What it is taken for."""
    factor: int


def meant(text: str) -> Optional[Fraction]:
    """What a number stands for: 16.667 for 16+2/3, of which these are the first decimals; None where it is no number.

    A decimal is a fraction of small denominator only where there is no other one so small that it may stand for.

    >>> meant("16.667"), meant("0.125"), meant("0.1")
    (Fraction(50, 3), Fraction(1, 8), Fraction(1, 10))
    """
    value = number(text)
    places = len(text.partition(".")[2])
    if value is None or not places or not text.replace(".", "").isdigit():
        return value
    half = Fraction(1, 2 * 10**places)
    near = simplest(max(value - half, Fraction(0)), value + half)
    return near if 2 * near.denominator**2 <= 10**places else value


def not_whole(lines: Iterable[Line]) -> Optional[NotWhole]:
    """The first time or work of tasks and horizon that isn't whole; None where each is, or one is no number."""
    first: Optional[Tuple[Line, int, Fraction]] = None
    factor = 1
    for line in lines:
        fields = line.fields
        begin = {"task": 2, "horizon": 1}.get(fields[0] if fields else "", len(fields))
        for place in range(begin, len(fields)):
            value = meant(fields[place])
            if value is None:
                return None
            factor = common([factor, value.denominator])
            if first is None and value.denominator > 1:
                first = line, place, value
    return None if first is None else NotWhole(*first, factor)


def read(lines: Iterable[Line]) -> Tasks:
    """The tasks of a text of `horizon` and `task` lines. Comments on the period and on lost jobs are of before."""
    horizon: Optional[int] = None
    tasks: List[Task] = []
    comments: List[str] = []
    for row in Rows(lines):
        if isinstance(row, Comment):
            if not row.line.text.startswith(("# period ", "# no period", "# not due by ")):
                comments.append(row.line.text)
        elif isinstance(row, Horizon):
            horizon = row.end
        elif isinstance(row, TaskRow):
            if not row.period:
                raise row.line.fault(f"{row.name} has a period of 0", 3)
            tasks.append(Task(*row[1:]))
    return Tasks(horizon, tasks, comments)


def _first_and_last(task: Task, horizon: int) -> Tuple[int, int]:
    """How many jobs are released before the horizon, and how many are due by it."""
    released = -(-(horizon - task.offset) // task.period) if task.offset < horizon else 0
    due = horizon - task.offset - task.deadline
    return released, due // task.period + 1 if due >= 0 else 0


def jobs(tasks: Tasks) -> Iterator[JobOfTask]:
    """The jobs that are due by the horizon, task by task: those of `yds_cli expand`, of any number.

    >>> [job.name for job in jobs(Tasks(20, [Task("a", 0, 10, 5, 1), Task("b", 8, 10, 5, 1)], []))]
    ['a.0', 'a.1', 'b.0']
    """
    for task in tasks.tasks:
        for number in range(_first_and_last(task, tasks.horizon or 0)[1]):
            release = task.offset + number * task.period
            yield JobOfTask(f"{task.name}.{number}", release, release + task.deadline, task.work)


def lost_by(tasks: Tasks) -> List[Lost]:
    """The jobs of each task that are released before the horizon and due after it; tasks without any aren't there.

    >>> lost_by(Tasks(1000, [Task("big", 500, 1000, 600, 600000)], []))[0].told()
    'big, 1 of 1 jobs, work 600000'
    """
    found = []
    for task in tasks.tasks:
        released, due = _first_and_last(task, tasks.horizon or 0)
        if released > due or not released:
            found.append(Lost(task, released - due, released))
    return found


def period(tasks: Tasks) -> Tuple[Optional[int], str]:
    """After how many units of time all begins again; None, and why not, where that isn't the horizon.

    >>> period(Tasks(1000, [Task("a", 0, 300, 50, 24)], []))
    (None, 'the horizon 1000 is no multiple of 300, the period of a')
    """
    horizon = tasks.horizon or 0
    for task in tasks.tasks:
        if horizon % task.period:
            return None, f"the horizon {horizon} is no multiple of {task.period}, the period of {task.name}"
        if task.offset >= task.period:
            return None, f"{task.name} is released first at {task.offset}, after its period {task.period}"
    return (None, "jobs are missing") if lost_by(tasks) else (horizon, "")


def longer_horizon(tasks: Tasks) -> Optional[int]:
    """A multiple of all periods above the horizon by which no job is lost; None where none is known."""
    common = 1
    for task in tasks.tasks:
        common = common // gcd(common, task.period) * task.period
        if common > MOST_COMMON:
            return None
    horizon = tasks.horizon or 0
    if any(lost.hangs_over for lost in lost_by(tasks)) or not horizon % common:
        return None
    return (horizon // common + 1) * common
