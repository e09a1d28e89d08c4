"""A policy of one's own, simulated on a document's jobs. What it ran is judged, exactly.

A policy is a call that says how fast to run, given a moment: the time, the jobs that wait, and those released by then.

>>> import yds
>>> def as_late_as_can_be(moment):
...     left, needed = 0, 0
...     for job in moment.pending:
...         left += job.left
...         needed = max(needed, left / (job.deadline - moment.now))
...     return needed
>>> document = yds.Document([("a", 0, 3, 2), ("b", 1, 2, 1)])
>>> run = yds.simulate(document, as_late_as_can_be, exact=True)
>>> run
<Simulation of 2 jobs, work 3, 0 to 3: 3 slots, grid 720720, rounded 0, feasible>
>>> run.energy_for(3) == document.oa().energy_for(3)
True
"""

from __future__ import annotations

import math
from bisect import insort
from fractions import Fraction
from numbers import Rational, Real
from typing import Any, Callable, Dict, List, NamedTuple, Optional, Sequence, Tuple, Union

from yds._fractions import ratio
from yds._numbers import exact as exact_number
from yds._numbers import integer, is_truth
from yds._powers import Span
from yds._slots import Columns, Own, spelled
from yds.document import FINE_GRID, GRIDS, Document, _Answered
from yds.errors import Refused
from yds.results import Verdict
from yds.rows import Exact, Job, Slot

__all__ = ["Moment", "Pending", "Policy", "Simulation", "simulate"]

_LATEST = 1_000_000_000
"""The greatest time of a document."""
_MOST_SLOTS = 100_000


class Pending(NamedTuple):
    """A job that is released and not done, as a policy sees it.

    Its name, its window (units of time) and its work (units of work) are those of its row.
    """

    name: str
    release: int
    deadline: int
    work: int
    left: Any
    """What of its work is left, above 0: a float, the nearest to the exact number; a Fraction where those are asked for."""


class Moment(NamedTuple):
    """What a policy knows when it is asked for a speed."""

    now: Any
    """The time: a float, or a Fraction where those are asked for."""
    pending: Sequence[Pending]
    """The jobs that wait, in the order in which they run: the earliest deadline first. There is one at least."""
    released: Sequence[Job]
    """All jobs that are released by now, also those that are done, in the order of their releases."""


Policy = Callable[[Moment], Union[int, float, Fraction]]
"""The speed (work per unit of time) at which to run from this moment to the next, at least 0."""


class Simulation(_Answered):
    """A document with the slots that a policy ran, and the verdict on them. It is true where they are feasible."""

    _from = "yds.simulate(document, policy)"
    _by = "hull"
    _grid: int
    _rounded: int
    _missed: Optional[str]
    _verdict: Verdict

    @property
    def verdict(self) -> Verdict:
        """Whether the slots give each job its work in its window: the library's own verdict, of `audit`."""
        return self._verdict

    @property
    def missed(self) -> Optional[str]:
        """The job at whose deadline the run ended, since it wasn't done; None where there is none."""
        return self._missed

    @property
    def grid(self) -> int:
        """So many parts of a unit of work are counted where a float is rounded up."""
        return self._grid

    @property
    def rounded(self) -> int:
        """How many of the speeds that the policy said were floats that are no speed of the grid, and were moved."""
        return self._rounded

    @property
    def exact(self) -> bool:
        """Whether the slots run at just the speeds that the policy said: none was moved."""
        return self._rounded == 0

    def audit(self, points: bool = False) -> Verdict:
        """As that of a document; without points it is the verdict that was told already."""
        return super().audit(points) if points is not False or "_verdict" not in self.__dict__ else self._verdict

    def __bool__(self) -> bool:
        return self._verdict.feasible

    def _spans(self, start: Optional[int], end: Optional[int]) -> List[Span]:
        if not self:
            raise ValueError(f"the run isn't feasible ({str(self._verdict).strip()}), so its energy is that of a part")
        return super()._spans(start, end)

    def _told(self) -> List[str]:
        return [f"grid {self.grid}", f"rounded {self.rounded}", str(self._verdict).strip()]

    def __getstate__(self) -> Dict[str, object]:
        more = ("_grid", "_rounded", "_missed", "_verdict")
        return {**super().__getstate__(), **{name: self.__dict__[name] for name in more}}

    @classmethod
    def _again(cls, document: Document) -> Sequence[bytes]:
        raise TypeError(f"a text doesn't tell what a policy said: ask {cls._from} again, or pickle what it answers")


def simulate(
    document: Document, policy: Policy, grid: int = FINE_GRID, every: Optional[Exact] = None, exact: bool = False
) -> Simulation:
    """Runs the document's jobs at the speeds that the policy says, the earliest deadline first, and judges the slots.

    The policy is asked at each release and each deadline, and, where `every` is given, again after so many units of
    time, as long as a job waits. In between, its speed stays. Where no job waits, nothing runs.

    A speed that is an int or a Fraction is taken as it is. A float becomes a speed of the grid: what is done until the
    policy is asked again is a multiple of 1/grid (1 to 1,000,000) of a unit of work, or, where all that waits gets
    done, the speed itself is one. It becomes the speed to which it is the nearest float, and where there is none, the
    next higher. `rounded` counts the floats that weren't exactly that speed, however near. The policy sees floats, each
    the nearest to the exact number; Fractions where exact is True.

    Too slow a policy is late, and nothing is mended: at the first deadline that is missed it isn't asked any more. That
    job runs on at the last speed to its end, so that the verdict names it, and the run ends there.

    TypeError or ValueError is raised where a speed is no number of at least 0, and where the fractions of the slots
    come to denominators that no document takes, as Fractions for speeds may.

    >>> import yds
    >>> document = yds.Document([("a", 0, 4, 6), ("b", 1, 2, 1)])
    >>> yds.simulate(document, lambda moment: 2).slots[0]
    Slot(job='a', start=Fraction(0, 1), end=Fraction(1, 1), work=Fraction(2, 1))
    >>> slow = yds.simulate(document, lambda moment: 1)
    >>> bool(slow), slow.missed, slow.verdict
    (False, 'a', <Verdict late: slot 2 of a ends at 7, deadline 4>)
    """
    parts = integer(grid, "the grid", 1)
    if parts > 1_000_000:
        raise ValueError(f"{GRIDS}, and not {grid!r}")
    step = None if every is None else exact_number(every)
    if step is not None and step <= 0:
        raise ValueError(f"every is a time above 0, and not {every!r}")
    simulator = _Simulator(document.jobs, policy, parts, exact)
    simulator.run(step)
    return _judged(document, simulator)


class _Waiting:
    """A job that waits, with what is left of its work in parts of a unit: an int, or a Fraction where speeds are."""

    __slots__ = ("job", "order", "left", "seen")

    def __init__(self, job: Job, place: int, grid: int) -> None:
        self.job = job
        self.order = (job.deadline, job.release, place)
        self.left: Any = job.work * grid
        self.seen: Optional[Pending] = None

    def __lt__(self, other: _Waiting) -> bool:
        return self.order < other.order


class _Ran(NamedTuple):
    """A slot: its work in parts of a unit, and its speed as so many parts in so much time."""

    name: str
    start: Any
    end: Any
    parts: Any
    could: Any
    length: Any


class _Simulator:
    """The jobs that wait, and what ran. Numbers are ints as long as they are whole, since these are quicker."""

    def __init__(self, jobs: Sequence[Job], policy: Policy, grid: int, exact: bool) -> None:
        self._policy = policy
        self.grid = grid
        self._exact = exact
        self._coming = sorted(((job.release, place, job) for place, job in enumerate(jobs)), reverse=True)
        self._times = sorted({time for job in jobs for time in (job.release, job.deadline)})
        self._pending: List[_Waiting] = []
        self._released: List[Job] = []
        self._ran: List[_Ran] = []
        self._could: Any = 0
        self._length: Any = 1
        self.rounded = 0
        self.missed: Optional[str] = None

    def run(self, every: Optional[Fraction]) -> None:
        """From the first release to the last deadline, or to the first that is missed."""
        step = None if every is None else _plain(every)
        for now, end in zip(self._times, [*self._times[1:], None]):
            if self._pending and self._pending[0].job.deadline <= now:
                self._miss(now)
                return
            self._release(now)
            if end is not None:
                self._run_from(now, end, step)

    def slots(self) -> List[Slot]:
        """What ran, in the order of time."""
        return [
            Slot(one.name, _fraction(one.start), _fraction(one.end), _fraction(one.parts, self.grid))
            for one in self._ran
        ]

    def _release(self, now: int) -> None:
        while self._coming and self._coming[-1][0] == now:
            _, place, job = self._coming.pop()
            self._released.append(job)
            if job.work:
                insort(self._pending, _Waiting(job, place, self.grid))

    def _run_from(self, start: int, end: int, every: Any) -> None:
        """One stretch, or as many as are no longer than `every`."""
        now: Any = start
        while self._pending and now < end:
            until: Any = end if every is None else _plain(min(now + every, end))
            self._stretch(now, _plain(until - now))
            now = until

    def _stretch(self, now: Any, length: Any) -> None:
        """What waits runs at the policy's speed, the earliest deadline first: so many parts could be done in all."""
        could = self._parts(self._said(now), length)
        self._could, self._length = could, length
        done: Any = 0
        start = now
        while self._pending and done < could:
            first = self._pending[0]
            part: Any = min(first.left, could - done)
            done += part
            end: Any = now + length if done == could else _later(now, length * done, could)
            self._run_one(first.job.name, start, end, part)
            start = end
            first.left -= part
            first.seen = None
            if not first.left:
                del self._pending[0]

    def _said(self, now: Any) -> Union[int, float, Fraction]:
        """The speed that the policy says."""
        pending = [one.seen or self._seen(one) for one in self._pending]
        said = self._policy(Moment(self._number(now, 1), pending, tuple(self._released)))
        if type(said) is float and 0 <= said < math.inf:
            return said
        if is_truth(said) or not isinstance(said, Real):
            raise TypeError(f"at {now} the policy says {said!r}, and a speed is an int, a Fraction or a float")
        if not 0 <= said < math.inf:
            raise ValueError(f"at {now} the policy says {said!r}, and a speed is a number of at least 0")
        return exact_number(said) if isinstance(said, Rational) else float(said)

    def _seen(self, one: _Waiting) -> Pending:
        """The job as a policy sees it, until more of its work is done."""
        one.seen = Pending(*one.job, self._number(one.left, self.grid))
        return one.seen

    def _number(self, parts: Any, whole: int) -> Any:
        if self._exact:
            return Fraction(parts, whole)
        return parts / whole if type(parts) is int else float(Fraction(parts, whole))

    def _parts(self, said: Union[int, float, Fraction], length: Any) -> Any:
        """How many parts of a unit of work could be done in the length, by the grid where the speed is a float."""
        if not isinstance(said, float):
            return _plain(said * self.grid * length)
        could, moved = self._of_grid(said, length)
        if could > sum(one.left for one in self._pending):
            rate, moved = self._of_grid(said, 1)
            could = _plain(rate * length)
        self.rounded += moved
        return could

    def _of_grid(self, said: float, length: Any) -> Tuple[int, bool]:
        """The whole parts in the length of which the float is the nearest speed, or the next more; whether it moved.

        A quotient of two ints is the nearest float to it.
        """
        numerator, denominator = said.as_integer_ratio()
        below, rest = divmod(numerator * self.grid * length.numerator, denominator * length.denominator)
        nearest = below + (2 * rest >= denominator * length.denominator)
        if nearest * length.denominator / (self.grid * length.numerator) == said:
            return nearest, rest > 0
        return below + (rest > 0), rest > 0

    def _run_one(self, name: str, start: Any, end: Any, parts: Any) -> None:
        """A slot; the one before goes on where it has the same job and speed, and ends where this one starts."""
        could, length = self._could, self._length
        before = self._ran[-1] if self._ran else None
        if (
            before is not None
            and before.name == name
            and before.end == start
            and before.could * length == could * before.length
        ):
            self._ran[-1] = before._replace(end=end, parts=before.parts + parts)
            return
        if len(self._ran) == _MOST_SLOTS:
            raise ValueError("the run has more than 100,000 slots, and a document has no more: take a longer `every`")
        self._ran.append(_Ran(name, start, end, parts, could, length))

    def _miss(self, now: int) -> None:
        """The first job that is late runs on at the last speed, to its end or to the greatest time of a document."""
        first = self._pending[0]
        self.missed = first.job.name
        if not self._could:
            return
        end = min(now + Fraction(first.left * self._length, self._could), Fraction(_LATEST))
        if end > now:
            self._run_one(self.missed, now, end, (end - now) * self._could / self._length)


def _fraction(parts: Any, whole: int = 1) -> Fraction:
    """So many parts of a whole, which are an int or a Fraction."""
    if type(parts) is int:
        return ratio(parts, whole)
    found: Fraction = parts if whole == 1 else Fraction(parts, whole)
    return found


def _later(now: Any, parts: Any, whole: Any) -> Fraction:
    """The time after the quotient of both."""
    if type(now) is int and type(parts) is int and type(whole) is int:
        return ratio(now * whole + parts, whole)
    later: Fraction = now + Fraction(parts, whole)
    return later


def _plain(number: Any) -> Any:
    """The number as an int, where it is whole."""
    return number.numerator if number.denominator == 1 else number


def _judged(document: Document, simulator: _Simulator) -> Simulation:
    """The answer, with the library's verdict."""
    slots = simulator.slots()
    own = Own(slots)
    own.lines = spelled(Columns(*zip(*slots))).lines
    made = Simulation._made(document._head + own.lines, written=True)
    made.__dict__.update(jobs=document.jobs, points=document.points, slots=own, levels=())
    try:
        verdict = made.audit()
    except Refused as fault:
        raise ValueError(
            f"what the policy ran is no document ({fault}): let it say floats, which are rounded up to the grid; "
            "or take a coarser grid, or speeds that aren't so high"
        ) from fault
    more = {"_grid": simulator.grid, "_rounded": simulator.rounded, "_missed": simulator.missed, "_verdict": verdict}
    made.__dict__.update(more)
    return made
