"""Answers that are no documents. Each keeps the program's bytes as `text`, and its numbers are exact.

Places in lists count from 0, as Python does. In the text they count from 1.
"""

from __future__ import annotations

from dataclasses import dataclass, field
from fractions import Fraction
from typing import Any, Dict, List, Literal, NamedTuple, Optional, Sequence, Tuple

from yds import _drawn, _shown
from yds._numbers import exact
from yds._spelling import read_fraction
from yds.rows import Exact, Level, Slot


@dataclass(frozen=True, repr=False)
class Result:
    """An answer."""

    text: bytes
    """The program's bytes."""

    def __str__(self) -> str:
        return self.text.decode("ascii")

    def __repr__(self) -> str:
        """One line for a reader. The fields have all."""
        raise NotImplementedError


def _lines(text: bytes) -> List[List[bytes]]:
    return [line.split() for line in text.splitlines()]


@dataclass(frozen=True, repr=False)
class Verdict(Result):
    """What `audit` says. It is true where the slots give each job its work in its window, one job at a time."""

    cause: str
    """'feasible', or the first cause against it: 'backward', 'overlap', 'early', 'late', 'off-point' or 'work'."""
    job: Optional[str] = None
    """The job that is concerned."""
    index: Optional[int] = None
    """The place of the slot that is concerned, in the slots that were judged, counted from 0; None for 'work'."""
    slot: Optional[Slot] = None
    """That slot."""
    previous_end: Optional[Fraction] = None
    """overlap: when the slot before it ends (units of time)."""
    release: Optional[int] = None
    """early: when the job is released (units of time)."""
    deadline: Optional[int] = None
    """late: when the job is due (units of time)."""
    given: Optional[Fraction] = None
    """work: how much work the job's slots give it."""
    wanted: Optional[int] = None
    """work: how much it needs."""

    @property
    def feasible(self) -> bool:
        """Whether the slots are feasible; of an audit on the points, whether they also run at the points' speeds."""
        return self.cause == "feasible"

    def __bool__(self) -> bool:
        return self.feasible

    def __repr__(self) -> str:
        return _shown.verdict(self)

    @classmethod
    def read(cls, text: bytes, slots: Sequence[Slot]) -> Verdict:
        """The verdict that the text tells, of these slots in the order in which they were judged."""
        cause, *rest = text.decode("ascii").split()
        if cause == "feasible":
            return cls(text, cause)
        if cause == "work":
            return cls(text, cause, rest[0], given=read_fraction(rest[2].encode()), wanted=int(rest[4]))
        index, job, last = int(rest[1]) - 1, rest[2], rest[-1]
        return cls(
            text,
            cause,
            job,
            index,
            slots[index],
            previous_end=read_fraction(last.encode()) if cause == "overlap" else None,
            release=int(last) if cause == "early" else None,
            deadline=int(last) if cause == "late" else None,
        )


@dataclass(frozen=True, repr=False)
class Judgement(Result):
    """What `check` says. It is true where the levels show that the slots are least above every speed."""

    condition: Optional[str] = None
    """The first condition that fails, 'K1' to 'K7' (docs/manual.md); None where all hold."""
    verdict: Optional[Verdict] = None
    """K1: why the slots aren't feasible."""
    level: Optional[int] = None
    """K2, K4, K5: the place of the level, counted from 0."""
    job: Optional[str] = None
    """K3, K6: the job."""
    index: Optional[int] = None
    """K7: the place of the slot that doesn't have its level's speed, counted from 0."""
    slot: Optional[Slot] = None
    """K7: that slot."""
    wanted: Optional[Fraction] = None
    """K7: the speed of its level (work per unit of time)."""

    @property
    def accepted(self) -> bool:
        """Whether the certificate is proper."""
        return self.condition is None

    def __bool__(self) -> bool:
        return self.accepted

    def __repr__(self) -> str:
        return _shown.judgement(self)

    @classmethod
    def read(cls, text: bytes, slots: Sequence[Slot], levels: Sequence[Level]) -> Judgement:
        """The judgement that the text tells, of these levels, and slots in the order in which they were judged."""
        condition, *rest = text.decode("ascii").split()
        if condition == "accepted":
            return cls(text)
        if condition == "K1":
            return cls(text, condition, Verdict.read(text[len("K1 ") :], slots))
        kind, place = rest
        if kind == "job":
            return cls(text, condition, job=place)
        index = int(place) - 1
        if kind == "level":
            return cls(text, condition, level=index)
        slot = slots[index]
        wanted = next(level.speed for level in levels if slot.job in level.members)
        return cls(text, condition, index=index, slot=slot, wanted=wanted)


@dataclass(frozen=True, repr=False)
class TooSlow(Result):
    """A no of `round` and `compare`: some jobs need more work in a time than the top point can do. It is false."""

    work: int
    """Units of work of the plan's first level."""
    length: int
    """Its units of time."""
    top: int
    """The speed of the last point."""

    @property
    def needed(self) -> Fraction:
        """The least top speed at which these jobs can be served: work per unit of time."""
        return Fraction(self.work, self.length)

    def __bool__(self) -> Literal[False]:
        return False

    def __repr__(self) -> str:
        return _shown.too_slow(self)

    @classmethod
    def read(cls, text: bytes) -> TooSlow:
        """What the line `too-slow work W length L top F` tells."""
        _, _, work, _, length, _, top = text.split()
        return cls(text, int(work), int(length), int(top))


class ReportLevel(NamedTuple):
    """A level of a plan: its members' work, its length in units of time, and its speed in work per unit of time."""

    work: int
    length: int
    speed: Fraction


@dataclass(frozen=True, repr=False)
class Report(Result):
    """What `report` says of a plan."""

    jobs: int
    """How many jobs there are."""
    work: int
    """Their work together."""
    start: int
    """The first release, 0 where there are no jobs."""
    end: int
    """The last deadline, 0 where there are no jobs."""
    levels: Tuple[ReportLevel, ...]
    """The fastest first."""
    idle: int
    """The units of time from start to end in which nothing runs."""

    @property
    def peak(self) -> Fraction:
        """The least constant speed that meets every deadline: that of the first level, or 0."""
        return self.levels[0].speed if self.levels else Fraction(0)

    def __repr__(self) -> str:
        return _shown.report(self)

    def _repr_html_(self) -> str:
        """What a notebook shows: the levels as a table, at most 40 of them."""
        return _drawn.report(self)

    @classmethod
    def read(cls, text: bytes) -> Report:
        """What the table tells."""
        head, *rows, last = _lines(text)
        levels = tuple(ReportLevel(int(work), int(length), read_fraction(speed)) for _, work, length, speed in rows)
        return cls(text, int(head[1]), int(head[3]), int(head[5]), int(head[7]), levels, int(last[1]))


class Break(NamedTuple):
    """A speed (work per unit of time), and the least work that any schedule does above it (units of work)."""

    speed: Fraction
    excess: Fraction


@dataclass(frozen=True, repr=False)
class Curve(Result):
    """The least work that any feasible schedule does above each speed, where that curve bends."""

    breaks: Tuple[Break, ...]
    """At rising speeds, the first of which is 0."""

    def above(self, speed: Exact) -> Fraction:
        """The least work above any speed of at least 0: on the straight line between two breaks, and 0 above the last.

        >>> import yds
        >>> yds.Document(jobs=[("a", 0, 12, 4), ("b", 2, 10, 8), ("c", 4, 6, 6)]).curve().above(2)
        Fraction(2, 1)
        """
        at = exact(speed)
        if at < 0:
            raise ValueError(f"a speed is at least 0, and not {speed!r}")
        for low, high in zip(self.breaks, self.breaks[1:]):
            if low.speed <= at <= high.speed:
                return low.excess + (high.excess - low.excess) * (at - low.speed) / (high.speed - low.speed)
        return Fraction(0)

    def plot(self, axes: Optional[Any] = None, **look: Any) -> Any:
        """The curve on matplotlib's axes: see `yds.pictures.curve`."""
        from yds import pictures

        return pictures.curve(self, axes, **look)

    def __repr__(self) -> str:
        return _shown.curve(self)

    def _repr_html_(self) -> str:
        """What a notebook shows: the breaks as a table, at most 40 of them."""
        return _drawn.curve(self)

    @classmethod
    def read(cls, text: bytes) -> Curve:
        """What the break lines tell."""
        return cls(text, tuple(Break(read_fraction(speed), read_fraction(excess)) for _, speed, excess in _lines(text)))


class Overload(NamedTuple):
    """The first stretch in which a policy asks more than the top point can do."""

    units: int
    """What it serves there, in units of one part in the grid of a unit of work."""
    start: int
    end: int
    top: int
    """The speed of the last point."""


@dataclass(frozen=True)
class Side:
    """What the plan or a policy's run spends on the points."""

    energy: Optional[Fraction] = None
    """Power times time; None where the top point is too slow for the policy."""
    times: Optional[Dict[int, Fraction]] = None
    """For each point's speed the units of time at it; None with the energy."""
    overload: Optional[Overload] = None
    """Where it is too slow; None with an energy."""
    rounded: Optional[int] = None
    """At how many event points a policy's run rounded up to the grid; None for the plan, which never rounds."""


@dataclass(frozen=True)
class Least(Side):
    """What the plan spends on the points. Where the top point is too slow for it, nothing is compared."""

    energy: Fraction = Fraction(0)
    """Power times time."""
    times: Dict[int, Fraction] = field(default_factory=dict)
    """For each point's speed the units of time at it."""


@dataclass(frozen=True, repr=False)
class Comparison(Result):
    """What the plan and the runs of both policies spend. The plan's energy is the least."""

    plan: Least
    avr: Side
    oa: Side

    def plot(self, axes: Optional[Any] = None) -> Any:
        """The energies as bars on matplotlib's axes: see `yds.pictures.energies`."""
        from yds import pictures

        return pictures.energies(self, axes)

    def __repr__(self) -> str:
        return _shown.comparison(self)

    def _repr_html_(self) -> str:
        """What a notebook shows: energies and times as a table."""
        return _drawn.comparison(self)

    @classmethod
    def read(cls, text: bytes) -> Comparison:
        """What the lines of `compare` tell."""
        lines = _lines(text)
        plan, avr, oa = (_side([line[1:] for line in lines if line[0] == name]) for name in (b"plan", b"avr", b"oa"))
        return cls(text, Least(plan.energy or Fraction(0), plan.times or {}), avr, oa)


def _side(lines: Sequence[Sequence[bytes]]) -> Side:
    """One side, from its lines without its name."""
    rounded = next((int(line[1]) for line in lines if line[0] == b"rounded"), None)
    first = lines[0]
    if first[0] == b"too-slow":
        _, _, units, _, start, _, end, _, top = first
        return Side(overload=Overload(int(units), int(start), int(end), int(top)), rounded=rounded)
    times = {int(line[1]): read_fraction(line[2]) for line in lines if line[0] == b"time"}
    return Side(read_fraction(first[1]), times, rounded=rounded)


class Refusal(NamedTuple):
    """A job that isn't admitted, and why: between start and end there is more work than the top speed does."""

    job: str
    start: int
    end: int
    work: int
    """The work of the job and of admitted ones whose windows lie between start and end."""
    top: int


@dataclass(frozen=True, repr=False)
class Trial(Result):
    """The numbers of a plan of drawn jobs, which the checker has accepted."""

    jobs: int
    levels: int
    slots: int
    peak: Optional[Tuple[int, int]]
    """The work and the length of the fastest level; None where there is none."""

    def __repr__(self) -> str:
        return _shown.trial(self)

    @classmethod
    def read(cls, text: bytes) -> Trial:
        """What the lines of `trial` tell."""
        jobs, levels, slots, peak, _ = _lines(text)
        return cls(
            text,
            int(jobs[1]),
            int(levels[1]),
            int(slots[1]),
            None if peak[1] == b"none" else (int(peak[1]), int(peak[2])),
        )
