"""The tasks and jobs of an rt-app workload, in units of a document."""

from __future__ import annotations

from fractions import Fraction
from functools import reduce
from math import gcd
from typing import Iterator, List, NamedTuple, Sequence, Tuple

from yds._text import Fault
from yds._workload import Instance, Phase

MOST_WORK = 1_000_000
MOST_JOBS = 4000


class Scale(NamedTuple):
    """The units, and the frequency to which rt-app was calibrated."""

    mhz: int
    us: int
    khz: int

    def work(self, phase: Phase) -> int:
        """The work of a period's runs, in units of work, rounded up."""
        exact = self._exact(phase)
        work = -(-exact.numerator // exact.denominator)
        if work > MOST_WORK:
            fits = self.fitting(phase)
            raise Fault(f"{phase.where}: a work of {work}, above {MOST_WORK}; give a coarser -u or -k, as -k {fits}")
        return work

    def fitting(self, phase: Phase) -> int:
        """A unit of speed in which the work isn't too great: this one, or a coarser one."""
        exact = self._exact(phase)
        if exact <= MOST_WORK:
            return self.khz
        return next(unit for unit in _coarser(self.khz) if exact * self.khz <= MOST_WORK * unit)

    def _exact(self, phase: Phase) -> Fraction:
        return phase.events.run * self.mhz * 1000 / (self.us * self.khz)


def _coarser(khz: int) -> Iterator[int]:
    """Units of speed above this one: powers of ten, and 2 and 5 times one."""
    scale = 1
    while True:
        yield from (digit * scale for digit in (1, 2, 5) if digit * scale > khz)
        scale *= 10


class Counted(NamedTuple):
    """The jobs of an instance, and those that begin within the duration and are due after it."""

    jobs: List[Tuple[int, int, int]]
    """Release, deadline and work, in units."""
    lost: int
    work: int


def task_lines(found: Sequence[Instance], scale: Scale, horizon: Fraction) -> Iterator[str]:
    """A horizon line, and a task line for each instance. horizon is in microseconds."""
    end = int(horizon / scale.us)
    lines = [f"horizon {end}"]
    for one in found:
        offset, period, deadline, phase = _only_phase(one)
        numbers = [
            _units(one, number, what, scale, found)
            for number, what in ((offset, "the delay"), (period, "the period"), (deadline, "the deadline"))
        ]
        work = scale.work(phase)
        if numbers[0] + numbers[2] > end:
            raise Fault(f"{one.name}: no job of it is due within the duration; give a longer -H")
        lines.append(f"task {one.name} {numbers[0]} {numbers[1]} {numbers[2]} {work}")
    return iter(lines)


def _only_phase(one: Instance) -> Tuple[Fraction, Fraction, Fraction, Phase]:
    """The delay, period and deadline of a task that is periodic for ever, in microseconds."""
    phases = one.phases()
    phase = phases[0]
    if len(phases) > 1:
        raise Fault(f"{one.name}: several phases; give -j")
    if one.loop >= 0 and phase.loop >= 0:
        raise Fault(f"{one.name}: it ends after its loops; give -j")
    if phase.events.period is None:
        raise Fault(f"{one.name}: no timer, so no period")
    return one.delay, phase.events.period, one.deadline(phase), phase


def _units(one: Instance, time: Fraction, what: str, scale: Scale, found: Sequence[Instance]) -> int:
    units = time / scale.us
    if units.denominator != 1:
        advice = _advice(scale, found)
        raise Fault(f"{one.name}: {what} is no multiple of the time unit, {scale.us} microseconds; {advice}")
    return units.numerator


def _advice(scale: Scale, found: Sequence[Instance]) -> str:
    """Units in which all times are whole, and no work is too great."""
    fits = _divisor(found)
    if not fits:
        return "give -j"
    khz = max(scale._replace(us=fits).fitting(_only_phase(one)[3]) for one in found)
    coarser = f", and -k {khz}, so that no work is too great" if khz > scale.khz else ""
    return f"give -u {fits}, which divides all times{coarser}, or -j"


def _divisor(found: Sequence[Instance]) -> int:
    """The greatest whole number of microseconds that divides all times of the tasks; 0 where there is none."""
    times = [time for one in found for time in _only_phase(one)[:3]]
    return 0 if any(time.denominator != 1 for time in times) else reduce(gcd, [int(time) for time in times])


def job_lines(found: Sequence[Instance], scale: Scale, horizon: Fraction, seconds: str) -> Iterator[str]:
    """The jobs of all phases, loops and ends within the horizon, in microseconds, and comments on those due after it."""
    counted = [(one, _Walk(one, scale, horizon).counted()) for one in found]
    jobs = [
        f"job {one.name}.{number} {release} {deadline} {work}"
        for one, count in counted
        for number, (release, deadline, work) in enumerate(count.jobs)
    ]
    if len(jobs) > MOST_JOBS:
        raise Fault(f"{len(jobs)} jobs are more than {MOST_JOBS}; give a shorter -H")
    if not jobs:
        raise Fault(f"no job ends within {seconds} seconds")
    for one, count in counted:
        if count.lost:
            of = f"{count.lost} of {count.lost + len(count.jobs)} jobs, work {count.work}"
            yield f"# not due by {int(horizon / scale.us)}: {one.name}, {of}"
    yield from jobs


class _Walk:
    """One instance, gone through phase by phase."""

    def __init__(self, one: Instance, scale: Scale, horizon: Fraction) -> None:
        self._one, self._scale, self._horizon = one, scale, horizon
        self._phases = one.phases()
        self._time = one.delay
        self._jobs: List[Tuple[int, int, int]] = []
        self._lost = self._work = 0

    def counted(self) -> Counted:
        """The jobs until the horizon, or the end of the loops."""
        rounds = 0
        while self._time < self._horizon and (self._one.loop < 0 or rounds < self._one.loop):
            began = self._time
            for phase in self._phases:
                self._go_through(phase)
            rounds += 1
            if self._time == began:
                break
        return Counted(self._jobs, self._lost, self._work)

    def _go_through(self, phase: Phase) -> None:
        lap = 0
        while (phase.loop < 0 or lap < phase.loop) and self._time < self._horizon:
            if phase.events.period is not None:
                self._release(phase, phase.events.period)
            elif phase.events.sleep:
                self._time += phase.events.sleep
            elif phase.loop < 0:
                raise Fault(f"{phase.where}: an endless loop without time")
            else:
                return
            lap += 1

    def _release(self, phase: Phase, period: Fraction) -> None:
        due = self._time + self._one.deadline(phase)
        if phase.events.runs:
            work = self._scale.work(phase)
            if due <= self._horizon:
                self._jobs.append((int(self._time / self._scale.us), int(due / self._scale.us), work))
            else:
                self._lost, self._work = self._lost + 1, self._work + work
        self._time += period
        if len(self._jobs) > MOST_JOBS:
            raise Fault(f"{self._one.name}: more than {MOST_JOBS} jobs; give a shorter -H")
