"""All jobs at one speed, earliest deadline first: what it spends, and which deadlines are missed."""

from __future__ import annotations

from fractions import Fraction
from heapq import heappop, heappush
from typing import List, NamedTuple, Sequence, Tuple

Window = Tuple[int, int, int]
"""Release, deadline and work of a job."""


class Served(NamedTuple):
    """How the jobs end, in units of 1/speed of time, in which a unit of work takes one."""

    end: int
    """When the last job ends."""
    missed: List[int]
    """The places of the jobs that end after their deadlines, in the order of their ends."""
    wakes: int
    """How often it begins to run after time in which nothing runs."""


class AtSpeed(NamedTuple):
    """What all jobs at one point spend, idle for the rest."""

    energy: Fraction
    """Power times time, over all windows, and beyond the last deadline where work is left then."""
    running: Fraction
    """Units of time at the point."""
    idle: Fraction
    """Units of time at the first point."""
    missed: List[int]
    """The places of the jobs that end after their deadlines, in the order of their ends."""
    changes: int
    """How often the speed becomes another one."""
    wakes: int
    """How often it begins to run after time in which nothing runs."""


def serve(jobs: Sequence[Window], speed: int) -> Served:
    """Serves the jobs at the speed; of equal deadlines the first in the list goes before."""
    arrivals = sorted((place for place, job in enumerate(jobs) if job[2]), key=lambda place: (jobs[place][0], place))
    left = [work for _, _, work in jobs]
    ready: List[Tuple[int, int]] = []
    missed: List[int] = []
    now = wakes = next_one = 0
    idle = True
    while ready or next_one < len(arrivals):
        if not ready:
            release = jobs[arrivals[next_one]][0] * speed
            idle = idle or release > now
            now = max(now, release)
        while next_one < len(arrivals) and jobs[arrivals[next_one]][0] * speed <= now:
            place = arrivals[next_one]
            heappush(ready, (jobs[place][1], place))
            next_one += 1
        wakes, idle = wakes + idle, False
        deadline, place = ready[0]
        until = now + left[place]
        if next_one < len(arrivals):
            until = min(until, jobs[arrivals[next_one]][0] * speed)
        left[place] -= until - now
        now = until
        if not left[place]:
            heappop(ready)
            missed += [place] if now > deadline * speed else []
    return Served(now, missed, wakes)


def at_speed(jobs: Sequence[Window], speed: int, power: int, idle_power: int) -> AtSpeed:
    """What the jobs spend at a point of this speed and power, with this power where nothing runs.

    Each job is release, deadline and work.

    >>> at_speed([(0, 3, 30), (8, 12, 60)], 10, 20, 1)[:3], at_speed([(0, 3, 30), (8, 12, 60)], 10, 20, 1).missed
    ((Fraction(185, 1), Fraction(9, 1), Fraction(5, 1)), [1])
    """
    served = serve(jobs, speed)
    work = sum(job[2] for job in jobs)
    first, last = min(job[0] for job in jobs), max(job[1] for job in jobs)
    over = max(0, served.end - speed * last)
    running = Fraction(work, speed)
    idle = last - first + Fraction(over - work, speed)
    return AtSpeed(power * running + idle_power * idle, running, idle, served.missed, 2 * served.wakes, served.wakes)
