"""The inner loop of a simulator: a governor that wakes up at fixed times and plans what is pending.

    python3 governor.py [SEED]

It tells whether the governor meets the deadlines of drawn jobs, and what it spends beside the least, with a power of
speed * speed * speed, in floats.
"""

import math
import random
import sys
from typing import Dict, Iterable, List

import yds


def drawn(seed: int, count: int = 20) -> List[yds.Job]:
    """Jobs with windows from 4 to 150 units of time."""
    draw = random.Random(seed)
    releases = [draw.randrange(200) for _ in range(count)]
    return [
        yds.Job(f"j{place}", release, release + draw.randrange(4, 151), 100 * draw.randrange(1, 121))
        for place, release in enumerate(releases)
    ]


def govern(jobs: Iterable[yds.Job], period: int) -> List[yds.Slot]:
    """What runs when, if the governor wakes up after each period and knows the jobs that are released by then."""
    waiting = sorted(jobs, key=lambda job: job.release)
    pending: Dict[str, yds.Job] = {}
    ran: List[yds.Slot] = []
    now = 0
    while waiting or pending:
        while waiting and waiting[0].release <= now:
            job = waiting.pop(0)
            pending[job.name] = job
        ran += followed(plan_from(now, pending.values()), now + period, pending)
        now += period
    return ran


def plan_from(now: int, pending: Iterable[yds.Job]) -> List[yds.Slot]:
    """The plan of what is pending. A job whose deadline is over is due as soon as can be."""
    jobs = [job._replace(release=now, deadline=max(job.deadline, now + 1)) for job in pending]
    return list(yds.Document(jobs).plan().slots)


def followed(slots: Iterable[yds.Slot], until: int, pending: Dict[str, yds.Job]) -> List[yds.Slot]:
    """The plan's slots up to this time. What they do is taken off the pending works, which stay whole numbers."""
    parts = [cut(slot, until) for slot in slots if slot.start < until]
    ran = []
    for name, job in list(pending.items()):
        own = [part for part in parts if part.job == name]
        if sum(part.work for part in own) == job.work:
            del pending[name]
        else:
            own = [part._replace(work=math.floor(part.work)) for part in own]
            pending[name] = job._replace(work=job.work - sum(int(part.work) for part in own))
        ran += [part for part in own if part.work > 0]
    return ran


def cut(slot: yds.Slot, until: int) -> yds.Slot:
    """The part of the slot up to this time, at the same speed."""
    end = min(slot.end, until)
    return slot._replace(end=end, work=slot.speed * (end - slot.start))


def main(seed: int) -> None:
    document = yds.Document(drawn(seed))
    for period in (1, 5, 10, 20):
        slots = govern(document.jobs, period)
        verdict = yds.schedule.judge(document, slots)
        ratio = yds.energy.of_slots(slots, 3.0) / document.plan().energy_for(3.0)
        print(f"each {period:2} units: {len(slots):3} slots, {ratio:.4f} of the least energy, {verdict}", end="")


if __name__ == "__main__":
    main(int(sys.argv[1]) if len(sys.argv) > 1 else 1)
