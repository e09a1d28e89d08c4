"""The study of library/examples, and the same by hand: without simulate, energy_for and map. The numbers are equal."""

import io
import math
import multiprocessing
import random
import sys
import unittest
from contextlib import redirect_stdout
from fractions import Fraction
from typing import Any, Callable, Dict, List, Tuple

import yds
from stored import ROOT

GRID = 720720
Row = Tuple[str, Fraction, Fraction, Fraction]


def powers(found: List[Row], table: List[Tuple[int, int]], start: int, end: int) -> Dict[str, float]:
    """The energies of slots: for two exponents in floats, and for a convex table exactly."""
    told: Dict[str, float] = {}
    for exponent in (2, 3):
        told[f"speed^{exponent}"] = math.fsum(
            float(w) ** exponent * float(e - s) ** (1 - exponent) for _, s, e, w in found
        )
    total, idle = Fraction(0), Fraction(end - start)
    for _, begin, finish, work in found:
        speed, length = work / (finish - begin), finish - begin
        for (low, low_power), (high, high_power) in zip(table, table[1:]):
            if low <= speed <= high:
                total += (low_power + Fraction(high_power - low_power, high - low) * (speed - low)) * length
                break
        else:
            raise ValueError(f"the speed {speed} is above the table")
        idle -= length
    told["table"] = float(total + table[0][1] * idle)
    return told


class Waits:
    def __init__(self, job: yds.Job) -> None:
        self.release, self.deadline, self.work = job.release, job.deadline, job.work
        self.name, self.left = job.name, Fraction(job.work)


def by_hand(jobs: List[yds.Job], policy: Callable[[float, List[Waits], List[yds.Job]], float], every: int) -> List[Row]:
    """The earliest deadline first at the policy's speed, rounded up so that works are in parts of 1/720720."""
    times = sorted({time for job in jobs for time in (job.release, job.deadline)})
    if every:
        times = list(range(times[0], times[-1] + 1, every))
    everything, slots = [Waits(job) for job in jobs], []
    for now, after in zip(times, times[1:]):
        waits = [one for one in everything if one.release <= now and one.left]
        if not waits:
            continue
        if min(one.deadline for one in waits) <= now:
            break
        waits.sort(key=lambda one: (one.deadline, one.release))
        speed = policy(now, waits, [job for job in jobs if job.release <= now])
        could = Fraction(math.ceil(Fraction(speed) * GRID * (after - now)), GRID)
        if could > sum(one.left for one in waits):
            could = Fraction(math.ceil(Fraction(speed) * GRID), GRID) * (after - now)
        start, done = Fraction(now), Fraction(0)
        for one in waits:
            work = min(one.left, could - done)
            if work:
                done += work
                end = now + (after - now) * done / could
                slots.append((one.name, start, end, work))
                start, one.left = end, one.left - work
    return slots


def needed(now: float, waits: List[Waits], released: List[yds.Job]) -> float:
    found, left = 0.0, 0.0
    for one in waits:
        left += float(one.left)
        found = max(found, left / (one.deadline - now))
    return found


def densities(now: float, waits: List[Waits], released: List[yds.Job]) -> float:
    return sum(float(one.left) / (one.deadline - now) for one in waits)


def by_the_next(now: float, waits: List[Waits], released: List[yds.Job]) -> float:
    return sum(float(one.left) for one in waits) / (waits[0].deadline - now)


def bkp(now: float, waits: List[Waits], released: List[yds.Job]) -> float:
    found = 0.0
    for due in {one.deadline for one in waits}:
        begin = math.e * now - (math.e - 1) * due
        work = sum(job.work for job in released if job.release >= begin and job.deadline <= due)
        found = max(found, work / (due - now))
    return found


OWN: Dict[str, Any] = {
    "5/3 of its speed": (lambda *seen: 5 / 3 * needed(*seen), 0),
    "9/10 of its speed": (lambda *seen: 0.9 * needed(*seen), 0),
    "sum of densities": (densities, 0),
    "all by the next": (by_the_next, 0),
    "BKP": (bkp, 1),
}
TABLE = [(speed, 500 + speed**3) for speed in (0, 10, 20, 40, 80, 160, 320, 640, 5000)]


def windows(kind: str, draw: random.Random) -> Tuple[int, int]:
    if kind == "nested":
        half = draw.randrange(2, 101)
        return 100 - half, 100 + half
    start = draw.randrange(200) if kind == "uniform" else 50 * draw.randrange(4)
    return start, start + draw.randrange(4, 151)


def study_by_hand(instance: Tuple[str, int]) -> Dict[Tuple[str, str, str], float]:
    draw, kind = random.Random(repr(instance)), instance[0]
    jobs = []
    for place in range(50):
        start, end = windows(kind, draw)
        jobs.append(yds.Job(f"j{place}", start, end, draw.randrange(1, 201)))
    document = yds.Document(jobs)
    first, last = min(job.release for job in jobs), max(job.deadline for job in jobs)
    least = powers(list(document.plan().slots), TABLE, first, last)  # type: ignore[arg-type]
    runs: Dict[str, Any] = {"Average Rate": document.avr().slots, "Optimal Available": document.oa().slots}
    runs.update({name: by_hand(jobs, policy, every) for name, (policy, every) in OWN.items()})
    found = {}
    for name, slots in runs.items():
        if yds.schedule.judge(document, slots):
            for power, energy in powers(slots, TABLE, first, last).items():
                found[name, power, kind] = energy / least[power]
    return found


class Study(unittest.TestCase):
    def setUp(self) -> None:
        sys.path.insert(0, str(ROOT / "library" / "examples"))
        self.addCleanup(sys.path.remove, str(ROOT / "library" / "examples"))

    def test_the_numbers_are_those_by_hand(self) -> None:
        import study

        instances = [(kind, seed) for kind in study.KINDS for seed in range(1)]
        with multiprocessing.Pool(2) as pool:
            wanted = pool.map(study_by_hand, instances)
        for instance, one, other in zip(instances, yds.map(study.study, instances, processes=2), wanted):
            with self.subTest(instance):
                self.assertEqual(set(one), set(other))
                self.assertEqual(len(one), 18)
                for key, ratio in one.items():
                    self.assertTrue(math.isclose(ratio, other[key], rel_tol=1e-4), (key, ratio, other[key]))

    def test_the_table(self) -> None:
        import study

        told = io.StringIO()
        with redirect_stdout(told):
            study.main("1")
        lines = told.getvalue().splitlines()
        self.assertEqual(len(lines), 8)
        self.assertRegex(lines[1], r"^Average Rate          0(  +\d\.\d{4}){9}$")
        self.assertRegex(lines[4], r"^9/10 of its speed     3(  +-){9}$")

    def test_it_has_forty_lines(self) -> None:
        lines = (ROOT / "library" / "examples" / "study.py").read_text().splitlines()
        self.assertLessEqual(len(lines), 40)
        self.assertLessEqual(max(map(len, lines)), 120)


if __name__ == "__main__":
    unittest.main()
