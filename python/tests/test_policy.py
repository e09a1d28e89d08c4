"""Policies of one's own: runs worked by hand, the library's policies written again, and runs retraced from slots."""

import copy
import math
import pickle
import random
import unittest
from fractions import Fraction
from typing import Any, Dict, List, Tuple

import yds

JOBS = yds.Document([("a", 0, 4, 6), ("b", 1, 2, 1)], [(0, 0), (1, 1), (3, 9)])


def average_rate(moment: yds.Moment) -> Any:
    now = moment.now
    rates = [Fraction(job.work, job.deadline - job.release) for job in moment.released if job.deadline > now]
    return sum(rates, Fraction(0))


def optimal_available(moment: yds.Moment) -> Any:
    left, needed = 0, 0
    for job in moment.pending:
        left += job.left
        needed = max(needed, left / (job.deadline - moment.now))
    return needed


def drawn(draw: random.Random) -> yds.Document:
    """A few jobs, some of no work, some in one window."""
    jobs = []
    for place in range(draw.randrange(1, 9)):
        release = draw.randrange(20)
        jobs.append((f"j{place}", release, release + draw.randrange(1, 12), draw.randrange(9)))
    return yds.Document(jobs)


class ByHand(unittest.TestCase):
    def test_one_speed(self) -> None:
        """b, due earlier, comes between two parts of a; what is done early leaves time in which nothing runs."""
        run = yds.simulate(JOBS, lambda moment: 2)
        half = Fraction(1, 2)
        wanted = (("a", 0, 1, 2), ("b", 1, 1 + half, 1), ("a", 1 + half, 3 + half, 4))
        self.assertEqual(run.slots, wanted)
        self.assertEqual(run.text, b"job a 0 4 6\njob b 1 2 1\npoint 0 0\npoint 1 1\npoint 3 9\n"
                         b"slot a 0 1 2\nslot b 1 1+1/2 1\nslot a 1+1/2 3+1/2 4\n")  # fmt: skip
        self.assertTrue(run)
        self.assertEqual((run.verdict.cause, run.missed, run.rounded, run.exact), ("feasible", None, 0, True))
        self.assertEqual((run.energy_for(3), run.energy_for()), (28, Fraction(7, 2) * 5))
        self.assertEqual(yds.Document.from_text(run.text).slots, run.slots)
        self.assertTrue(yds.Document.from_text(run.text).audit())

    def test_what_the_policy_sees(self) -> None:
        seen: List[yds.Moment] = []

        def policy(moment: yds.Moment) -> int:
            seen.append(moment)
            return 2

        yds.simulate(JOBS, policy)
        a, b = JOBS.jobs
        self.assertEqual([moment.now for moment in seen], [0, 1, 2])
        self.assertEqual([type(moment.now) for moment in seen], [float] * 3)
        self.assertEqual(seen[1].pending, [yds.Pending("b", 1, 2, 1, 1.0), yds.Pending("a", 0, 4, 6, 4.0)])
        self.assertEqual(seen[2].pending, [yds.Pending("a", 0, 4, 6, 3.0)])
        self.assertEqual(seen[2].released, (a, b))
        del seen[:]
        yds.simulate(JOBS, policy, every=Fraction(3, 4), exact=True)
        self.assertEqual(
            [moment.now for moment in seen], [0, Fraction(3, 4), 1, Fraction(7, 4), 2, Fraction(11, 4), 3.5][:6]
        )
        self.assertEqual(
            {type(number) for moment in seen for number in (moment.now, moment.pending[0].left)}, {Fraction}
        )

    def test_released_stays_what_it_was(self) -> None:
        seen: List[yds.Moment] = []
        yds.simulate(JOBS, lambda moment: seen.append(moment) or 2)
        self.assertEqual([len(moment.released) for moment in seen], [1, 2, 2])

    def test_a_policy_that_is_too_slow_is_late(self) -> None:
        """At the deadline 4 a has run from 0 to 1 and from 2 to 4 and has half its work left: it ends at 7."""
        asked: List[float] = []
        run = yds.simulate(JOBS, lambda moment: asked.append(moment.now) or 1)
        self.assertFalse(run)
        self.assertEqual(run.slots, (("a", 0, 1, 1), ("b", 1, 2, 1), ("a", 2, 7, 5)))
        self.assertEqual((run.missed, run.verdict.cause, run.verdict.index, run.verdict.deadline), ("a", "late", 2, 4))
        self.assertEqual(asked, [0, 1, 2])
        for power in (None, 3, 2.5, [(0, 1), (9, 9)]):
            with self.assertRaisesRegex(
                ValueError, r"isn't feasible \(late slot 3 a 7 deadline 4\), so its energy is that of a part"
            ):
                run.energy_for(power)
        self.assertIn("late slot 3 a 7 deadline 4", repr(run))

    def test_a_later_job_isnt_run_after_a_miss(self) -> None:
        document = yds.Document([("a", 0, 2, 4), ("b", 2, 9, 1), ("c", 0, 2, 1)])
        run = yds.simulate(document, lambda moment: 1)
        self.assertEqual(run.slots, (("a", 0, 4, 4),))
        self.assertEqual((run.missed, run.verdict.cause), ("a", "late"))

    def test_a_policy_that_stands_still(self) -> None:
        """No slot ends late, and the verdict is that a has no work."""
        run = yds.simulate(JOBS, lambda moment: 0)
        self.assertEqual((run.slots, run.missed, run.verdict.cause, run.verdict.given), ((), "b", "work", 0))
        self.assertFalse(run)

    def test_a_miss_at_the_greatest_time(self) -> None:
        billion = 1_000_000_000
        document = yds.Document([("a", 0, billion - 1, billion // 1000)])
        late = yds.simulate(document, lambda moment: Fraction(1, 10**6))
        self.assertEqual((late.slots[-1].end, late.verdict.cause), (billion, "late"))
        last = yds.simulate(document.replace([("a", 0, billion, 3000)]), lambda moment: Fraction(1, 10**6))
        self.assertEqual((last.slots[-1].end, last.verdict.cause, last.missed), (billion, "work", "a"))

    def test_documents_without_work(self) -> None:
        for document in (yds.Document(), yds.Document([("a", 1, 4, 0)])):
            run = yds.simulate(document, lambda moment: 1 // 0)
            self.assertTrue(run)
            self.assertEqual((run.slots, run.energy_for(3)), ((), 0))

    def test_the_documents_own_slots_dont_count(self) -> None:
        run = yds.simulate(JOBS.plan(), lambda moment: 3)
        self.assertEqual(len(run.slots), 3)
        self.assertEqual(run.levels, ())


class Rounding(unittest.TestCase):
    def test_a_float_is_rounded_up_and_counted(self) -> None:
        """On the grid 10: 1.23 for 4 units of time does 4.92, so 5 tenths: 4.9 would be less, 5.0 is the next."""
        document = yds.Document([("a", 0, 4, 6), ("b", 4, 8, 1)])
        run = yds.simulate(document, lambda moment: 1.23 if len(moment.released) == 1 else 2.0, grid=10)
        self.assertEqual((run.rounded, run.exact, run.grid), (1, False, 10))
        self.assertEqual(run.slots[0].speed, Fraction(5, 4))
        self.assertEqual((run.missed, run.verdict.cause), ("a", "late"))

    def test_where_all_gets_done_the_speed_is_of_the_grid(self) -> None:
        run = yds.simulate(yds.Document([("a", 0, 1000, 3)]), lambda moment: 1.23456, grid=10)
        self.assertEqual((run.slots[0].speed, run.rounded), (Fraction(13, 10), 1))
        self.assertEqual(yds.simulate(yds.Document([("a", 0, 1000, 3)]), lambda moment: 1.5, grid=10).rounded, 0)

    def test_the_float_nearest_to_a_speed_of_the_grid_becomes_that_speed_and_is_counted(self) -> None:
        """No float is 3/7 or 1/3: the nearest ones are below 3/7 and 1/3, by less than a float can tell."""
        run = yds.simulate(yds.Document([("a", 0, 7, 3)]), lambda moment: 3 / 7)
        self.assertEqual((run.slots, run.rounded, run.exact), ((("a", 0, 7, 3),), 1, False))
        third = yds.simulate(yds.Document([("a", 0, 7, 1)]), lambda moment: 1 / 3)
        self.assertEqual((third.slots[0].speed, third.rounded), (Fraction(1, 3), 1))

    def test_a_float_that_is_just_a_speed_of_the_grid_is_not_counted(self) -> None:
        run = yds.simulate(yds.Document([("a", 0, 8, 3)]), lambda moment: 0.375)
        self.assertEqual((run.slots, run.rounded, run.exact), ((("a", 0, 8, 3),), 0, True))
        near = yds.simulate(yds.Document([("a", 0, 8, 3)]), lambda moment: math.nextafter(0.375, 1))
        self.assertEqual((near.rounded, near.exact), (1, False))

    def test_kinds_of_numbers(self) -> None:
        for speed in (2, 2.0, Fraction(2)):
            self.assertEqual(yds.simulate(JOBS, lambda moment: speed).rounded, 0)

    def test_high_and_low_floats(self) -> None:
        billion = 1_000_000_000
        for speed in (1e6, 1 / 3e6, 123456.789, 1e-12):
            run = yds.simulate(yds.Document([("a", 0, billion, 30), ("b", 3, billion, 10**6)]), lambda moment: speed)
            self.assertIn(run.verdict.cause, ("feasible", "late", "work"))


class Refused(unittest.TestCase):
    def test_speeds(self) -> None:
        for speed in (None, "1", True, [1], 1j):
            with self.assertRaisesRegex(
                TypeError, "^at 0 the policy says .*, and a speed is an int, a Fraction or a float"
            ):
                yds.simulate(JOBS, lambda moment: speed)  # type: ignore[arg-type, return-value]
        for speed in (-1, Fraction(-1, 2), -0.5, math.nan, math.inf):
            with self.assertRaisesRegex(ValueError, "^at 0 the policy says .*, and a speed is a number of at least 0"):
                yds.simulate(JOBS, lambda moment: speed)

    def test_options(self) -> None:
        for grid in (0, -1, 1_000_001):
            with self.assertRaises(ValueError):
                yds.simulate(JOBS, lambda moment: 2, grid=grid)
        for every in (0, -1, Fraction(-1, 2)):
            with self.assertRaisesRegex(ValueError, "every is a time above 0"):
                yds.simulate(JOBS, lambda moment: 2, every=every)
        with self.assertRaises(TypeError):
            yds.simulate(JOBS, lambda moment: 2, every=0.5)  # type: ignore[arg-type]

    def test_fractions_that_no_document_takes(self) -> None:
        with self.assertRaisesRegex(
            ValueError, r"slots\[0\]\.work: .*let it say floats, which are rounded up to the grid"
        ):
            yds.simulate(JOBS, lambda moment: Fraction(2**62 + 1, 2**61 - 1))

    def test_too_many_slots(self) -> None:
        document = yds.Document([("a", 0, 200_000, 1)])
        speeds = iter(range(1, 10**6))
        with self.assertRaisesRegex(ValueError, "more than 100,000 slots"):
            yds.simulate(document, lambda moment: Fraction(next(speeds), 10**13), every=1)

    def test_faulty_documents(self) -> None:
        with self.assertRaises(yds.Refused):
            yds.simulate(yds.Document([("a", 4, 4, 1)]), lambda moment: 1)

    def test_a_simulation_comes_from_its_call(self) -> None:
        with self.assertRaisesRegex(TypeError, r"Simulation is the answer of yds.simulate\(document, policy\)"):
            yds.Simulation([("a", 0, 4, 8)])
        with self.assertRaisesRegex(TypeError, "a text doesn't tell what a policy said"):
            yds.Simulation.from_text("job a 0 4 8\nslot a 0 4 8\n")

    def test_what_a_policy_raises_comes_out(self) -> None:
        with self.assertRaises(ZeroDivisionError):
            yds.simulate(JOBS, lambda moment: 1 // 0)


class Kept(unittest.TestCase):
    def test_a_simulation_is_pickled_and_copied(self) -> None:
        for speed in (1, 2, 1.7):
            run = yds.simulate(JOBS, lambda moment: speed)
            for again in (pickle.loads(pickle.dumps(run)), copy.deepcopy(run), copy.copy(run)):
                self.assertEqual(again, run)
                for name in ("slots", "jobs", "points", "verdict", "grid", "rounded", "missed", "exact"):
                    self.assertEqual(getattr(again, name), getattr(run, name))
                self.assertEqual((bool(again), repr(again), hash(again)), (bool(run), repr(run), hash(run)))


class Drawn(unittest.TestCase):
    def test_the_librarys_policies_written_again(self) -> None:
        """In Fractions they are the library's runs, where those are exact; in floats they are feasible, and no slower."""
        draw, seen = random.Random(21), 0
        for _ in range(12):
            document = drawn(draw)
            for policy, run in ((average_rate, document.avr()), (optimal_available, document.oa())):
                own = yds.simulate(document, policy, exact=True)
                with self.subTest(text=document.text, policy=policy.__name__):
                    self.assertTrue(own)
                    if run.exact:
                        seen += 1
                        self.assertEqual(own.profile(exact=True), run.profile(exact=True))
                        self.assertEqual(own.energy_for(3), run.energy_for(3))
            floats = yds.simulate(document, optimal_available)
            self.assertTrue(floats)
            self.assertTrue(math.isclose(floats.energy_for(3.0), document.oa().energy_for(3.0), rel_tol=1e-4))
        self.assertGreater(seen, 12)

    def test_runs_are_retraced_from_their_slots(self) -> None:
        """At each moment the policy sees what the slots say, and each slot runs as fast as it then said, or a little faster."""
        draw = random.Random(22)
        for _ in range(15):
            document, grid = drawn(draw), draw.choice([1, 7, 720720])
            every = draw.choice([None, 1, Fraction(2, 3)])
            said: Dict[Fraction, Tuple[Any, Dict[str, Any]]] = {}

            def policy(moment: yds.Moment) -> Any:
                speed = draw.choice([draw.randrange(12), draw.random() * 12, Fraction(draw.randrange(90), 7)])
                said[moment.now] = (speed, {job.name: job.left for job in moment.pending})
                return speed

            run = yds.simulate(document, policy, grid=grid, every=every, exact=True)
            with self.subTest(text=run.text, grid=grid, every=every):
                self.follow(document, run, said, grid)

    def follow(self, document: yds.Document, run: yds.Simulation, said: Dict[Fraction, Any], grid: int) -> None:
        slots = run.slots
        times = sorted(said)
        for now, after in zip(times, [*times[1:], None]):
            speed, left = said[now]
            wanted = {
                job.name: job.work - self.done(slots, job.name, now) for job in document.jobs if job.release <= now
            }
            self.assertEqual({name: work for name, work in wanted.items() if work}, left)
            for slot in slots:
                if not now <= slot.start or (after is not None and slot.start >= after) or slot.start >= slot.end:
                    continue
                due = {job.name: job.deadline for job in document.jobs}
                waits = [
                    name
                    for name in left
                    if self.done(slots, name, slot.start) < wanted[name] + self.done(slots, name, now)
                ]
                self.assertEqual(due[slot.job], min(due[name] for name in waits))
        for slot in slots:
            for now, after in zip(times, [*times[1:], None]):
                if max(now, slot.start) < (slot.end if after is None else min(after, slot.end)):
                    self.compare(slot.speed, said[now][0], grid)
        self.assertEqual(
            bool(run), run.missed is None and all(self.done(slots, j.name, 99) == j.work for j in document.jobs)
        )

    def compare(self, ran: Fraction, said: Any, grid: int) -> None:
        """Never slower than said; a float at most by two parts of the grid, over the shortest stretch of 1/3, faster."""
        if isinstance(said, float):
            self.assertGreaterEqual(float(ran), said)
            self.assertLess(ran - Fraction(said), Fraction(3, grid) + Fraction(1, 10**12))
        else:
            self.assertEqual(ran, said)

    @staticmethod
    def done(slots: Any, name: str, until: Any) -> Fraction:
        """How much work the slots give the job until then."""
        parts = [(slot, min(slot.end, until) - slot.start) for slot in slots if slot.job == name and slot.start < until]
        return sum((slot.work * length / (slot.end - slot.start) for slot, length in parts), Fraction(0))


if __name__ == "__main__":
    unittest.main()
