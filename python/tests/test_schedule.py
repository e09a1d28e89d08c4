"""Foreign schedules are judged, whatever their fractions and their order."""

import pickle
import random
import unittest
from fractions import Fraction

import yds
from yds import schedule

JOBS = yds.Document([("a", 0, 4, 2), ("b", 0, 4, 2)], [(0, 1), (1, 2)])


class Judging(unittest.TestCase):
    def test_denominators_of_all_kinds(self) -> None:
        slots = [
            ("b", Fraction(7, 3), 4, Fraction(5, 3)),
            ("a", Fraction(6, 5), 2, Fraction(4, 5)),
            ("b", 2, Fraction(7, 3), Fraction(1, 3)),
            ("a", 0, Fraction(6, 5), Fraction(6, 5)),
        ]
        self.assertTrue(schedule.judge(JOBS, slots))
        self.assertTrue(schedule.judge(JOBS, slots, points=True))
        self.assertTrue(schedule.check(JOBS, slots))

    def test_the_slot_of_the_given_list(self) -> None:
        slots = [("b", 2, Fraction(17, 4), 2), ("a", 0, 2, 2)]
        verdict = schedule.judge(JOBS, slots)
        self.assertEqual((verdict.cause, verdict.index, verdict.slot), ("late", 0, yds.Slot(*slots[0])))
        self.assertEqual(verdict.text, b"late slot 2 b 4+1/4 deadline 4\n")
        judgement = schedule.check(JOBS, slots)
        self.assertEqual((judgement.condition, judgement.verdict.index), ("K1", 0))
        fast = [("b", 2, 3, 2), ("a", 0, 2, 2)]
        self.assertTrue(schedule.judge(JOBS, fast))
        self.assertEqual(schedule.judge(JOBS, fast, points=True).index, 0)
        self.assertEqual((schedule.check(JOBS, fast).condition, schedule.check(JOBS, fast).index), ("K7", 0))

    def test_own_levels(self) -> None:
        level = yds.Level(4, 4, (yds.Piece(0, 4),), ("a", "b"))
        self.assertTrue(schedule.check(JOBS, [("a", 0, 2, 2), ("b", 2, 4, 2)], [level]))
        self.assertEqual(schedule.check(JOBS, [("a", 0, 2, 2), ("b", 2, 4, 2)], []).condition, "K3")

    def test_unknown_jobs_and_floats(self) -> None:
        with self.assertRaisesRegex(yds.Refused, "UnknownName, in 'slot c 0 1 1'"):
            schedule.judge(JOBS, [("c", 0, 1, 1)])
        with self.assertRaises(TypeError):
            schedule.judge(JOBS, [("a", 0, 1.5, 1)])

    def test_a_fault_names_the_slot_of_the_given_list(self) -> None:
        slots = [("a", 2, 4, 1), ("c", 0, 1, 1), ("b", 1, 2, 1)]
        for call in (schedule.judge, schedule.check):
            with self.assertRaises(yds.Refused) as raised:
                call(JOBS, slots)
            fault = raised.exception
            self.assertEqual((fault.table, fault.index, fault.field), ("slots", 1, "job"))
            self.assertRegex(str(fault), r"\(slots\[1\]\.job: no job of this name stands before\)$")
            again = pickle.loads(pickle.dumps(fault))
            self.assertEqual((again.index, str(again)), (1, str(fault)))
        with self.assertRaisesRegex(yds.Refused, r"\(levels\[0\]\.members\[0\]\.name: no job"):
            schedule.check(JOBS, [("a", 2, 4, 1)], [yds.Level(4, 4, (), ("c",))])

    def test_plans_cut_anywhere_are_least(self) -> None:
        """A plan's slots, each cut at a drawn fraction of its time and shuffled, are feasible and accepted still."""
        draw = random.Random(3)
        for seed in range(30):
            starts = [draw.randrange(50) for _ in range(8)]
            jobs = [
                (f"j{i}", start, start + 1 + draw.randrange(30), draw.randrange(1, 20))
                for i, start in enumerate(starts)
            ]
            document = yds.Document(jobs)
            slots = []
            for job, start, end, work in document.plan().slots:
                part = Fraction(draw.randrange(1, 7), 7)
                middle = start + (end - start) * part
                slots += [(job, start, middle, work * part), (job, middle, end, work * (1 - part))]
            draw.shuffle(slots)
            with self.subTest(seed):
                self.assertTrue(schedule.judge(document, slots))
                self.assertTrue(schedule.check(document, slots))


if __name__ == "__main__":
    unittest.main()
