"""Schedules of decimals, and exact ones near them: worked by hand, plans found again, and bounds that always hold."""

import pickle
import random
import unittest
from decimal import Decimal
from fractions import Fraction
from typing import Any, List

import yds
from yds import _near, schedule

TWO = yds.Document([("a", 0, 2, 1), ("b", 0, 2, 1)], [(0, 0), (1, 1), (2, 4)])
TINY = Fraction(1, 10**6)


class ByHand(unittest.TestCase):
    def test_fractions_are_found_again(self) -> None:
        slots = [("b", 0.666667, 2.0, 1.0), ("a", 0.0, 0.666667, 1.0)]
        found = schedule.near(TWO, slots, most=1e-6)
        self.assertEqual(found.slots, (("b", Fraction(2, 3), 2, 1), ("a", 0, Fraction(2, 3), 1)))
        self.assertEqual(found.error, Fraction(0.666667) - Fraction(2, 3))
        self.assertEqual((found.index, found.field), (0, "start"))
        self.assertEqual((found.mended, found.left_out, found.to_points, found.off_points), ((), (), (), ()))
        self.assertTrue(schedule.judge(TWO, found.slots))

    def test_numbers_of_all_kinds(self) -> None:
        for third in ("0.333333", "1/3", Decimal("0.333333"), Fraction(1, 3), 0.333333, "333333e-6"):
            found = schedule.near(TWO, [("a", 0, third, 1)], most=TINY)
            self.assertEqual(found.slots[0].end, Fraction(1, 3))

    def test_without_most_each_number_is_at_its_word(self) -> None:
        found = schedule.near(TWO, [("a", 0, "0.333333", 1), ("b", 0.5, 2, "0.7")], most=0)
        self.assertEqual(
            found.slots, (("a", 0, Fraction(333333, 10**6), 1), ("b", Fraction(1, 2), 2, Fraction(7, 10)))
        )
        self.assertEqual((found.error, found.index, found.field, found.mended), (0, None, None, ()))

    def test_whole_numbers_stay(self) -> None:
        found = schedule.near(TWO, [("a", 1, 2, 1)], most=Fraction(49, 100))
        self.assertEqual((found.slots, found.error), ((("a", 1, 2, 1),), 0))

    def test_works_that_dont_add_up(self) -> None:
        """The thirds of a, as printed, are 0.999999 together: the fractions nearby are thirds."""
        thirds = [("a", 0, "0.5", "0.333333"), ("a", "0.5", 1, "0.333333"), ("a", 1, 2, "0.333333")]
        found = schedule.near(TWO, thirds, most=TINY)
        self.assertEqual([slot.work for slot in found.slots], [Fraction(1, 3)] * 3)
        self.assertEqual(found.mended, (_near.Mended("work", "a", None, TINY),))
        self.assertEqual(found.error, Fraction(1, 3) - Fraction(333333, 10**6))

    def test_works_that_add_up_as_given_stay(self) -> None:
        works = ["0.3", "0.3", "0.4"]
        found = schedule.near(TWO, [("a", place, place + 1, work) for place, work in enumerate(works)], most="0.04")
        self.assertEqual([slot.work for slot in found.slots], [Fraction(work) for work in works])

    def test_else_all_works_move_by_one_amount(self) -> None:
        """0.1234567 and 0.8765435 are 2 / 10^7 too much: each is moved by half of that."""
        found = schedule.near(TWO, [("a", 0, 1, "0.1234567"), ("a", 1, 2, "0.8765435")], most=Fraction(2, 10**7))
        self.assertEqual(sum(slot.work for slot in found.slots), 1)
        self.assertEqual(found.error, Fraction(1, 10**7))
        self.assertEqual(found.mended, (_near.Mended("work", "a", None, Fraction(2, 10**7)),))

    def test_else_the_audit_says_what_is_wrong(self) -> None:
        found = schedule.near(TWO, [("a", 0, 1, "0.9"), ("b", 1, 2, 1)], most=TINY)
        self.assertEqual((found.slots[0].work, found.mended), (Fraction(9, 10), ()))
        self.assertEqual(schedule.judge(TWO, found.slots).cause, "work")

    def test_what_is_mended_is_told(self) -> None:
        late = schedule.near(TWO, [("a", 0, "2.0000005", 1)], most=TINY)
        self.assertEqual(late.mended, (_near.Mended("late", "a", 0, TINY / 2),))
        document = yds.Document([("a", 1, 4, 1), ("b", 1, 4, 1)])
        slots = [("b", "1.9999995", 3, 1), ("a", "0.9999995", 2, 1)]
        found = schedule.near(document, slots, most=TINY)
        self.assertEqual(
            found.mended, (_near.Mended("early", "a", 1, TINY / 2), _near.Mended("overlap", "b", 0, TINY / 2))
        )
        self.assertTrue(schedule.judge(document, found.slots))

    def test_what_isnt_mended_isnt_told(self) -> None:
        found = schedule.near(TWO, [("a", 0, "2.1", 1)], most=TINY)
        self.assertEqual((found.mended, schedule.judge(TWO, found.slots).cause), ((), "late"))

    def test_points(self) -> None:
        near = schedule.near(TWO, [("a", 0, "0.999999", 1)], most=TINY)
        self.assertEqual((near.to_points, near.off_points), ((0,), ()))
        away = schedule.near(TWO, [("a", 0, "0.333333", "0.333333"), ("a", 1, 2, "0.666666")], most=TINY)
        self.assertEqual((away.to_points, away.off_points), ((), ()))
        off = schedule.near(
            TWO, [("a", 0, "0.1234567", "0.1234567"), ("a", 1, 2, "0.8765433")], most=Fraction(1, 10**4)
        )
        self.assertEqual(off.off_points + off.to_points, off.off_points)

    def test_no_work(self) -> None:
        found = schedule.near(
            TWO, [("a", 0, 1, 0), ("b", 0, 1, 1), ("a", 1, 2, "0.0000001"), ("a", 1, 2, 1)], most=TINY
        )
        self.assertEqual((found.left_out, [slot.job for slot in found.slots]), ((0, 2), ["b", "a"]))

    def test_a_little_below_zero(self) -> None:
        found = schedule.near(TWO, [("a", -1e-9, 1, 1)], most=TINY)
        self.assertEqual((found.slots[0].start, found.mended[0].condition), (0, "early"))

    def test_it_is_pickled(self) -> None:
        found = schedule.near(TWO, [("a", 0, 2.0000001, 1)], most=TINY)
        self.assertEqual(pickle.loads(pickle.dumps(found)), found)


class Refused(unittest.TestCase):
    def refused(self, message: str, slots: List[Any], most: Any = TINY) -> None:
        with self.subTest(slots=slots, most=most), self.assertRaisesRegex((ValueError, TypeError), message):
            schedule.near(TWO, slots, most=most)

    def test_what_is_refused(self) -> None:
        for most in (-1, Fraction(1, 2), 3, "0.5"):
            self.refused("most is from 0 to below 1/2", [], most)
        self.refused(r"slots\[0\]\.end: .*NaN", [("a", 0, float("nan"), 1)])
        self.refused(r"slots\[0\]\.start: -0.1 is below 0, by more than most", [("a", -0.1, 1, 1)])
        self.refused(r"slots\[1\]\.job: the document has no job 'c'", [("a", 0, 1, 1), ("c", 0, 1, 1)])
        self.refused(r"slots\[0\] is so short that both its ends become 1/3", [("a", "0.3333333", "0.3333334", 1)])
        self.refused(r"slots\[0\]\.end: True is a truth value", [("a", 0, True, 1)])
        self.refused(r"slots\[0\] has 3 fields", [("a", 0, 1)])
        self.refused(
            r"the ends of slots\[0\] have no common denominator", [("a", "0.1234567891", "1/1000000007", 1)], 0
        )
        works = [("a", 0, 1, "0.1234567891"), ("a", 1, 2, "1/1000000007")]
        self.refused("the works of job a have no common denominator up to 2\\^60", works, 0)


class Drawn(unittest.TestCase):
    def test_the_simplest_fraction_by_trying_all_denominators(self) -> None:
        draw = random.Random(31)
        for _ in range(300):
            value, most = Fraction(draw.randrange(1, 10**6), 10**5), Fraction(1, draw.randrange(3, 3000))
            wanted = next(
                Fraction(round(value * d), d)
                for d in range(1, 10**4)
                if abs(Fraction(round(value * d), d) - value) <= most
            )
            self.assertEqual(_near._simplest_near(value, most), value if value.denominator == 1 else wanted)

    def test_plans_are_found_again_from_six_decimals(self) -> None:
        draw = random.Random(32)
        for _ in range(10):
            jobs = [(f"j{i}", i, i + draw.randrange(1, 9), draw.randrange(1, 12)) for i in range(draw.randrange(1, 8))]
            document = yds.Document(jobs)
            plan = document.plan()
            if max(number.denominator for slot in plan.slots for number in slot[1:]) > 500:
                continue
            for spelled in (lambda number: round(float(number), 6), lambda number: f"{float(number):.6f}"):
                decimals = [(slot.job, *map(spelled, slot[1:])) for slot in plan.slots]
                found = schedule.near(document, decimals, most=1e-6)
                self.assertEqual(found.slots, plan.slots)

    def test_what_always_holds(self) -> None:
        """No number moves by more than most, the order of times stays, and what is feasible as given is so still."""
        draw = random.Random(33)
        for _ in range(10):
            jobs = [(f"j{i}", i, i + draw.randrange(2, 9), draw.randrange(1, 12)) for i in range(5)]
            document, most = yds.Document(jobs), Fraction(1, draw.choice([10, 1000, 10**7]))
            given = [
                (slot.job, *(Fraction(round(number * 9973), 9973) + draw.choice([0, most / 3]) for number in slot[1:]))
                for slot in document.plan().slots
            ]
            try:
                found = schedule.near(document, given, most=most)
            except ValueError as fault:
                self.assertRegex(str(fault), "so short|no common denominator")
                continue
            self.assertEqual(found.left_out, ())
            pairs = [(old, new) for row, slot in zip(given, found.slots) for old, new in zip(row[1:], slot[1:])]
            self.assertLessEqual(max(abs(old - new) for old, new in pairs), most)
            self.assertEqual(max(abs(old - new) for old, new in pairs), found.error)
            times = sorted((old, new) for row, slot in zip(given, found.slots) for old, new in zip(row[1:3], slot[1:3]))
            self.assertTrue(all(one[1] <= other[1] for one, other in zip(times, times[1:])))
            if schedule.judge(document, given):
                self.assertTrue(schedule.judge(document, found.slots))


if __name__ == "__main__":
    unittest.main()
