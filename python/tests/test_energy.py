"""Energies: values worked by hand, those that the library tells, and a second reading that shares no code."""

import math
import random
import unittest
from fractions import Fraction
from typing import Any, List, Sequence, Tuple

import yds
from yds import _powers, energy

THREE = [("a", 0, 12, 4), ("b", 2, 10, 8), ("c", 4, 6, 6)]
SLOTS = [("b", 2, 4, Fraction(8, 3)), ("a", 0, 2, 2)]
BENT = [(0, 1), (1, 3), (2, 4), (4, 10)]
"""Its lower hull leaves (1, 3) out: between 0 and 2 the power is 1 + 3/2 * speed."""


def least_power(table: Sequence[Tuple[int, int]], speed: Fraction) -> Fraction:
    """The least power at which two points of the table, or one, do this speed on the average: all pairs are tried."""
    found = [Fraction(power) for at, power in table if at == speed]
    for low, low_power in table:
        for high, high_power in table:
            if low < speed < high:
                share = (speed - low) / (high - low)
                found.append(share * high_power + (1 - share) * low_power)
    return min(found)


def drawn_jobs(draw: random.Random) -> List[Tuple[str, int, int, int]]:
    """A few jobs, some of no work, some in one window."""
    jobs = []
    for place in range(draw.randrange(1, 9)):
        release = draw.randrange(20)
        jobs.append((f"j{place}", release, release + draw.randrange(1, 12), draw.randrange(9)))
    return jobs


def drawn_table(draw: random.Random) -> List[Tuple[int, int]]:
    """A table with any powers, fast enough for all drawn jobs together."""
    speeds = sorted({0, 72, *(draw.randrange(1, 72) for _ in range(draw.randrange(4)))})
    return [(speed, draw.randrange(0, 200)) for speed in speeds]


class NearTies(unittest.TestCase):
    """Speeds that no float tells apart."""

    def test_points_and_speeds_within_one_float(self) -> None:
        """Four points, 2^-70 apart, and speeds at and between them: all have the float 1.0, and powers that differ."""
        tiny = Fraction(1, 2**70)
        table = [(0, 0), *((1 + place * tiny, 1 + place * place) for place in range(4)), (2, 2**80)]
        for place in range(4):
            self.assertEqual(energy.of_slots([("a", 0, 1, 1 + place * tiny)], table), 1 + place * place)
        for place in range(3):
            between = 1 + (place + Fraction(1, 4)) * tiny
            self.assertEqual(energy.of_slots([("a", 0, 1, between)], table), 1 + place**2 + Fraction(2 * place + 1, 4))
        self.assertLess(energy.of_slots([("a", 0, 1, 1 - tiny)], table), 1)
        top = [(0, 0), (1, 1)]
        self.assertEqual(energy.of_slots([("a", 0, 1, 1)], top), 1)
        with self.assertRaisesRegex(ValueError, "above the last of the table, 1"):
            energy.of_slots([("a", 0, 1, 1 + tiny)], top)

    def test_drawn_speeds_beside_points(self) -> None:
        """Beside points of thirds, which no float is: each slot has the power that all pairs of points give."""
        draw = random.Random(5)
        table: Any = [(0, 2), (Fraction(1, 3), 3), (Fraction(2, 3), 5), (Fraction(10**17 + 1, 10**17), 9), (40, 2000)]
        for _ in range(300):
            speed = table[draw.randrange(1, 4)][0] + Fraction(draw.randrange(-2, 3), 10 ** draw.randrange(15, 30))
            length = Fraction(draw.randrange(1, 99), draw.randrange(1, 99))
            found = energy.of_slots([("a", 0, length, speed * length)], table, 0, length)
            self.assertEqual(found, least_power(table, speed) * length)

    def test_numbers_beyond_floats(self) -> None:
        huge = 10**400
        self.assertEqual(energy.of_slots([("a", 0, 1, huge)], [(0, 0), (1, 1), (2 * huge, 2 * huge)]), huge)
        self.assertEqual(energy.of_slots([("a", 0, huge, 1)], [(0, 0), (1, 1)]), 1)
        with self.assertRaisesRegex(ValueError, "above the last of the table"):
            energy.of_slots([("a", 0, 1, huge)], [(0, 0), (1, 1)])


class ByHand(unittest.TestCase):
    def test_exponents(self) -> None:
        self.assertEqual(energy.of_slots(SLOTS, 1), 2 + Fraction(8, 3))
        self.assertEqual(energy.of_slots(SLOTS, 2), 2 + 2 * Fraction(16, 9))
        self.assertEqual(energy.of_slots(SLOTS, 3), 2 + 2 * Fraction(64, 27))
        self.assertIsInstance(energy.of_slots(SLOTS, 3), Fraction)
        self.assertIsInstance(energy.of_slots(SLOTS, 3.0), float)
        self.assertAlmostEqual(energy.of_slots(SLOTS, 2.5), 2 + 2 * (4 / 3) ** 2.5)
        self.assertEqual(energy.of_slots([], 3), 0)

    def test_tables(self) -> None:
        convex = [(0, 1), (1, 2), (2, 5)]
        self.assertEqual(energy.of_slots(SLOTS, convex, 0, 5), 2 * 2 + 2 * 3 + 1)
        self.assertEqual(energy.of_slots(SLOTS, convex, Fraction(-1, 2), 4), 2 * 2 + 2 * 3 + Fraction(1, 2))
        self.assertEqual(energy.of_slots(SLOTS, [(0, 0), (1, 1), (2, 4)]), 2 * 1 + 2 * 2)
        thirds = [(0, 0), (Fraction(4, 3), Fraction(1, 3))]
        self.assertEqual(energy.of_slots(SLOTS, thirds), Fraction(1, 2) + Fraction(2, 3))
        self.assertEqual(energy.of_slots([], convex, 0, 5), 5)
        self.assertEqual(energy.of_slots([], [(0, 7)], 1, 3), 14)

    def test_a_point_above_the_hull_is_one_of_two_things(self) -> None:
        """The slot of speed 1 draws 3 at the point, and 1 + 3/2 as a mix of the points of speed 0 and 2."""
        slow = [("a", 0, 2, 2)]
        message = r"slots\[0\] has the speed 1 of a point that draws 3, and a mix of others draws 5/2: say by='points'"
        with self.assertRaisesRegex(ValueError, message):
            energy.of_slots(slow, BENT, 0, 4)
        self.assertEqual(energy.of_slots(slow, BENT, 0, 4, by="hull"), 2 * Fraction(5, 2) + 2)
        self.assertEqual(energy.of_slots(slow, BENT, 0, 4, by="points"), 2 * 3 + 2)
        on_the_hull = [("a", 0, 2, 4), ("a", 2, 3, 4), ("b", 3, 4, 3)]
        self.assertEqual(energy.of_slots(on_the_hull, BENT, 0, 4), 2 * 4 + 10 + 7)
        with self.assertRaisesRegex(ValueError, r"slots\[2\] has the speed 3, where the table has no point"):
            energy.of_slots(on_the_hull, BENT, 0, 4, by="points")

    def test_hulls(self) -> None:
        self.assertEqual(_powers.hull(BENT), [(0, 1), (2, 4), (4, 10)])
        self.assertEqual(_powers.hull([(0, 0), (1, 1), (2, 2)]), [(0, 0), (1, 1), (2, 2)])
        self.assertEqual(_powers.hull([(0, 9), (1, 5), (2, 4), (3, 5)]), [(0, 9), (1, 5), (2, 4), (3, 5)])
        self.assertEqual(_powers.hull([(0, 4)]), [(0, 4)])

    def test_answers(self) -> None:
        document = yds.Document(THREE, [(0, 1), (1, 2), (2, 5), (4, 17)])
        plan = document.plan()
        self.assertEqual(plan.energy_for(3), 2 * 27 + 6 * Fraction(64, 27) + 4)
        self.assertEqual(plan.energy_for(), 2 * 11 + 6 * 3 + 4 * 2)
        self.assertEqual(plan.energy_for([(0, 0), (3, 9)]), 18 * 3)
        self.assertAlmostEqual(plan.energy_for(3.0), float(plan.energy_for(3)))
        rounded = document.round()
        assert isinstance(rounded, yds.Rounded)
        self.assertEqual((rounded.energy, rounded.energy_for()), (48, 48))
        self.assertEqual(rounded.energy_for(2), (16 + 4) + (2 * 4 + 4 * 1) + 4)
        self.assertEqual(yds.Document().plan().energy_for(3), 0)
        self.assertEqual(yds.Document(points=[(0, 5)]).plan().energy_for(), 0)
        self.assertEqual(yds.Document([("a", 1, 4, 0)], [(0, 5)]).plan().energy_for(), 15)


class Refused(unittest.TestCase):
    def refused(self, kind: Any, message: str, *given: Any, **named: Any) -> None:
        with self.subTest(given=given), self.assertRaisesRegex(kind, message):
            energy.of_slots(*given, **named)

    def test_powers(self) -> None:
        for exponent in (0, -1, 0.5, float("nan"), float("inf")):
            self.refused(ValueError, "an exponent is at least 1, and not", SLOTS, exponent)
        for exponent in (True, Fraction(5, 2)):
            self.refused(TypeError, "an exponent is an int, with an exact energy, or a float", SLOTS, exponent)
        self.refused(TypeError, "a power is an exponent, or a table's rows", SLOTS, None)
        self.refused(ValueError, "begins with the power at speed 0", SLOTS, [])
        self.refused(ValueError, "begins with the power at speed 0", SLOTS, [(1, 2), (2, 5)])
        self.refused(ValueError, r"table\[2\].speed: 1 stands after 2; sort the rows", SLOTS, [(0, 0), (2, 5), (1, 2)])
        self.refused(ValueError, r"table\[1\].speed: 0 stands after 0; sort the rows", SLOTS, [(0, 0), (0, 5)])
        self.refused(ValueError, "a power is at least 0", SLOTS, [(0, 0), (2, -1)])
        self.refused(TypeError, "0.5 is neither an int nor a Fraction", SLOTS, [(0, 0.5), (2, 5)])

    def test_speeds_above_the_top(self) -> None:
        message = r"slots\[0\] has the speed 4/3, above the last of the table, 1"
        self.refused(ValueError, message, SLOTS, [(0, 0), (1, 2)])
        plan = yds.Document(THREE, [(0, 0), (2, 5)]).plan()
        with self.assertRaisesRegex(ValueError, r"levels\[0\] has the speed 3, above the last of the table, 2"):
            plan.energy_for()

    def test_times(self) -> None:
        idle = [(0, 1), (2, 5)]
        self.refused(ValueError, "at speed 0 the table draws 1: say start and end", SLOTS, idle)
        self.refused(ValueError, "at speed 0 the table draws 1: say start and end", SLOTS, idle, 0)
        self.refused(ValueError, r"slots\[1\] begins at 0, before the start 1", SLOTS, idle, 1, 5)
        self.refused(ValueError, r"slots\[0\] ends at 4, after the end 7/2", SLOTS, idle, 0, Fraction(7, 2))
        self.refused(ValueError, r"slots\[0\] ends at 4, after the end 3", SLOTS, 3, 0, 3)
        self.refused(TypeError, "0.0 is neither an int nor a Fraction", SLOTS, idle, 0.0, 5)

    def test_slots(self) -> None:
        message = r"slots\[1\] begins at 1, before slots\[0\] ends at 2, and one processor runs one slot at a time"
        self.refused(ValueError, message, [("a", 0, 2, 1), ("b", 1, 3, 1)], 3)
        self.refused(ValueError, r"slots\[0\] ends at 2, and not after its start 2", [("a", 2, 2, 1)], 3)
        self.refused(ValueError, r"slots\[0\] ends at 1, and not after its start 2", [("a", 2, 1, 0)], 3)
        self.refused(ValueError, r"slots\[0\] has the work -1", [("a", 0, 1, -1)], 3)
        self.refused(TypeError, "0.5 is neither an int nor a Fraction", [("a", 0, 0.5, 1)], 3)

    def test_by(self) -> None:
        self.refused(ValueError, "by is 'hull', 'points' or None, and not 'point'", SLOTS, [(0, 0), (2, 5)], by="point")
        self.refused(ValueError, "an exponent has none", SLOTS, 3, by="hull")
        with self.assertRaisesRegex(ValueError, "an exponent has none"):
            yds.Document(THREE).plan().energy_for(3, by="hull")  # type: ignore[call-overload]

    def test_documents(self) -> None:
        with self.assertRaisesRegex(ValueError, r"the document has no points: say an exponent or a table"):
            yds.Document(THREE).plan().energy_for()
        with self.assertRaisesRegex(ValueError, r"the document has jobs and no slots: document\.plan\(\)"):
            yds.Document(THREE).energy_for(3)
        late = yds.Document([("a", 1, 4, 4)], [(0, 1), (2, 5)], [("a", 2, 5, 4)])
        with self.assertRaisesRegex(ValueError, r"slots\[0\] ends at 5, after the end 4 of what is counted"):
            late.energy_for()
        self.assertEqual(late.energy_for([(0, 0), (2, 5)]), 10)
        self.assertEqual(energy.of_slots(late.slots, late.points, 1, 5), 3 * (1 + Fraction(8, 3)) + 1)
        bent = yds.Document([("a", 0, 4, 4)], BENT, [("a", 0, 4, 4)])
        with self.assertRaisesRegex(ValueError, "a point that draws 3, and a mix of others draws 5/2"):
            bent.energy_for()
        self.assertEqual((bent.energy_for(by="points"), bent.energy_for(by="hull")), (12, 10))
        self.assertEqual(bent.plan().energy_for(), 10)


class Drawn(unittest.TestCase):
    """Energies of drawn plans and runs are those that the library tells, and those of a second reading."""

    def test_energies_are_the_librarys(self) -> None:
        draw = random.Random(11)
        for _ in range(40):
            document = yds.Document(drawn_jobs(draw), drawn_table(draw))
            with self.subTest(document.text):
                rounded, compared = document.round(), document.compare()
                assert isinstance(rounded, yds.Rounded) and isinstance(compared, yds.Comparison)
                self.assertEqual(document.plan().energy_for(), rounded.energy)
                self.assertEqual(rounded.energy_for(), rounded.energy)
                self.assertEqual(rounded.energy_for(by="points"), rounded.energy)
                self.assertEqual(document.avr().energy_for(), compared.avr.energy)
                self.assertEqual(document.oa().energy_for(), compared.oa.energy)
                coarse = document.compare(1)
                assert isinstance(coarse, yds.Comparison)
                if coarse.avr.overload is None:
                    self.assertEqual(document.avr(1).energy_for(), coarse.avr.energy)

    def test_energies_are_those_of_a_second_reading(self) -> None:
        draw = random.Random(12)
        for _ in range(40):
            table = drawn_table(draw)
            document = yds.Document(drawn_jobs(draw))
            start = min(job.release for job in document.jobs)
            end = max(job.deadline for job in document.jobs)
            for answer in (document.plan(), document.oa()):
                with self.subTest(text=answer.text, table=table):
                    spent = sum(least_power(table, slot.speed) * (slot.end - slot.start) for slot in answer.slots)
                    idle = end - start - sum(slot.end - slot.start for slot in answer.slots)
                    self.assertEqual(answer.energy_for(table), spent + table[0][1] * idle)
                    for power in (1, 2, 3, 5):
                        spent = sum(slot.speed**power * (slot.end - slot.start) for slot in answer.slots)
                        self.assertEqual(answer.energy_for(power), spent)
                        self.assertEqual(energy.of_slots(reversed(answer.slots), power), spent)
                    self.assertTrue(math.isclose(answer.energy_for(3.0), answer.energy_for(3), rel_tol=1e-12))


if __name__ == "__main__":
    unittest.main()
