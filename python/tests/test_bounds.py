"""The two bounds of the least energy of a long document."""

import unittest
from fractions import Fraction

from in_parts import lines, texts
from yds import parts


class BoundsTest(unittest.TestCase):
    def test_by_hand(self) -> None:
        document = lines("job a 0 4 4", "job b 2 6 4", "point 0 1", "point 1 2", "point 2 5")
        found = parts.bounds(texts(document), jobs=1)
        self.assertEqual((found.lower, found.upper), (14, 18))

    def test_dear_idling(self) -> None:
        document = lines("job a 0 1 1", "job b 1 99 98", "job c 99 100 1", "point 0 10", "point 1 1")
        found = parts.bounds(texts(document), jobs=1)
        self.assertEqual((found.lower, found.upper), (100, 100))

    def test_no_upper_bound(self) -> None:
        document = lines("job a 0 3 3", "job b 0 6 1", "job c 1 6 2", "point 0 0", "point 1 1")
        found = parts.bounds(texts(document), jobs=1)
        self.assertEqual((found.lower, found.upper), (6, None))
        self.assertIn("there is no upper bound: ", found.told[0])
        self.assertEqual(list(found.lines())[0], b"plan at-least 6\n")

    def test_too_slow(self) -> None:
        found = parts.bounds(texts(lines("job a 0 4 9", "job b 2 6 4", "point 0 1", "point 2 5")), jobs=1)
        self.assertEqual((found.lower, found.upper), (None, None))
        self.assertIn("the top point is too slow: no schedule meets the deadlines of the jobs from 0 to 4", found.told[0])

    def test_waste(self) -> None:
        """Of 100, 80 to 90 and 81 to 81 are needed: 1/9 and 1/4 more, and 19/81."""
        governor = parts.Spent(b"governor", Fraction(100))
        for lower, upper, told in [
            (80, 90, b"governor waste 11.11 25.00\n"),
            (81, 81, b"governor waste 23.45 23.46\n"),
            (80, 120, b"governor waste 0.00 25.00\n"),
            (80, None, b"# governor: what it wastes isn't known, without an upper bound\n"),
            (0, 90, b"# governor: what it wastes isn't known, without a lower bound above 0\n"),
        ]:
            bounds = parts.Bounds(Fraction(lower), None if upper is None else Fraction(upper), ())
            self.assertEqual(bounds.waste(governor), told)
        with self.assertRaisesRegex(parts.PartsError, "governor spends less than the least energy of these jobs"):
            parts.Bounds(Fraction(101), Fraction(102), ()).waste(governor)
        told = b"plan at-least 3\n# governor energy 1\ngovernor time 0 2\ngovernor energy 4+1/2\n"
        self.assertEqual(parts.read_spent(told), [parts.Spent(b"governor", Fraction(9, 2))])
        for text, message in [(b"plan at-least 3\n", "no line SIDE energy E"), (b"plan energy 1+1/0\n", "1.1/0 is no energy")]:
            with self.assertRaisesRegex(parts.PartsError, message):
                parts.read_spent(text)

    def test_no_points(self) -> None:
        with self.assertRaisesRegex(parts.PartsError, "the parts have no points, and an energy needs them"):
            parts.bounds(texts(lines("job a 0 4 9")))

if __name__ == "__main__":
    unittest.main()
