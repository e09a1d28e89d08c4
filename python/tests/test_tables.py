"""The speed over time and the columns of slots: values worked by hand, and a second reading that shares no code."""

import random
import unittest
from fractions import Fraction
from unittest import mock

import yds
from yds import schedule

THREE = [("a", 0, 12, 4), ("b", 2, 10, 8), ("c", 4, 6, 6)]


class Profiles(unittest.TestCase):
    def test_a_plan(self) -> None:
        plan = yds.Document(THREE).plan()
        times, speeds = plan.profile(exact=True)
        self.assertEqual(times, [0, 2, 4, 6, 10, 12])
        self.assertEqual(speeds, [1, Fraction(4, 3), 3, Fraction(4, 3), 1, 0])
        self.assertEqual(plan.profile(), (times, [1.0, 4 / 3, 3.0, 4 / 3, 1.0, 0.0]))
        self.assertTrue(all(isinstance(number, float) for number in plan.profile().times + plan.profile().speeds))
        self.assertTrue(all(isinstance(number, Fraction) for number in times + speeds))

    def test_gaps_and_equal_speeds(self) -> None:
        slots = [("b", 2, 4, 3), ("a", 1, 2, Fraction(3, 2)), ("a", 5, 6, 1), ("c", 6, 7, 0)]
        self.assertEqual(schedule.profile(slots), ([1, 4, 5, 6], [1.5, 0, 1, 0]))
        self.assertEqual(schedule.profile(slots, start=0), ([0, 1, 4, 5, 6], [0, 1.5, 0, 1, 0]))
        self.assertEqual(schedule.profile(slots, start=1), ([1, 4, 5, 6], [1.5, 0, 1, 0]))
        self.assertEqual(schedule.profile([]), ([], []))
        self.assertEqual(schedule.profile([], start=3), ([3], [0]))

    def test_from_the_first_release(self) -> None:
        jobs = [("a", 2, 9, 4), ("z", 1, 3, 0)]
        self.assertEqual(yds.Document(jobs, (), [("a", 4, 6, 4)]).profile(), ([1, 4, 6], [0, 2, 0]))
        self.assertEqual(yds.Document(jobs, (), [("a", 0, 6, 6)]).profile(), ([0, 6], [1, 0]))
        self.assertEqual(yds.Document().profile(), ([], []))
        with self.assertRaisesRegex(ValueError, "the document has jobs and no slots"):
            yds.Document(jobs).profile()

    def test_what_is_no_profile(self) -> None:
        with self.assertRaisesRegex(ValueError, r"slots\[1\] begins at 1, before slots\[0\] ends at 2"):
            schedule.profile([("a", 0, 2, 1), ("b", 1, 3, 1)])
        with self.assertRaisesRegex(ValueError, r"slots\[0\] begins at 0, before the start 1"):
            schedule.profile([("a", 0, 2, 1)], start=1)
        with self.assertRaisesRegex(TypeError, "0.5 is neither an int nor a Fraction"):
            schedule.profile([("a", 0, 0.5, 1)])  # type: ignore[list-item]

    def test_at_any_time_the_speed_is_that_of_the_slot(self) -> None:
        draw = random.Random(5)
        for _ in range(60):
            now, slots = Fraction(draw.randrange(3)), []
            for place in range(draw.randrange(1, 9)):
                length = Fraction(draw.randrange(1, 9), draw.randrange(1, 4))
                slots.append((f"j{place}", now, now + length, length * draw.randrange(4)))
                now += length + draw.choice([0, 0, Fraction(1, 3)])
            draw.shuffle(slots)
            times, speeds = schedule.profile(slots, exact=True)
            self.assertEqual(times, sorted(set(times)))
            for at in [Fraction(draw.randrange(-6, 200), 6) for _ in range(40)] + times:
                wanted = sum(work / (end - start) for _, start, end, work in slots if start <= at < end)
                before = [speed for time, speed in zip(times, speeds) if time <= at]
                self.assertEqual(before[-1] if before else 0, wanted, (slots, at))
            self.assertTrue(all(one != other for one, other in zip(speeds, speeds[1:])))


class Columns(unittest.TestCase):
    SLOTS = [("b", 2, 4, Fraction(8, 3)), ("a", 0, Fraction(1, 3), 2)]
    WANTED = {
        "job": ["b", "a"],
        "start": [2.0, 0.0],
        "end": [4.0, 1 / 3],
        "work": [8 / 3, 2.0],
        "speed": [4 / 3, 6.0],
    }

    def test_columns(self) -> None:
        self.assertEqual(schedule.columns(self.SLOTS), self.WANTED)
        exact = schedule.columns(self.SLOTS, exact=True)
        self.assertEqual(exact["speed"], [Fraction(4, 3), 6])
        self.assertEqual([type(number) for number in exact["end"]], [Fraction, Fraction])
        document = yds.Document([("a", 0, 4, 2), ("b", 0, 4, 3)], (), self.SLOTS)
        self.assertEqual(document.columns(), self.WANTED)
        self.assertEqual(yds.Document().columns(), {"job": [], "start": [], "end": [], "work": [], "speed": []})

    def test_each_float_is_the_nearest(self) -> None:
        document = yds.Document([("a", 0, 10**9, 999_999), ("b", 7, 10**9 - 1, 3)])
        plan = document.plan()
        found = plan.columns()
        for place, slot in enumerate(plan.slots):
            self.assertEqual(found["speed"][place], slot.speed.numerator / slot.speed.denominator)
            self.assertEqual(found["end"][place], slot.end.numerator / slot.end.denominator)  # type: ignore[union-attr]

    def test_drawn_columns_are_the_nearest_floats(self) -> None:
        """An int divided by an int is rounded once, to the nearest float."""
        draw = random.Random(6)
        for _ in range(300):
            start, length, work = (
                Fraction(draw.randrange(1, 10 ** draw.randrange(1, 18)), draw.randrange(1, 10**9)) for _ in "abc"
            )
            found = schedule.columns([("a", start, start + length, work)])
            end, speed = start + length, work / length
            for column, number in (("start", start), ("end", end), ("work", work), ("speed", speed)):
                self.assertEqual(found[column], [number.numerator / number.denominator])

    def test_a_slot_without_length_has_no_speed(self) -> None:
        with self.assertRaisesRegex(ValueError, r"slots\[1\] ends at 2, and not after its start 2"):
            schedule.columns([("a", 0, 1, 1), ("b", 2, 2, 1)])

    def test_frames(self) -> None:
        try:
            import pandas
        except ImportError:
            with self.assertRaisesRegex(ImportError, r"to_pandas needs pandas \(.*\); columns\(\) has"):
                schedule.to_pandas(self.SLOTS)
            self.skipTest("pandas isn't here")
        frame = yds.Document(THREE).plan().to_pandas()
        self.assertEqual(list(frame.columns), ["job", "start", "end", "work", "speed"])
        self.assertEqual([str(kind) for kind in frame.dtypes], ["object", "float64", "float64", "float64", "float64"])
        self.assertEqual(frame["speed"].max(), 3.0)
        self.assertEqual(schedule.to_pandas(self.SLOTS).to_dict("list"), self.WANTED)
        self.assertEqual(list(schedule.to_pandas([]).columns), list(self.WANTED))
        self.assertEqual(schedule.to_pandas(self.SLOTS, exact=True)["speed"][0], Fraction(4, 3))
        with mock.patch("yds._tables.import_module", side_effect=ImportError("none here")):
            with self.assertRaisesRegex(ImportError, r"to_pandas needs pandas \(none here\)"):
                schedule.to_pandas(self.SLOTS)


if __name__ == "__main__":
    unittest.main()
