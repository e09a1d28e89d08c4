"""How fractions and slots are read: the quick way beside Fraction's own, and the lines that an answer's slots know."""

import copy
import pickle
import random
import sys
import unittest
from fractions import Fraction
from typing import Any, Dict, List, Sequence, Set, Tuple
from unittest import mock

import yds
from yds import _fractions, _slots
from yds._forms import FOREIGN_SLOTS


def documents(count: int) -> List[yds.Document]:
    """Documents of a few jobs, some of no work. A name may be in one and not in another."""
    draw = random.Random(7)
    drawn = []
    for _ in range(count):
        releases = [draw.randrange(20) for _ in range(draw.randrange(1, 9))]
        names = [f"j{draw.choice((place, place + 9))}" for place in range(len(releases))]
        windows = [(release, release + draw.randrange(1, 12)) for release in releases]
        drawn.append(yds.Document((name, *window, draw.randrange(9)) for name, window in zip(names, windows)))
    return drawn


def not_reduced(words: Sequence[str]) -> List[Fraction]:
    """Fractions as they would be if two of their names were others."""
    made = _fractions.quickly(words)
    for one in made:
        one._numerator *= 2  # type: ignore[attr-defined]
        one._denominator *= 2  # type: ignore[attr-defined]
    return made


class Fractions(unittest.TestCase):
    def test_the_quick_way_makes_what_fraction_makes(self) -> None:
        draw = random.Random(1)
        for _ in range(2000):
            denominator = draw.randrange(1, draw.choice((3, 100, 2**60)))
            word = f"{draw.randrange(10 ** draw.randrange(1, 13))}+{draw.randrange(denominator)}/{denominator}"
            (quick,), (plain,) = _fractions.quickly([word]), _fractions.plainly([word])
            self.assertEqual((quick, hash(quick), repr(quick)), (plain, hash(plain), repr(plain)))
            self.assertEqual(copy.copy(quick) + 1 - pickle.loads(pickle.dumps(quick)), 1)

    def test_ratios_and_differences(self) -> None:
        draw = random.Random(2)
        values = [Fraction(draw.randrange(-99, 99), draw.choice((1, 1, 6, 7, 9, 2**40))) for _ in range(800)]
        for made, value, other in zip(_fractions.differences(values, values[1:]), values, values[1:]):
            self.assertEqual((made, repr(made)), (value - other, repr(value - other)))
        for value, other in zip(values, values[1:]):
            if other:
                made = _fractions.quotient(value, abs(other))
                self.assertEqual((made, repr(made)), (value / abs(other), repr(value / abs(other))))
        given = [value.numerator if value.denominator == 1 else value for value in values]
        self.assertEqual(list(map(repr, _fractions.of_numbers(given))), list(map(repr, values)))
        for value in values:
            made = _fractions.quick_ratio(value.numerator * 6, value.denominator * 6)
            self.assertEqual((made, hash(made), repr(made)), (value, hash(value), repr(value)))

    def test_a_python_with_other_fractions_has_the_plain_way(self) -> None:
        def fails(_: Sequence[str]) -> List[Fraction]:
            raise AttributeError("'Fraction' object has no attribute '_numerator'")

        others: List[_fractions.Read] = [fails, not_reduced, lambda words: [Fraction(1)], lambda words: []]
        for other in others:
            plain = _fractions._quickest(other, _fractions.quick_ratio)
            self.assertEqual(plain, (_fractions.plainly, _fractions.plain_ratio))
        unlike: List[_fractions.Ratio] = [lambda parts, whole: Fraction(whole, parts or 1), lambda *_: Fraction(1)]
        for one in unlike:
            self.assertEqual(
                _fractions._quickest(_fractions.quickly, one), (_fractions.plainly, _fractions.plain_ratio)
            )

    def test_the_pythons_for_which_the_quick_way_is_kept(self) -> None:
        if sys.version_info < (3, 14):
            self.assertEqual((_fractions.read, _fractions.ratio), (_fractions.quickly, _fractions.quick_ratio))

    def test_slots_are_the_same_by_both_ways(self) -> None:
        for document in documents(30):
            text = document.plan().text
            quick = _slots.own_slots(text)
            self.assertEqual(_slots.read_slots(text), quick)
            with mock.patch.object(_fractions, "read", _fractions.plainly):
                self.assertEqual(_slots.read_slots(text), quick)


class OwnLines(unittest.TestCase):
    """The slots of an answer are judged by its own lines. Others, with the same numbers, are spelled."""

    def test_the_verdict_is_that_on_the_numbers(self) -> None:
        drawn = documents(40)
        for number, document in enumerate(drawn):
            other = drawn[number - 1]
            run = yds.simulate(document, lambda moment: 1.7)
            for answer in (document.plan(), document.avr(7), document.oa(), document.admit(2), run):
                self.assertIsInstance(answer.slots, _slots.Own)
                for judged in (document, other):
                    self.assertEqual(*(self.told(judged, slots) for slots in (answer.slots, list(answer.slots))))

    def told(self, document: yds.Document, slots: Any) -> object:
        """The verdict, but for the spelling of its text; or where it is refused."""
        try:
            found, condition = yds.schedule.judge(document, slots), yds.schedule.check(document, slots).condition
            return found.cause, found.index, found.job, found.slot, condition
        except yds.Refused as fault:
            return fault.reason, fault.table, fault.index, fault.field

    def test_stored_texts_with_comments_and_blanks(self) -> None:
        plan = yds.Document([("a", 0, 4, 8), ("b", 1, 3, 2)]).plan()
        comments, blanks = (b"\nslot", b"\n# a comment\nslot"), (b"\nslot", b"\n slot")
        for changed in (comments, blanks, (b"slot ", b"slot  "), (b"\n", b"\r\n")):
            stored = yds.Plan.from_text(plan.text.replace(*changed))
            self.assertEqual(stored.slots, plan.slots)
            self.assertTrue(yds.schedule.judge(plan, stored.slots))
        cut = yds.Run.from_text(plan.avr().text.rstrip(b"\n"))
        self.assertTrue(yds.schedule.judge(plan, cut.slots))

    def test_jobs_that_are_called_as_the_lines_are(self) -> None:
        document = yds.Document([("slot", 0, 4, 8), ("slot2", 1, 3, 2)])
        plan = document.plan()
        self.assertIsInstance(plan.slots, _slots.Own)
        self.assertEqual(plan.slots, _slots.read_slots(plan.text))
        stored = yds.Plan.from_text(plan.text.replace(b"\nslot slot2", b"\n\tslot slot2"))
        self.assertEqual((type(stored.slots), stored.slots), (tuple, plan.slots))

    def test_copies_and_parts_are_tuples(self) -> None:
        slots = yds.Document([("a", 0, 4, 8), ("b", 1, 3, 2)]).plan().slots
        for other in (copy.copy(slots), copy.deepcopy(slots), pickle.loads(pickle.dumps(slots)), slots[:], slots + ()):
            self.assertEqual((type(other), other), (tuple, slots))
        document = yds.Document([("a", 0, 4, 8), ("b", 1, 3, 2)])
        self.assertEqual(yds.schedule.judge(document, slots[:-1]).cause, "work")
        self.assertEqual(yds.schedule.judge(document, _slots.Own(slots[:-1])).cause, "work")

    def test_no_slots(self) -> None:
        self.assertEqual(yds.schedule.judge(yds.Document([("a", 0, 4, 1)]), yds.Document().plan().slots).cause, "work")
        self.assertTrue(yds.schedule.judge(yds.Document([("a", 0, 4, 0)]), yds.Document([("a", 0, 4, 0)]).plan().slots))


def drawn_slots(draw: random.Random) -> List[Tuple[str, Any, Any, Any]]:
    """Rows of ints and Fractions, most in turn, of which a few overlap, touch by an equal number, or run backward."""
    now: Any = draw.randrange(3)
    rows = []
    for _ in range(draw.randrange(7)):
        start = now if draw.random() < 0.6 else now + Fraction(draw.randrange(-1, 4), draw.choice((1, 3)))
        now = start + Fraction(draw.randrange(-1, 9), draw.choice((1, 1, 2, 6, 7)))
        if draw.random() < 0.5 and Fraction(now).denominator == 1:
            now = int(now)
        work = Fraction(draw.randrange(9), draw.choice((1, 4, 6, 2**40)))
        rows.append((draw.choice("abc"), start, now, int(work) if work.denominator == 1 else work))
    return rows


class Spelling(unittest.TestCase):
    """The lines of drawn slots say the same numbers, over the denominators that a document asks for."""

    def test_what_is_spelled_is_read_again(self) -> None:
        draw = random.Random(11)
        for _ in range(2000):
            rows = drawn_slots(draw)
            kind = draw.choice((list, tuple, iter, lambda rows: [list(row) for row in rows]))
            lines, in_turn = _slots.spelled(_slots.Columns.of(FOREIGN_SLOTS, kind(rows)))
            self.assertEqual(_slots.read_slots(lines), tuple(yds.Slot(*row) for row in rows), rows)
            grains: Dict[str, Set[str]] = {}
            for _, job, *words in (line.split() for line in lines.decode().splitlines()):
                start, end, work = (word.partition("/")[2] for word in words)
                self.assertTrue(start == end or not start or not end, lines)
                grains.setdefault(job, set()).add(work)
            self.assertTrue(all(len(found - {""}) <= 1 for found in grains.values()), lines)
            times = [time for _, start, end, _ in rows for time in (start, end)]
            gaps = [after - before for before, after in zip(times, times[1:])]
            self.assertEqual(in_turn, all(gap > 0 if not place % 2 else gap >= 0 for place, gap in enumerate(gaps)))

    def test_what_is_no_exact_row_is_told(self) -> None:
        for row, told in (
            (("a", 0, 1.5, 1), r"slots\[1\]\.end: 1\.5 is neither"),
            (("a", True, 1, 1), r"slots\[1\]\.start: True is a truth value"),
            (("a b", 0, 1, 1), r"slots\[1\]\.job: 'a b' is no name"),
            ((7, 0, 1, 1), r"slots\[1\]\.job: a name is a string"),
            (("", 0, 1, 1), r"slots\[1\]\.job: '' is no name"),
            (("j" * 65, 0, 1, 1), r"slots\[1\]\.job: .* is no name"),
            (("a", 0, 1), r"slots\[1\] has 3 fields"),
            (("a", 0, 1, 1, 1), r"slots\[1\] has 5 fields"),
        ):
            for kind in (list, iter):
                with self.subTest(row), self.assertRaisesRegex((TypeError, ValueError), told):
                    _slots.Columns.of(FOREIGN_SLOTS, kind([("b", 0, 1, 1), row]))

    def test_below_zero(self) -> None:
        for start in (-1, Fraction(-1, 2), Fraction(-1)):
            with self.subTest(start), self.assertRaisesRegex(yds.Refused, r"slots\[0\]\.start: a number has no sign"):
                yds.schedule.judge(yds.Document([("a", 0, 4, 1)]), [("a", start, 1, 1)])


if __name__ == "__main__":
    unittest.main()
