"""Documents: what they are made of, what is refused, and what each method answers. The values are worked by hand."""

import copy
import io
import pickle
import re
import unittest
from contextlib import redirect_stdout
from decimal import Decimal
from fractions import Fraction
from typing import Any, Callable, List
from unittest import mock

import stored
import yds
from yds import _places
from yds.commands import draw

THREE = [("a", 0, 12, 4), ("b", 2, 10, 8), ("c", 4, 6, 6)]
POLICIES = [("a", 0, 3, 2), ("b", 1, 2, 1)]


class Making(unittest.TestCase):
    def test_rows_are_lines(self) -> None:
        level = yds.Level(6, 2, (yds.Piece(4, 6),), ("c",))
        document = yds.Document([("c", 4, 6, 6)], [(0, 5), (3, 9)], [("c", Fraction(9, 2), 6, 6)], [level])
        text = b"job c 4 6 6\npoint 0 5\npoint 3 9\nslot c 4+1/2 6 6\nlevel 6 2\npiece 4 6\nmember c\n"
        self.assertEqual(document.text, text)
        self.assertEqual(document.slots, (yds.Slot("c", Fraction(9, 2), 6, 6),))
        self.assertEqual(document.levels, (level,))
        self.assertEqual(document.points, (yds.Point(0, 5), yds.Point(3, 9)))
        self.assertEqual(document, yds.Document.from_text(text.decode()))
        self.assertEqual(hash(document), hash(yds.Document.from_text(text)))
        self.assertNotEqual(document, text)

    def test_denominators_are_made_common(self) -> None:
        slots = [
            ("a", Fraction(1, 2), Fraction(4, 3), Fraction(1, 2)),
            ("a", 2, 3, Fraction(1, 3)),
            ("b", 3, 4, Fraction(1, 7)),
        ]
        text = yds.Document(slots=slots).text
        self.assertEqual(text, b"slot a 0+3/6 1+2/6 0+3/6\nslot a 2 3 0+2/6\nslot b 3 4 0+1/7\n")

    def test_runs_are_slots(self) -> None:
        document = yds.Document.from_text(b"# a trace\r\n\tjob a 0 4 8\nticks 3\nrun a 1 7 4\nrun a 7 5 2\n")
        self.assertEqual(
            document.slots,
            (yds.Slot("a", Fraction(1, 3), Fraction(7, 3), 8), yds.Slot("a", Fraction(7, 3), Fraction(5, 3), 0)),
        )

    def test_a_float_is_refused(self) -> None:
        for jobs in ([("a", 0, 4.0, 8)], [("a", 0, 4, Decimal(8))], [("a", "0", 4, 8)]):
            with self.assertRaisesRegex(TypeError, r"from_decimal\(.., denominator=..\)"):
                yds.Document(jobs)
        with self.assertRaisesRegex(TypeError, "neither an int nor a Fraction"):
            yds.Document(slots=[("a", 0.5, 4, 8)])

    def test_a_fraction_of_a_unit_is_refused(self) -> None:
        self.assertEqual(yds.Document([("a", Fraction(0), Fraction(8, 2), 8)]).text, b"job a 0 4 8\n")
        with self.assertRaisesRegex(ValueError, r"isn't whole.*from_decimal"):
            yds.Document([("a", Fraction(1, 2), 4, 8)])

    def test_decimals(self) -> None:
        rows = [("a", 0.1, "16.667", Decimal("3.2505")), ("b", 1, Fraction(7, 3), 0.3)]
        document = yds.Document.from_decimal(rows, [(0, 1)], [("a", 0.25, 1.5, 3.25)], denominator=1000)
        self.assertEqual(document.text, b"job a 100 16667 3250\njob b 1000 2333 300\npoint 0 1\nslot a 250 1500 3250\n")
        for value in (float("nan"), float("inf"), "1/0", "x"):
            with self.assertRaises((ValueError, ZeroDivisionError)):
                yds.Document.from_decimal([("a", 0, 1, value)], denominator=10)

    def test_a_denominator_is_a_whole_number(self) -> None:
        rows = [("a", 0, 4, 8)]
        for denominator in (1.5, True, "10", Decimal(10), None):
            with self.assertRaisesRegex(TypeError, "the denominator is a whole number of at least 1, and .* is none"):
                yds.Document.from_decimal(rows, denominator=denominator)  # type: ignore[arg-type]
        for denominator in (0, -10, Fraction(1, 2)):
            with self.assertRaisesRegex(ValueError, "the denominator is a whole number of at least 1, and not "):
                yds.Document.from_decimal(rows, denominator=denominator)  # type: ignore[arg-type]
        whole = yds.Document.from_decimal(rows, denominator=Fraction(10))  # type: ignore[arg-type]
        self.assertEqual(whole.text, b"job a 0 40 80\n")

    def test_decimals_that_would_vanish(self) -> None:
        def counted(*row: object, most: object = None) -> bytes:
            return yds.Document.from_decimal([row], denominator=1000, most=most).text  # type: ignore

        for work in (0.0004, "0.0004", Decimal("0.0005"), Fraction(1, 2001)):
            with self.assertRaisesRegex(ValueError, "is a work above 0, and comes to no unit of 1/1000"):
                counted("a", 0, 4, work)
            with self.assertRaisesRegex(ValueError, "is a work above 0, and comes to no unit of 1/1000"):
                yds.Document.from_decimal([("a", 0, 4, 1)], slots=[("a", 0, 1, work)], denominator=1000)
        self.assertEqual(counted("a", 0, 4, 0.0), b"job a 0 4000 0\n")
        self.assertEqual(counted("a", 0, 4, 0.0006), b"job a 0 4000 1\n")
        self.assertEqual(counted("a", 0.0004, 4, 1), b"job a 0 4000 1000\n")
        for row in ((-0.0004, 4, 1), (0, -4, 1), (0, 4, -0.0004), (0, 4, "-1")):
            with self.assertRaisesRegex(ValueError, "is below 0, as no time and no work is"):
                counted("a", *row)
        with self.assertRaisesRegex(TypeError, "True is a truth value, and no number"):
            counted("a", 0, True, 1)

    def test_how_far_decimals_may_be_moved(self) -> None:
        third = [("a", 0, Fraction(50, 3), 1)]
        document = yds.Document.from_decimal(third, denominator=3, most=0)
        self.assertEqual(document.text, b"job a 0 50 3\n")
        document = yds.Document.from_decimal(third, denominator=1000, most=Fraction(1, 3000))
        self.assertEqual(document.text, b"job a 0 16667 1000\n")
        with self.assertRaisesRegex(ValueError, "comes to 16667 units of 1/1000, and is moved by more than 0"):
            yds.Document.from_decimal(third, denominator=1000, most=0)
        with self.assertRaisesRegex(ValueError, "comes to 17 units of 1/1, and is moved by more than 0.1:"):
            yds.Document.from_decimal([("a", 0, "16.667", 1)], denominator=1, most="0.1")

    def test_a_name_is_one_field(self) -> None:
        for name in ("", "a b", "a\nb", "a\r", "a\t", "é", "a" * 65):
            with self.assertRaisesRegex(ValueError, "is no name"):
                yds.Document([(name, 0, 4, 8)])
            with self.assertRaisesRegex(ValueError, "is no name"):
                yds.Document(slots=[(name, 0, 4, 8)])
            with self.assertRaisesRegex(ValueError, "is no name"):
                yds.Document(levels=[yds.Level(1, 1, (), (name,))])
            with self.assertRaisesRegex(ValueError, "is no name"):
                yds.expand([(name, 0, 4, 4, 1)], horizon=8)
        self.assertEqual(yds.Document([("#!~", 0, 4, 8)]).jobs[0].name, "#!~")

    def test_frames(self) -> None:
        try:
            import pandas
        except ImportError:
            self.skipTest("pandas isn't here")
        jobs = pandas.DataFrame(THREE, columns=["name", "release", "deadline", "work"])
        points = pandas.DataFrame({"speed": [0, 3], "power": [1, 9]})
        document = yds.Document.from_pandas(jobs, points)
        self.assertEqual(document, yds.Document(THREE, [(0, 1), (3, 9)]))
        table = pandas.DataFrame(document.plan().slots)
        self.assertEqual(list(table.columns), ["job", "start", "end", "work"])
        self.assertEqual(table["work"].sum(), 18)
        with self.assertRaises(TypeError):
            yds.Document.from_pandas(jobs.assign(work=0.5))

    def test_columns_of_unlike_length(self) -> None:
        jobs = {"name": ["a", "b", "c"], "release": [0, 0, 0], "deadline": [4, 5, 6], "work": [8]}
        with self.assertRaisesRegex(ValueError, r"columns of jobs differ in length \(name 3, .* work 1\)"):
            yds.Document.from_pandas(jobs)
        jobs["work"] = iter([8, 8, 8])  # type: ignore[assignment]
        self.assertEqual(len(yds.Document.from_pandas(jobs).jobs), 3)
        jobs["work"] = [8, 8, 8]
        with self.assertRaisesRegex(ValueError, r"columns of points differ in length \(speed 2, power 1\)"):
            yds.Document.from_pandas(jobs, {"speed": [0, 3], "power": [1]})
        with self.assertRaises(KeyError):
            yds.Document.from_pandas({"name": ["a"], "release": [0], "deadline": [4]})
        self.assertEqual(yds.Document.from_pandas({column: [] for column in yds.Job._fields}).text, b"")

    def test_what_crosses_a_process(self) -> None:
        plan = yds.Document(THREE).plan()
        again = pickle.loads(pickle.dumps(plan))
        self.assertIsInstance(again, yds.Plan)
        self.assertEqual(again.slots, plan.slots)
        self.assertEqual(pickle.loads(pickle.dumps(plan.report())), plan.report())

    def test_only_the_text_crosses(self) -> None:
        """Rows that were read aren't sent along: they are read again where they are asked for."""
        plan = yds.Document(THREE).plan()
        before = len(pickle.dumps(plan))
        rows = plan.rows
        self.assertEqual(len(pickle.dumps(plan)), before)
        self.assertLess(before, len(plan.text) + 150)
        self.assertEqual(pickle.loads(pickle.dumps(plan)).rows, rows)
        with mock.patch("yds.document.answer", side_effect=AssertionError("what the library wrote isn't read anew")):
            self.assertEqual(pickle.loads(pickle.dumps(plan)).rows, rows)
        self.assertEqual(plan.__dask_tokenize__(), pickle.loads(pickle.dumps(plan)).__dask_tokenize__())
        self.assertNotEqual(plan.__dask_tokenize__(), yds.Document.from_text(plan.text).__dask_tokenize__())

    def test_equal_texts_and_equal_rows(self) -> None:
        """The library writes 1+800/1200 where rows are written as 1+2/3: other texts, the same rows."""
        jobs = [("frame", 0, 20, 4000), ("audio", 5, 10, 1500)]
        rounded = yds.Document(jobs, [(0, 4), (200, 60), (400, 150), (800, 500)]).round()
        assert isinstance(rounded, yds.Rounded)
        again = yds.Document(rounded.jobs, rounded.points, rounded.slots, rounded.levels)
        self.assertIn(b"slot frame 0 1+800/1200 ", rounded.text)
        self.assertIn(b"slot frame 0 1+2/3 ", again.text)
        self.assertNotEqual(again, rounded)
        self.assertEqual(again.rows, rounded.rows)
        self.assertEqual(again.rows.jobs, tuple(yds.Job(*row) for row in jobs))
        self.assertNotEqual(again.rows, yds.Document(jobs).rows)
        self.assertEqual(yds.Document.from_text(b"# other\r\n job\ta 0 4 8").rows, yds.Document([("a", 0, 4, 8)]).rows)
        self.assertRegex(yds.Document.__eq__.__doc__ or "", "byte for byte")

    def test_a_document_does_not_change(self) -> None:
        document = yds.Document(THREE, [(0, 0), (3, 9)])
        document.jobs
        for target in (document, document.plan(), document.round()):
            for name in ("jobs", "points", "slots", "levels", "text", "_text", "energy", "job"):
                with self.subTest(kind=type(target).__name__, name=name):
                    with self.assertRaisesRegex(AttributeError, f"'{name}' can't be set; document.replace"):
                        setattr(target, name, [("z", 0, 1, 1)])
                    with self.assertRaisesRegex(AttributeError, f"'{name}' can't be taken away; document.replace"):
                        delattr(target, name)
        self.assertEqual(document, yds.Document(THREE, [(0, 0), (3, 9)]))
        self.assertEqual(document.jobs, tuple(yds.Job(*row) for row in THREE))

    def test_other_rows_in_place_of_a_documents_own(self) -> None:
        document = yds.Document(THREE, [(0, 0), (3, 9)])
        self.assertEqual(document.replace(), document)
        self.assertEqual(document.replace(points=[(0, 1), (4, 9)]), yds.Document(THREE, [(0, 1), (4, 9)]))
        self.assertEqual(document.replace(points=()), yds.Document(THREE))
        self.assertEqual(document.replace(jobs=THREE[:1]).rows, yds.Document(THREE[:1], [(0, 0), (3, 9)]).rows)
        plan = document.plan()
        again = plan.replace(points=[(0, 1), (4, 9)])
        self.assertIs(type(again), yds.Document)
        self.assertEqual(again.rows, plan.rows._replace(points=(yds.Point(0, 1), yds.Point(4, 9))))
        self.assertTrue(again.check())
        self.assertFalse(plan.replace(slots=()).audit())
        self.assertEqual(plan.replace(levels=()).check().condition, "K3")
        with self.assertRaisesRegex(yds.Refused, "UnknownName, in 'slot"):
            plan.replace(jobs=THREE[:1]).audit()
        self.assertEqual(document.__replace__(jobs=[]), yds.Document(points=[(0, 0), (3, 9)]))
        if hasattr(copy, "replace"):
            self.assertEqual(copy.replace(document, jobs=[]), yds.Document(points=[(0, 0), (3, 9)]))

    def test_how_they_look(self) -> None:
        plan = yds.Document([("a", 0, 4, 8)]).plan()
        self.assertEqual(str(plan), plan.text.decode())
        self.assertEqual(repr(plan), "<Plan of 1 job, work 8, 0 to 4: 1 slot, 1 level, peak 2>")
        self.assertEqual(repr(yds.Document()), "<Document of 0 jobs>")
        faulty = yds.Document.from_text(b"jobs a 0 4 8\n\xff")
        self.assertEqual(repr(faulty), "<Document, refused: line 1, column 1: UnknownKind, in 'jobs a 0 4 8'>")
        self.assertEqual(str(faulty), "jobs a 0 4 8\n\ufffd")

    def test_each_answer_is_shown_in_one_line(self) -> None:
        document = yds.Document(THREE, [(0, 0), (3, 9)])
        policies = yds.Document(POLICIES, [(0, 0), (1, 1), (2, 3)])
        for answer, shown in (
            (document, "<Document of 3 jobs, work 18, 0 to 12: 2 points>"),
            (document.plan(), "<Plan of 3 jobs, work 18, 0 to 12: 2 points, 5 slots, 3 levels, peak 3>"),
            (document.round(), "<Rounded of 3 jobs, work 18, 0 to 12: 2 points, 5 slots, energy 54>"),
            (policies.avr(1), "<Run of 2 jobs, work 3, 0 to 3: 3 points, 3 slots, grid 1, rounded 3>"),
            (policies.compare(), "<Comparison: plan energy 3, avr energy 11/3, oa energy 10/3>"),
            (policies.compare(1), "<Comparison: plan energy 3, avr energy 4 (rounded 3), oa energy 3 (rounded 1)>"),
            (
                yds.Document(POLICIES, [(0, 0), (1, 1)]).compare(),
                "<Comparison: plan energy 3, avr too slow, oa too slow>",
            ),
            (document.admit(2), "<Admission of 2 jobs, work 12, 0 to 12: 2 points, 2 slots, 1 refused>"),
            (yds.expand([("s", 0, 4, 4, 1)], 8), "<Expansion of 2 jobs, work 2, 0 to 8: one level of speed 1/4>"),
            (yds.expand([("s", 1, 4, 4, 1)], 8), "<Expansion of 1 job, work 1, 1 to 5>"),
            (document.report(), "<Report of 3 jobs, work 18, 0 to 12: 3 levels, peak 3, idle 0>"),
            (document.curve(), "<Curve of 4 breaks: 18 above the speed 0, 0 above 3>"),
            (yds.trial(0, 2), "<Trial of 2 jobs: 2 levels, 2 slots, peak 53709/18257>"),
            (yds.trial(0, 0), "<Trial of 0 jobs: 0 levels, 0 slots, peak none>"),
            (
                yds.Document([("a", 0, 2, 5)], [(0, 1), (2, 9)]).round(),
                "<TooSlow: work 5 in 2 needs the speed 5/2, the top is 2>",
            ),
        ):
            with self.subTest(shown):
                self.assertEqual(repr(answer), shown)

    def test_each_verdict_is_shown_in_one_line(self) -> None:
        def shown(*slots: tuple, points: bool = False) -> str:
            return repr(yds.Document([("a", 2, 6, 4)], [(0, 0), (2, 9)], slots).audit(points))

        self.assertEqual(shown(("a", 2, 6, 4)), "<Verdict feasible>")
        self.assertEqual(shown(("a", 2, 2, 4)), "<Verdict backward: slot 0 of a runs from 2 to 2>")
        overlap = "<Verdict overlap: slot 1 of a begins at 7/2, the one before ends at 4>"
        self.assertEqual(shown(("a", 2, 4, 2), ("a", Fraction(7, 2), 5, 2)), overlap)
        self.assertEqual(shown(("a", 1, 4, 4)), "<Verdict early: slot 0 of a begins at 1, release 2>")
        self.assertEqual(shown(("a", 2, Fraction(13, 2), 4)), "<Verdict late: slot 0 of a ends at 13/2, deadline 6>")
        off = "<Verdict off-point: slot 0 of a gives 4 from 2 to 5, at no point's speed>"
        self.assertEqual(shown(("a", 2, 5, 4), points=True), off)
        self.assertEqual(shown(("a", 2, 5, Fraction(7, 2))), "<Verdict work: a is given 7/2 of 4>")

        def judged(slots: list, levels: list) -> str:
            return repr(yds.Document([("a", 0, 4, 4)], (), slots, levels).check())

        level = yds.Level(4, 4, (yds.Piece(0, 4),), ("a",))
        self.assertEqual(judged([("a", 0, 4, 4)], [level]), "<Judgement accepted>")
        self.assertEqual(judged([("a", 0, 5, 4)], [level]), "<Judgement K1: late: slot 0 of a ends at 5, deadline 4>")
        self.assertEqual(judged([("a", 0, 4, 4)], [level._replace(pieces=())]), "<Judgement K2: level 0>")
        self.assertEqual(judged([("a", 0, 4, 4)], []), "<Judgement K3: job a>")
        seventh = judged([("a", 0, 1, 1), ("a", 1, 2, 2), ("a", 2, 4, 1)], [level])
        self.assertEqual(seventh, "<Judgement K7: slot 1 of a has the speed 2, its level 1>")


class Answers(unittest.TestCase):
    def test_plan(self) -> None:
        plan = yds.Document(THREE).plan()
        self.assertEqual([slot.speed for slot in plan.slots], [1, Fraction(4, 3), 3, Fraction(4, 3), 1])
        self.assertEqual([level.speed for level in plan.levels], [3, Fraction(4, 3), 1])
        self.assertEqual(plan.levels[1], yds.Level(8, 6, (yds.Piece(2, 4), yds.Piece(6, 10)), ("b",)))
        self.assertEqual(plan.peak, 3)
        self.assertTrue(plan.check())
        self.assertTrue(plan.audit())
        self.assertEqual(yds.Document().plan().peak, 0)

    def test_round(self) -> None:
        document = yds.Document(
            [("frame", 0, 20, 4000), ("audio", 5, 10, 1500)], [(0, 4), (200, 60), (400, 150), (800, 500)]
        )
        rounded = document.round()
        assert isinstance(rounded, yds.Rounded)
        self.assertEqual(rounded.energy, 1875)
        self.assertEqual({slot.speed for slot in rounded.slots}, {200, 400})
        self.assertTrue(rounded.audit(points=True))
        slow = yds.Document([("a", 0, 2, 5)], [(0, 1), (2, 9)]).round()
        assert isinstance(slow, yds.TooSlow)
        self.assertEqual((slow.work, slow.length, slow.top, slow.needed), (5, 2, 2, Fraction(5, 2)))
        self.assertFalse(slow)

    def test_policies(self) -> None:
        run = yds.Document(POLICIES).oa(6)
        self.assertEqual(
            [slot.speed for slot in run.slots], [Fraction(2, 3), Fraction(7, 6), Fraction(7, 6), Fraction(7, 6)]
        )
        self.assertEqual((run.grid, run.rounded, run.exact), (6, 0, True))
        self.assertEqual(yds.Document(POLICIES).avr(1).rounded, 3)
        self.assertFalse(yds.Document(POLICIES).avr(1).exact)
        self.assertEqual(yds.Document(POLICIES).avr(6).slots[1], yds.Slot("b", 1, Fraction(8, 5), 1))

    def test_policies_count_in_fine_parts_where_nothing_is_said(self) -> None:
        """The speeds 2/3 and 5/3 of Average Rate, which parts of 1 make 1, 2 and 0."""
        document = yds.Document(POLICIES, [(0, 0), (1, 1), (2, 3)])
        run = document.avr()
        self.assertEqual((run.grid, run.exact), (720720, True))
        speeds = [Fraction(2, 3), Fraction(5, 3), Fraction(5, 3), Fraction(2, 3)]
        self.assertEqual([slot.speed for slot in run.slots], speeds)
        self.assertEqual([slot.speed for slot in document.avr(1).slots], [1, 2, 2])
        self.assertEqual((document.oa().grid, document.oa().exact, document.oa(1).exact), (720720, True, False))
        compared, coarse = document.compare(), document.compare(1)
        assert isinstance(compared, yds.Comparison) and isinstance(coarse, yds.Comparison)
        self.assertEqual((compared.avr.energy, compared.oa.energy), (Fraction(11, 3), Fraction(10, 3)))
        self.assertEqual((coarse.avr.energy, coarse.oa.energy), (4, 3))
        self.assertEqual((compared.avr.rounded, coarse.avr.rounded), (0, 3))

    def test_numbers_come_from_their_lines(self) -> None:
        """What stands behind the line of the energy or of the grid is another's: a comment's last word is no number."""
        rounded = yds.Document([("a", 0, 4, 8)], [(0, 0), (2, 9)]).round()
        with_comment = yds.Rounded.from_text(rounded.text + b"# see 7\n")
        self.assertEqual((rounded.energy, with_comment.energy), (36, 36))
        run = yds.Run.from_text(yds.Document(POLICIES).avr(1).text + b"# seen at 9 17\n")
        self.assertEqual((run.grid, run.rounded), (1, 3))

    def test_compare(self) -> None:
        compared = yds.Document(POLICIES, [(0, 0), (1, 1), (2, 3)]).compare(6)
        assert isinstance(compared, yds.Comparison)
        self.assertEqual(compared.plan, yds.Least(Fraction(3), {0: Fraction(0), 1: Fraction(3), 2: Fraction(0)}))
        self.assertEqual(compared.avr.energy, Fraction(11, 3))
        self.assertEqual(
            compared.oa, yds.Side(Fraction(10, 3), {0: Fraction(1, 3), 1: Fraction(7, 3), 2: Fraction(1, 3)}, rounded=0)
        )
        slower = yds.Document(POLICIES, [(0, 0), (1, 1)]).compare(6)
        assert isinstance(slower, yds.Comparison)
        self.assertEqual(slower.avr, yds.Side(overload=yds.Overload(10, 1, 2, 1), rounded=0))
        self.assertEqual(slower.oa.overload, yds.Overload(7, 1, 2, 1))
        self.assertFalse(yds.Document(POLICIES, [(0, 0)]).compare(6))

    def test_report(self) -> None:
        report = yds.Document(THREE).report()
        self.assertEqual((report.jobs, report.work, report.start, report.end, report.idle), (3, 18, 0, 12, 0))
        self.assertEqual(report.levels[1], yds.ReportLevel(8, 6, Fraction(4, 3)))
        self.assertEqual((report.peak, yds.Document().report().peak), (3, 0))

    def test_curve(self) -> None:
        curve = yds.Document(THREE).curve()
        self.assertEqual(curve.breaks[2], yds.Break(Fraction(4, 3), Fraction(10, 3)))
        self.assertEqual(
            [curve.above(speed) for speed in (0, 1, 2, Fraction(4, 3), 3, 4)], [18, 6, 2, Fraction(10, 3), 0, 0]
        )
        self.assertEqual(yds.Document().curve().above(0), 0)
        with self.assertRaises(ValueError):
            curve.above(-1)

    def test_admit(self) -> None:
        admission = yds.Document([("a", 0, 2, 3), ("b", 0, 2, 0), ("c", 0, 2, 1)]).admit(1)
        self.assertEqual([job.name for job in admission.jobs], ["b", "c"])
        self.assertEqual(admission.refused, (yds.Refusal("a", 0, 2, 3, 1),))
        self.assertEqual(admission.slots, (yds.Slot("c", 0, 2, 1),))

    def test_expand(self) -> None:
        expansion = yds.expand([("control", 0, 4, 4, 2), ("sensor", 0, 6, 6, 3)], horizon=12)
        self.assertEqual(
            [job.name for job in expansion.jobs], ["control.0", "control.1", "control.2", "sensor.0", "sensor.1"]
        )
        self.assertEqual(expansion.one_level, yds.OneLevel(12, 12))
        self.assertEqual(expansion.plan().peak, expansion.one_level.speed)
        self.assertIsNone(yds.expand("horizon 10\ntask s 1 5 2 1\n").one_level)
        self.assertIsNone(yds.expand(b"").one_level)
        with self.assertRaisesRegex(TypeError, "horizon"):
            yds.expand([("control", 0, 4, 4, 2)])

    def test_a_text_of_tasks_has_its_own_horizon(self) -> None:
        text = b"horizon 8\ntask s 0 4 4 2\n"
        for tasks in (text, text.decode(), bytearray(text), memoryview(text)):
            self.assertEqual(yds.expand(tasks).one_level, yds.OneLevel(4, 8))
            for horizon in (99, 8, 0):
                with self.assertRaisesRegex(TypeError, "a text of tasks has a line of its own for the horizon"):
                    yds.expand(tasks, horizon=horizon)

    def test_trial(self) -> None:
        trial = yds.trial(0, 2)
        self.assertEqual((trial.jobs, trial.levels, trial.slots, trial.peak), (2, 2, 2, (53709, 18257)))
        self.assertIsNone(yds.trial(0, 0).peak)

    def test_drawn_jobs(self) -> None:
        """Those of trial, of yds-draw, and of the generator as its page tells it."""
        for seed in (0, 5, 2**32 - 1):
            levels = yds.draw(seed, 30).plan().levels
            trial = yds.trial(seed, 30)
            self.assertEqual((trial.levels, trial.peak), (len(levels), (levels[0].work, levels[0].length)))
        draws, state = [], 7
        for _ in range(60):
            state = (1664525 * state + 1013904223) % 2**32
            draws.append(state // 65536)
        wanted = []
        for place, (x, y, z) in enumerate(zip(draws[::3], draws[1::3], draws[2::3])):
            start = 200 * x // 65536
            wanted.append((f"j{place}", start, start + 1 + 150 * y // 65536, 1 + 120 * z // 65536))
        document = yds.draw(7, release=200, window=150, work=120, points=[(0, 1), (9, 9)])
        self.assertEqual((document.jobs, document.points), (tuple(wanted), ((0, 1), (9, 9))))
        written = io.TextIOWrapper(io.BytesIO())
        with redirect_stdout(written):
            self.assertEqual(draw.main("--seed 7 --jobs 20 --release 200 --window 150 --work 120".split()), 0)
        self.assertEqual(yds.Document.from_text(written.buffer.getvalue()).jobs, document.jobs)

    def test_numbers_that_cannot_be_drawn(self) -> None:
        for message, wrong in (
            (r"^the seed is a whole number of at least 0, and not -1$", {"seed": -1}),
            (r"^the seed is at most 4,294,967,295, and not 4294967296$", {"seed": 2**32}),
            (r"^the number of jobs is at most 4,000, and not 4001$", {"jobs": 4001}),
            (r"^work is a whole number of at least 1, and not 0$", {"work": 0}),
            (r"^window is at most 1,000,000,000, and not", {"window": 10**9 + 1}),
            (r"^release and window together are above 1,000,000,000", {"release": 10**9 - 1, "window": 2}),
        ):
            with self.subTest(message), self.assertRaisesRegex(ValueError, message):
                yds.draw(**{"seed": 0, **wrong})

    def test_audit(self) -> None:
        def verdict(*slots: tuple, points: bool = False) -> yds.Verdict:
            return yds.Document([("a", 2, 6, 4), ("b", 2, 6, 2)], [(0, 0), (2, 9)], slots).audit(points)

        self.assertTrue(verdict(("a", 2, 4, 4), ("b", 4, 5, 2), points=True).feasible)
        self.assertEqual(verdict(("a", 2, 2, 4)).cause, "backward")
        overlap = verdict(("a", 2, 4, 4), ("b", Fraction(7, 2), 5, 2))
        self.assertEqual((overlap.cause, overlap.job, overlap.index, overlap.previous_end), ("overlap", "b", 1, 4))
        self.assertEqual(overlap.slot, yds.Slot("b", Fraction(7, 2), 5, 2))
        early = verdict(("a", 1, 4, 4))
        self.assertEqual((early.cause, early.index, early.release), ("early", 0, 2))
        late = verdict(("a", 2, Fraction(13, 2), 4))
        self.assertEqual((late.cause, late.deadline, late.slot.end), ("late", 6, Fraction(13, 2)))
        off = verdict(("a", 2, 5, 4), ("b", 5, 6, 2), points=True)
        self.assertEqual((off.cause, off.slot.speed), ("off-point", Fraction(4, 3)))
        work = verdict(("a", 2, 3, Fraction(1, 2)), ("a", 3, 4, 3), ("b", 4, 5, 2))
        self.assertEqual(
            (work.cause, work.job, work.given, work.wanted, work.index), ("work", "a", Fraction(7, 2), 4, None)
        )

    def test_check(self) -> None:
        jobs, slots, levels = [("a", 0, 4, 4)], [("a", 0, 4, 4)], [yds.Level(4, 4, (yds.Piece(0, 4),), ("a",))]
        self.assertTrue(yds.Document(jobs, (), slots, levels).check().accepted)

        def judged(slots: list, levels: list) -> yds.Judgement:
            return yds.Document(jobs, (), slots, levels).check()

        first = judged([("a", 0, 5, 4)], levels)
        self.assertEqual((first.condition, first.verdict.cause, first.verdict.deadline), ("K1", "late", 4))
        self.assertEqual(
            (
                judged(slots, [yds.Level(4, 4, (), ("a",))]).condition,
                judged(slots, [yds.Level(4, 4, (), ("a",))]).level,
            ),
            ("K2", 0),
        )
        self.assertEqual((judged(slots, []).condition, judged(slots, []).job), ("K3", "a"))
        self.assertEqual(judged(slots, [yds.Level(4, 3, (yds.Piece(0, 4),), ("a",))]).condition, "K4")
        seventh = judged([("a", 0, 1, 1), ("a", 1, 2, 2), ("a", 2, 4, 1)], levels)
        self.assertEqual((seventh.condition, seventh.index, seventh.slot.speed, seventh.wanted), ("K7", 1, 2, 1))


class Answered(unittest.TestCase):
    """Answers come from calls. What doesn't fit together is none."""

    ONE = yds.Document([("a", 0, 4, 8)], [(0, 0), (2, 9)])

    def test_rows_make_no_answer(self) -> None:
        with self.assertRaisesRegex(TypeError, r"Plan is the answer of document\.plan\(\), and isn't made of rows"):
            yds.Plan([("a", 0, 4, 8)])
        with self.assertRaisesRegex(TypeError, r"Rounded .* document\.round\(\)"):
            yds.Rounded([("a", 0, 4, 8)], [(0, 0), (2, 9)])
        with self.assertRaisesRegex(TypeError, r"Run .* document\.avr\(\) or document\.oa\(\)"):
            yds.Run([("a", 0, 4, 8)])
        for kind in (yds.Plan, yds.Rounded, yds.Run, yds.Admission, yds.Expansion):
            with self.subTest(kind.__name__):
                with self.assertRaisesRegex(TypeError, "is the answer of"):
                    kind()
                with self.assertRaisesRegex(TypeError, "is the answer of"):
                    kind.from_decimal([("a", 0, 4, 8)], denominator=1)
                with self.assertRaisesRegex(TypeError, "is the answer of"):
                    kind.from_pandas({"name": ["a"], "release": [0], "deadline": [4], "work": [8]})

    def test_a_stored_answer_is_read_again(self) -> None:
        answers = [self.ONE.plan(), self.ONE.round(), yds.Document(POLICIES).avr(1), yds.Document(POLICIES).oa(1)]
        for answer in answers:
            with self.subTest(answer.text):
                again = type(answer).from_text(b"# stored\n" + answer.text.replace(b"\n", b"\r\n"))
                self.assertIs(type(again), type(answer))
                self.assertEqual((again.jobs, again.slots, again.levels), (answer.jobs, answer.slots, answer.levels))
                self.assertEqual(type(answer).from_text(answer.text), answer)

    def test_another_text_is_no_answer(self) -> None:
        plan, rounded, run = self.ONE.plan().text, self.ONE.round().text, yds.Document(POLICIES).avr(1).text
        for kind, text, difference in (
            (yds.Plan, rounded, "it has 'energy 36' where the answer has 'level 8 4'"),
            (yds.Plan, plan.replace(b"level 8 4", b"level 9 4"), "it has 'level 9 4' where the answer has 'level 8 4'"),
            (yds.Plan, plan.replace(b"slot a 0 4 8\n", b""), "'level 8 4' where the answer has 'slot a 0 4 8'"),
            (yds.Plan, b"", None),
            (yds.Rounded, rounded.replace(b"energy 36", b"energy 35"), "'energy 35' where .* 'energy 36'"),
            (yds.Rounded, plan, "'level 8 4' where the answer has 'energy 36'"),
            (yds.Rounded, rounded[: -len(b"energy 36\n")], "it has 'nothing' where the answer has 'energy 36'"),
            (yds.Rounded, b"job a 0 2 5\npoint 0 1\npoint 2 9\n", "where the answer has 'too-slow work 5"),
            (yds.Run, run.replace(b"grid 1 3", b"grid 1 0"), "'grid 1 0' where the answer has 'grid 1 3'"),
            (yds.Run, run.replace(b"grid 1 3", b"grid 2 3"), "where the answer has"),
            (yds.Run, plan, "has no line 'grid'"),
        ):
            with self.subTest(kind=kind.__name__, text=text):
                if difference is None:
                    self.assertEqual(kind.from_text(text).peak, 0)
                    continue
                with self.assertRaisesRegex(ValueError, difference):
                    kind.from_text(text)
                self.assertEqual(yds.Document.from_text(text).text, text)
        with self.assertRaisesRegex(yds.Refused, "line 1, column 1: UnknownKind"):
            yds.Plan.from_text(b"jobs a 0 4 8\n")
        with self.assertRaisesRegex(yds.Refused, "line 2, column 6: OutOfRange"):
            yds.Run.from_text(b"job a 0 4 8\ngrid 0 0\n")

    def test_what_comments_tell_is_not_read_again(self) -> None:
        admission = yds.Document([("a", 0, 2, 3), ("b", 0, 2, 1)]).admit(1)
        with self.assertRaisesRegex(TypeError, r"document\.admit\(top\) again"):
            yds.Admission.from_text(admission.text)
        with self.assertRaisesRegex(TypeError, r"yds\.expand\(tasks, horizon\) again"):
            yds.Expansion.from_text(yds.expand([("a", 0, 4, 4, 2)], horizon=8).text)

    def test_answers_are_copied_and_compared(self) -> None:
        admission = yds.Document([("a", 0, 2, 3), ("b", 0, 2, 1)]).admit(1)
        expansion = yds.expand([("a", 0, 4, 4, 2)], horizon=8)
        for answer in (self.ONE.plan(), self.ONE.round(), yds.Document(POLICIES).oa(1), admission, expansion):
            for again in (copy.copy(answer), copy.deepcopy(answer), pickle.loads(pickle.dumps(answer))):
                with self.subTest(type(answer).__name__):
                    self.assertIs(type(again), type(answer))
                    self.assertEqual((again, hash(again), again.slots), (answer, hash(answer), answer.slots))
            as_document = yds.Document.from_text(answer.text)
            self.assertIs(type(as_document), yds.Document)
            self.assertEqual((as_document, hash(as_document)), (answer, hash(answer)))
        self.assertEqual(pickle.loads(pickle.dumps(admission)).refused, admission.refused)
        self.assertEqual(copy.copy(expansion).one_level, yds.OneLevel(4, 8))


class Rows(unittest.TestCase):
    """What is wrong with a row names the row and its field."""

    def refused(self, kind: type, message: str, call: Callable[[], object]) -> None:
        with self.subTest(message), self.assertRaisesRegex(kind, message):  # type: ignore[arg-type]
            call()

    def test_one_of_many_jobs(self) -> None:
        rows: List[Any] = [(f"j{place}", 0, 4, 1) for place in range(1000)]
        rows[500] = ("j500", 0, 4.5, 1)
        self.refused(TypeError, r"^jobs\[500\]\.deadline: 4\.5 is neither an int", lambda: yds.Document(rows))
        table = dict(zip(yds.Job._fields, zip(*rows)))
        self.refused(TypeError, r"^jobs\[500\]\.deadline: 4\.5 is neither", lambda: yds.Document.from_pandas(table))
        rows[500] = ("j500", 0, 4, Fraction(1, 2))
        self.refused(ValueError, r"^jobs\[500\]\.work: Fraction\(1, 2\) isn't whole", lambda: yds.Document(rows))

    def test_names(self) -> None:
        for name in (7, None, b"a", ("a",)):
            self.refused(TypeError, r"^jobs\[0\]\.name: a name is a string", lambda: yds.Document([(name, 0, 4, 1)]))
        jobs = [("a", 0, 4, 1), ("b c", 0, 4, 1)]
        self.refused(ValueError, r"^jobs\[1\]\.name: 'b c' is no name", lambda: yds.Document(jobs))
        slots = [("a", 0, 4, 1), (1, 0, 4, 1)]
        self.refused(TypeError, r"^slots\[1\]\.job: a name is a string", lambda: yds.Document(slots=slots))
        judged = yds.Document(jobs[:1])
        self.refused(TypeError, r"^slots\[1\]\.job: a name", lambda: yds.schedule.judge(judged, slots))

    def test_how_many_fields(self) -> None:
        for row in (("a", 0, 4), ("a", 0, 4, 1, 1), ()):
            message = rf"^jobs\[0\] has {len(row)} fields, and a row has 4: name, release, deadline, work$"
            self.refused(ValueError, message, lambda: yds.Document([row]))
        self.refused(ValueError, r"^points\[1\] has 3 fields", lambda: yds.Document(points=[(0, 0), (1, 2, 3)]))
        self.refused(ValueError, r"^slots\[0\] has 3 fields", lambda: yds.Document(slots=[("a", 0, 1)]))
        self.refused(ValueError, r"^levels\[0\] has 2 fields", lambda: yds.Document(levels=[(1, 2)]))
        self.refused(ValueError, r"^tasks\[0\] has 4 fields", lambda: yds.expand([("a", 0, 4, 4)], horizon=8))
        self.refused(ValueError, r"^jobs\[0\] has 3 ", lambda: yds.Document.from_decimal([("a", 0, 1)], denominator=1))

    def test_what_is_no_row(self) -> None:
        for rows in ({"name": ["a"]}, {("a", 0, 4, 8)}, frozenset([("a", 0, 4, 8)])):
            self.refused(TypeError, r"^jobs is a list of rows, and not .*from_pandas takes", lambda: yds.Document(rows))
        for rows in (["abcd"], [7], [None], [{"a", 0, 4, 8}], [{"a": 1, "b": 2, "c": 3, "d": 4}]):
            self.refused(TypeError, r"^jobs\[0\] is a row of name, release, deadline, work", lambda: yds.Document(rows))
        self.refused(TypeError, r"^jobs is a list of rows, and not 7", lambda: yds.Document(7))
        self.refused(TypeError, r"^points is a list of rows, and not 7", lambda: yds.Document(points=7))
        self.assertEqual(yds.Document([["a", 0, 4, 8]]).text, b"job a 0 4 8\n")
        self.assertEqual(yds.Document([iter(["a", 0, 4, 8])]).text, b"job a 0 4 8\n")

    def test_levels(self) -> None:
        levels = [yds.Level(4, 4, (yds.Piece(0, 4),), ("a",))]

        def given(level: Any) -> Callable[[], object]:
            return lambda: yds.Document(levels=[*levels, level])

        self.refused(TypeError, r"^levels\[1\]\.length: 0\.5 is neither", given(yds.Level(1, 0.5)))
        self.refused(TypeError, r"^levels\[1\]\.pieces\[0\]\.end: 4\.5", given(yds.Level(1, 4, ((0, 4.5),))))
        self.refused(ValueError, r"^levels\[1\]\.pieces\[0\] has 1 fields", given(yds.Level(1, 4, ((0,),))))
        self.refused(TypeError, r"^levels\[1\]\.members\[1\]\.name: a name", given(yds.Level(1, 4, (), ("a", 1))))

    def test_advice_leads_somewhere(self) -> None:
        """from_decimal is told only where it takes the number: not of points, tasks and slots that are judged."""
        jobs = [("a", 0, 4.5, 1)]
        self.refused(TypeError, r"from_decimal\(\.\., denominator", lambda: yds.Document(jobs))
        self.refused(TypeError, r"from_decimal\(\.\., denominator", lambda: yds.Document(slots=jobs))
        for message, call in (
            (r"^points\[0\]\.power: 0\.5 .* Speeds and powers are whole", lambda: yds.Document(points=[(0, 0.5)])),
            (
                r"^points\[0\]\.power: 0\.5 .* Speeds and powers are whole",
                lambda: yds.Document.from_decimal([], [(0, 0.5)], denominator=10),
            ),
            (
                r"^slots\[0\]\.end: 4\.5 .* yds\.schedule\.near finds an exact schedule near one of decimals",
                lambda: yds.schedule.judge(yds.Document([("a", 0, 5, 1)]), jobs),
            ),
            (r"^tasks\[0\]\.work: 0\.5 .*count in finer units$", lambda: yds.expand([("a", 0, 4, 4, 0.5)], horizon=8)),
        ):
            with self.subTest(message), self.assertRaisesRegex(TypeError, message) as raised:
                call()
            self.assertNotIn("from_decimal", str(raised.exception))

    def test_decimals(self) -> None:
        def given(*row: Any, **named: Any) -> Callable[[], object]:
            return lambda: yds.Document.from_decimal([("z", 0, 1, 1), ("a", *row)], denominator=10, **named)

        self.refused(ValueError, r"^jobs\[1\]\.deadline: nan is no number|NaN", given(0, float("nan"), 1))
        self.refused(ValueError, r"^jobs\[1\]\.work: '1/0' is no number", given(0, 4, "1/0"))
        self.refused(ValueError, r"^jobs\[1\]\.work: 0\.04 is a work above 0", given(0, 4, 0.04))
        self.refused(ValueError, r"^jobs\[1\]\.release: -1 is below 0", given(-1, 4, 1))
        self.refused(ValueError, r"^slots\[0\]\.end: ", given(0, 4, 1, slots=[("a", 0, "x", 1)]))


class Numbers(unittest.TestCase):
    """What is no number, or not exact, is refused wherever a number stands."""

    def test_truth_values(self) -> None:
        document = yds.Document(THREE, [(0, 0), (9, 9)])
        for call in (
            lambda: yds.Document([("a", False, 4, 8)]),
            lambda: yds.Document(points=[(0, True)]),
            lambda: yds.Document(slots=[("a", 0, 4, True)]),
            lambda: yds.Document(levels=[yds.Level(True, 4)]),
            lambda: yds.expand([("a", 0, 4, 4, True)], horizon=8),
            lambda: yds.expand([("a", 0, 4, 4, 1)], horizon=True),
            lambda: document.avr(True),
            lambda: document.oa(True),
            lambda: document.compare(True),
            lambda: document.admit(True),
            lambda: yds.trial(0, True),
            lambda: yds.trial(False, 1),
            lambda: document.curve().above(True),
            lambda: yds.Slot("a", 0, 1, True).speed,
            lambda: yds.schedule.judge(document, [("a", 0, True, 1)]),
        ):
            with self.assertRaisesRegex(TypeError, "is a truth value, and no number|is a whole number, and .* is none"):
                call()

    def test_floats(self) -> None:
        curve = yds.Document(THREE).curve()
        for speed in (0.1, float("nan"), float("inf"), Decimal("0.1"), "1"):
            with self.assertRaisesRegex(TypeError, r"is neither an int nor a Fraction.*as in Fraction\('0.1'\)$"):
                curve.above(speed)  # type: ignore[arg-type]
        self.assertEqual(curve.above(Fraction("0.1")), Fraction(84, 5))
        for slot in (("a", 0, 1, 0.1), ("a", 0.5, 1, 1), ("a", 0, 1.0, 1)):
            with self.assertRaisesRegex(TypeError, "is neither an int nor a Fraction"):
                yds.Slot(*slot).speed  # type: ignore[arg-type]
        for call in (yds.Document(THREE).avr, yds.Document(THREE).oa, yds.Document(THREE).admit):
            with self.assertRaisesRegex(TypeError, "is a whole number, and 2.0 is none"):
                call(2.0)  # type: ignore[arg-type]
            with self.assertRaisesRegex(ValueError, r"is a whole number, and not Fraction\(1, 2\)"):
                call(Fraction(1, 2))  # type: ignore[arg-type]
            self.assertEqual(call(Fraction(6)), call(6))  # type: ignore[arg-type]

    def test_integers_of_other_packages(self) -> None:
        class Index:
            def __index__(self) -> int:
                return 4

        self.assertEqual(yds.Document([("a", 0, Index(), 8)], [(0, Index())]).text, b"job a 0 4 8\npoint 0 4\n")
        try:
            import numpy
        except ImportError:
            self.skipTest("numpy isn't here")
        for kind in (numpy.int8, numpy.int64, numpy.uint16):
            self.assertEqual(yds.Document([("a", 0, kind(4), kind(8))]).text, b"job a 0 4 8\n")
        for value in (numpy.float64(4), numpy.bool_(True), numpy.float32(4)):
            with self.assertRaises(TypeError):
                yds.Document([("a", 0, value, 8)])

    def test_points_of_an_audit(self) -> None:
        document = yds.Document([("a", 0, 4, 8)], [(0, 0), (2, 9)], [("a", 0, 4, 8)])
        self.assertTrue(document.audit(points=True))
        for points in ("yes", "", 1, 0, None, [(0, 0)]):
            with self.assertRaisesRegex(TypeError, "points is True or False, and not"):
                document.audit(points=points)  # type: ignore[arg-type]
            with self.assertRaisesRegex(TypeError, "points is True or False, and not"):
                yds.schedule.judge(document, [("a", 0, 4, 8)], points=points)  # type: ignore[arg-type]


class Refusals(unittest.TestCase):
    def test_a_fault_has_its_place(self) -> None:
        with self.assertRaises(yds.Refused) as raised:
            yds.Document([("a", 0, 4, 8), ("b", 4, 4, 1)]).plan()
        fault = raised.exception
        self.assertEqual(
            (fault.line, fault.column, fault.reason, fault.text), (2, 9, "EmptyWindow", b"refused 2 9 EmptyWindow\n")
        )
        self.assertEqual(
            str(fault),
            "line 2, column 9: EmptyWindow, in 'job b 4 4 1' (jobs[1].deadline: it must be after the release)",
        )
        self.assertEqual((fault.table, fault.index, fault.field), ("jobs", 1, "deadline"))
        self.assertIsInstance(fault, ValueError)
        again = pickle.loads(pickle.dumps(fault))
        self.assertEqual((str(again), again.line, again.index), (str(fault), 2, 1))

    def test_a_fault_names_its_row_and_the_rule(self) -> None:
        """Of rows the place in the list that was given, of a text the place among the rows of a table."""
        many = [(f"j{place}", 0, 4, 1) for place in range(4001)]
        level = yds.Level(4, 4, (yds.Piece(0, 2), yds.Piece(2, 10**10)), ("a",))
        other = yds.Level(4, 4, (yds.Piece(0, 4),), ("a", "b"))
        one, two = [("a", 0, 4, 8)], [("a", 0, 4, 8), ("b", 0, 4, 8)]
        for document, told in (
            (yds.Document([("a", -1, 4, 8)]), "jobs[0].release: a number has no sign, no leading zero"),
            (yds.Document([*one, ("b", 0, 10**10, 8)]), "jobs[1].deadline: a time is at most 1,000,000,000"),
            (yds.Document([*one, ("b", 0, 4, 1_000_001)]), "jobs[1].work: a work is at most 1,000,000"),
            (yds.Document([*one, *one]), "jobs[1].name: another has this name"),
            (yds.Document(many), "jobs[4000]: a document has at most 4,000 jobs"),
            (yds.Document(one, [(1, 1)]), "points[0].speed: the first point has the speed 0"),
            (yds.Document(one, [(0, 0), (2, 1), (2, 3)]), "points[2].speed: each point is faster than the one before"),
            (yds.Document(one, [(0, 0), (4001, 1)]), "points[1].speed: a point's speed is at most 4,000"),
            (yds.Document(one, (), [*one, ("c", 0, 1, 1)]), "slots[1].job: no job of this name stands before"),
            (
                yds.Document(two, (), [*one, ("b", 0, Fraction(1, 2**60 + 1), 1)]),
                "slots[1].end: a time is at most 1,000,000,000, and the denominator of a fraction at most 2^60 = ",
            ),
            (yds.Document(two, (), (), [other, level]), "levels[1].pieces[1].end: a time is at most 1,000,000,000"),
            (yds.Document(one, (), (), [level._replace(pieces=()), other]), "levels[1].members[1].name: no job of"),
            (yds.Document(one, (), (), [yds.Level(0, 4)]), "levels[0].work: the work of a level is from 1 to"),
            (yds.Document.from_text(b"# two\njob a 0 4 8\n\n job  b 0 4\n"), "jobs[1]: the line has more or fewer"),
            (yds.Document.from_text(b"job a 0 4 8\nslot a 0 1 1\nticks 1\nrun a 0 1 01\n"), "slots[1].speed: a number"),
            (yds.Document.from_text(b"grid 1 0\ngrid 1 0\n"), "grid: this line has to stand before"),
            (yds.Document.from_text(b"piece 0 4\n"), "pieces[0]: this line has to stand before"),
        ):
            with self.subTest(told), self.assertRaises(yds.Refused) as raised:
                document.audit()
            self.assertIn(f" ({told}", str(raised.exception))
        with self.assertRaisesRegex(yds.Refused, r"\(tasks\[1\]\.period: a period is from 1 to 1,000,000,000\)"):
            yds.expand([("s", 0, 4, 4, 1), ("t", 0, 0, 4, 1)], horizon=8)
        with self.assertRaisesRegex(yds.Refused, r"\(tasks\[0\]\.period: all tasks together have at most 4,000 jobs"):
            yds.expand([("s", 0, 1, 1, 1)], horizon=4001)
        with self.assertRaisesRegex(yds.Refused, r"\(horizon: a horizon is from 1 to 1,000,000,000\)"):
            yds.expand([], horizon=0)
        with self.assertRaisesRegex(yds.Refused, r"line 1, column 1: UnknownKind, in 'x'$") as raised:
            yds.Document.from_text("x").plan()
        self.assertEqual((raised.exception.table, raised.exception.index, raised.exception.field), (None, None, None))

    def test_limits_are_those_that_are_told(self) -> None:
        """What is told as the greatest number is taken, and one more isn't."""
        for text, greatest, told in (
            ("job a 0 {} 1", 10**9, "1,000,000,000"),
            ("job a 0 4 {}", 10**6, "1,000,000"),
            ("point 0 0\npoint {} 1", 4000, "4,000"),
            ("point 0 {}", 10**6, "1,000,000"),
            ("job a 0 4 1\nslot a 0 {} 1", 10**9, "1,000,000,000"),
            ("job a 0 4 1\nslot a 0 0+1/{} 1", 2**60, "2^60 = 1,152,921,504,606,846,976"),
            ("job a 0 4 1\nslot a 0 1 {}", 10**12, "10^12"),
            ("job a 0 4 1\nticks 1\nrun a 0 1 {}", 10**6, "1,000,000"),
            ("level {} 1", 4 * 10**9, "4,000,000,000"),
            ("level 1 {}", 10**9, "1,000,000,000"),
            ("level 1 1\npiece 0 {}", 10**9, "1,000,000,000"),
            ("ticks {}", 10**9, "1,000,000,000"),
            ("grid {} 0", 10**6, "1,000,000"),
            ("grid 1 {}", 10**6, "1,000,000"),
            ("energy {}", 10**18, "10^18"),
        ):
            with self.subTest(text):
                yds.Document.from_text(text.format(greatest)).audit()
                with self.assertRaisesRegex(yds.Refused, f": OutOfRange, .*{re.escape(told)}"):
                    yds.Document.from_text(text.format(greatest + 1)).audit()
        for field, greatest in ((1, 10**9), (2, 10**9), (3, 10**9), (4, 10**6)):
            for number in (greatest, greatest + 1):
                task = ["s", 0, 4, 4, 1]
                task[field] = number
                if number == greatest:
                    yds.expand([task], horizon=4)
                    continue
                with self.assertRaisesRegex(yds.Refused, f": OutOfRange, .*{greatest:,}"):
                    yds.expand([task], horizon=4)

    def test_every_reason_has_its_rule(self) -> None:
        """Those that docs/format.md names, but for a word that begins no line: there its own text says enough."""
        page = (stored.ROOT / "docs" / "format.md").read_text(encoding="utf-8")
        reasons = set(re.findall(r"^\| `([A-Z][A-Za-z]+)` \|", page, re.MULTILINE)) - {"UnknownKind"}
        self.assertGreater(len(reasons), 12)
        for reason in reasons:
            with self.subTest(reason):
                place = _places.Place("jobs", 0, None, "work")
                self.assertTrue(_places.rule(reason, place))

    def test_every_stored_refusal_has_its_place(self) -> None:
        """The row at a place, read anew from the text, is the line that is told."""
        for row in stored.rows():
            if row.wanted.status is yds.Status.REFUSED and row.wanted.text.count(b" ") == 3:
                with self.subTest(row.name):
                    fault = yds.Refused(row.wanted.text, row.document)
                    lines = row.document.split(b"\n")
                    kind = lines[fault.line - 1].split()[0]
                    tables = {b"job": "jobs", b"point": "points", b"slot": "slots", b"run": "slots", b"task": "tasks"}
                    if kind not in tables:
                        continue
                    self.assertEqual(fault.table, tables[kind])
                    kinds = [other for other, table in tables.items() if table == fault.table]
                    places = [
                        place for place, line in enumerate(lines, 1) if line.split()[:1] and line.split()[0] in kinds
                    ]
                    self.assertEqual(places[fault.index], fault.line)

    def test_fields_of_a_faulty_text(self) -> None:
        document = yds.Document.from_text(b"jobs a 0 4 8\n")
        with self.assertRaisesRegex(yds.Refused, "line 1, column 1: UnknownKind, in 'jobs a 0 4 8'"):
            document.jobs

    def test_the_whole_input(self) -> None:
        with self.assertRaises(yds.Refused) as raised:
            yds.Document([("a", 0, 4, 8)]).round()
        self.assertEqual((raised.exception.line, raised.exception.reason), (None, "no-table"))
        with self.assertRaisesRegex(yds.Refused, "more than 8,388,608 bytes"):
            yds.Document.from_text(b"#" * 8388609).plan()
        self.assertEqual(yds.Document.from_text(b"#" * 8388608).plan().text, b"")

    def test_a_negative_number_is_the_librarys_to_refuse(self) -> None:
        with self.assertRaisesRegex(yds.Refused, "BadNumber"):
            yds.Document([("a", -1, 4, 8)]).plan()
        with self.assertRaisesRegex(yds.Refused, "BadNumber"):
            yds.Document([("a", 0, 4, 8)], slots=[("a", Fraction(-1, 2), 4, 8)]).audit()

    def test_usage(self) -> None:
        with self.assertRaisesRegex(yds.UsageError, "'avr --grid 0' isn't a command; a grid is from 1 to 1,000,000$"):
            yds.Document().avr(0)
        with self.assertRaisesRegex(yds.UsageError, "'admit 0' isn't a command; a top speed is from 1 to 1,000,000$"):
            yds.Document().admit(0)
        with self.assertRaisesRegex(yds.UsageError, "a seed is from 0 to 4,294,967,295, and a trial has at most 1,000"):
            yds.trial(1 << 32, 2)
        self.assertRegex(str(yds.UsageError(["x"])), "is a number out of its range")
        for call in (lambda: yds.Document().admit(1000001), lambda: yds.trial(-1, 2), lambda: yds.trial(0, 1001)):
            with self.assertRaises(yds.UsageError) as raised:
                call()
            self.assertEqual(str(pickle.loads(pickle.dumps(raised.exception))), str(raised.exception))
        with self.assertRaises(TypeError):
            yds.Document().avr(1.5)  # type: ignore[arg-type]


if __name__ == "__main__":
    unittest.main()
