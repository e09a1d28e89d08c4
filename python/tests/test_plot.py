"""What yds-plot draws, as values, and its words; no picture is drawn here, so matplotlib isn't needed.

Expected values are counted by hand from the documents that are written here.
"""

import io
import os
import random
import subprocess
import sys
import unittest
from fractions import Fraction
from pathlib import Path
from tempfile import TemporaryDirectory
from typing import Any, Optional

import simulated
from called import EXPECTED, ROOT, SAMPLES, broken, call

from yds._bars import bars, read_energies
from yds._excess import excess, place_labels, point_rows, read_breaks
from yds._framed import COLOURS, Choice, Range
from yds._gantt import Gantt, gantt
from yds._pixels import Columns, Stretch, as_many_as_fit, shares, text_width, wrapped
from yds._ratios import ratios
from yds._scales import Units, energy_scale, span_told, speed_scale, time_scale, units_of
from yds._slacks import read_slacks, slacks
from yds._speeds import Speed, speed
from yds._svg import standing_alone
from yds._text import Fault, Rows, lines_of
from yds._timeline import Timeline, timeline
from yds.tables import read_energies as read_table

BAD = SAMPLES / "bad"
POINTS = (EXPECTED / "points.txt").read_text()
# A trace of 190 ms with a miss of 0.9 ms, a job that never ran, one that got too little.
DOCUMENT = (
    POINTS
    + """# time unit 10 us, speed unit 10000 kHz, work unit 100 cycles
job render.0 0 1000 6000
job render.1 1000 2000 14200
job render.2 2000 3000 6001
job audio.0 0 19000 41000
job audio.1 500 1500 1
job render.5 5000 6000 23400
ticks 1
run render.0 0 100 60
run render.1 1000 1100 142
run audio.0 1200 2200 41
run render.2 2500 2600 60
run render.5 5700 6090 60
"""
)


def rows(text: str) -> Rows:
    return Rows(lines_of(io.BytesIO(text.encode("utf-8"))))


def read(text: str, units: Optional[Units] = None) -> Timeline:
    return timeline(rows(text), units)


def drawn_gantt(text: str, width: float = 960, part: Optional[Range] = None, group: Optional[str] = None) -> Gantt:
    return gantt(read(text), Choice(width, False, part, group))


def drawn_speed(text: str, width: float = 960, part: Optional[Range] = None) -> Speed:
    return speed([read(text)], ["document"], Choice(width, False, part))


class Scales(unittest.TestCase):
    def test_the_word_that_suits_the_greatest_number(self) -> None:
        units = Units(Fraction(1, 10**5), Fraction(10**7), Fraction(1, 1000))
        self.assertEqual(
            [time_scale(units, n).label for n in (1, 99, 100, 99999, 10**5)],
            ["time (µs)"] * 2 + ["time (ms)"] * 2 + ["time (s)"],
        )
        self.assertEqual(speed_scale(units, 142)[:2], (10.0, "MHz"))
        self.assertEqual(speed_scale(units, 1000)[:2], (0.01, "GHz"))
        self.assertEqual(energy_scale(units, 197746).told(197746.8), "1.98 mJ")
        self.assertEqual(span_told(units, Fraction(90)), "900 µs")
        self.assertEqual(span_told(Units(), Fraction(169)), "169")

    def test_without_units_great_numbers_are_told_in_millions(self) -> None:
        self.assertEqual(energy_scale(Units(), 1.8e9), (1e-9, "", "energy (in 10⁹ power × time)"))
        self.assertEqual(energy_scale(Units(), 9_999_999).label, "energy (power × time)")
        self.assertEqual(time_scale(Units(), 12_000_000).label, "time (in 10⁶ units)")

    def test_words_of_units(self) -> None:
        self.assertEqual(units_of("1ms,1MHz,10uW"), Units(Fraction(1, 1000), Fraction(10**6), Fraction(1, 10**5)))
        self.assertEqual(units_of("10us"), Units(Fraction(1, 10**5)))
        for wrong in ("1", "1ms,1ms", "0s", "1ms,1MHz,1W,1s", "-1s", "1e3s"):
            with self.assertRaisesRegex(ValueError, "isn't TIME,SPEED,POWER as 10us,10MHz,1mW"):
                units_of(wrong)

    def test_texts_fit(self) -> None:
        names = [f"render-{place}" for place in range(300)]
        for width in (50, 200, 900):
            told = as_many_as_fit(names, width, 11)
            self.assertTrue(text_width(told, 11) <= width or told.startswith("render-0 and"))
            self.assertEqual(int(told.split(" and ")[1].split()[0]) + told.count("render"), 300)
        found = wrapped("one two " + "x" * 300, 100, 11)
        self.assertTrue(all(text_width(line, 11) <= 100 for line in found))
        self.assertTrue(found[-1].endswith(".."))


class Shares(unittest.TestCase):
    def test_no_time_and_no_work_is_lost(self) -> None:
        draw = random.Random(5)
        for _ in range(200):
            first, number = draw.uniform(-5, 5), draw.randrange(1, 40)
            columns = Columns(first, first + draw.uniform(0.5, 50), number)
            stretches = []
            for _ in range(draw.randrange(1, 30)):
                start = draw.uniform(columns.first, columns.end)
                stretches.append(
                    Stretch(draw.randrange(3), start, draw.uniform(start, columns.end), draw.randrange(1, 9))
                )
            found = shares(stretches, columns)
            for row in range(3):
                time = sum(one.end - one.start for one in stretches if one.row == row)
                work = sum((one.end - one.start) * one.speed for one in stretches if one.row == row)
                own = [one for one in found if one.row == row]
                self.assertAlmostEqual(sum(one.part for one in own) * columns.step, time)
                self.assertAlmostEqual(sum(one.part * one.speed for one in own) * columns.step, work)


class Gantts(unittest.TestCase):
    def test_who_was_late_and_who_was_not_done(self) -> None:
        picture = drawn_gantt(DOCUMENT)
        self.assertEqual(picture.rows, ["render.0", "render.1", "render.2", "audio.0", "audio.1", "render.5"])
        self.assertEqual(list(picture.frame.notes), ["not done: render.2, audio.1", "late: render.5 by 900 µs"])
        self.assertEqual(picture.ends, ["", "", "not done", "", "not done", "late"])
        self.assertEqual([(mark.row, mark.time) for mark in picture.misses], [(2, 30.0), (4, 15.0), (5, 60.0)])
        self.assertEqual([(one.row, one.start, one.end) for one in picture.overruns], [(5, 60.0, 60.9)])
        self.assertEqual(picture.frame.x, (0.0, 190.0))
        self.assertEqual(picture.frame.x_label, "time (ms)")
        self.assertEqual([key.text for key in picture.frame.key], ["window", "late", "deadline", "missed deadline"])

    def test_a_bar_for_each_run_at_its_place_and_speed(self) -> None:
        picture = drawn_gantt(DOCUMENT)
        wanted = [
            (0, 0.0, 1.0, 600),
            (1, 10.0, 11.0, 1420),
            (3, 12.0, 22.0, 410),
            (2, 25.0, 26.0, 600),
            (5, 57.0, 60.9, 600),
        ]
        self.assertEqual([(bar.row, bar.start, round(bar.end, 9), bar.speed) for bar in picture.runs], wanted)
        self.assertEqual(picture.shares, [])
        windows = [(one.row, one.start, one.end) for one in picture.windows]
        self.assertEqual(windows, [(0, 0, 10), (1, 10, 20), (2, 20, 30), (3, 0, 190), (4, 5, 15), (5, 50, 60)])
        self.assertEqual(
            [(mark.row, mark.time) for mark in picture.deadlines],
            [(0, 10), (1, 20), (2, 30), (3, 190), (4, 15), (5, 60)],
        )

    def test_a_speed_has_one_colour_whatever_part_is_drawn(self) -> None:
        whole, part = drawn_gantt(DOCUMENT), drawn_gantt(DOCUMENT, part=Range(0, 500))
        self.assertEqual((whole.speeds, part.speeds), ((410, 1420), (410, 1420)))
        self.assertEqual(part.rows, ["render.0", "audio.0"])
        self.assertEqual(list(part.frame.notes), [])
        self.assertEqual([(bar.start, bar.end) for bar in part.runs], [(0, 1)])

    def test_rows_by_task(self) -> None:
        picture = drawn_gantt(DOCUMENT, group="task")
        self.assertEqual((picture.rows, picture.ends), (["render", "audio"], ["2 missed", "1 not done"]))
        windows = [(one.row, one.start, one.end) for one in picture.windows]
        self.assertEqual(windows, [(0, 0, 30), (0, 50, 60), (1, 0, 190)])

    def test_jobs_that_were_left_out(self) -> None:
        told = (
            "# left out: render.3 (ran on another processor), 25.000 ms after its deadline\n# left out: render.4 (ran on another processor)\n"
            "# left out: render.6 (not ended)\n# left out: 3 runs within one tick\n"
            "# left out: audio.2 (ran on another processor), not ended 10.000 ms after its deadline; window 12000 13000\n"
        )
        picture = drawn_gantt(DOCUMENT + told)
        self.assertEqual(picture.rows[-1], "left out")
        notes = list(picture.frame.notes)[2:]
        self.assertEqual(
            notes,
            [
                "left out of the document: 4 jobs, 3 of unknown time",
                "late of these: render.3 by 25 ms, audio.2 by at least 10 ms",
            ],
        )
        self.assertEqual([(mark.row, mark.time) for mark in picture.crosses], [(6, 120.0)])
        self.assertEqual([(one.start, one.end) for one in picture.windows if one.row == 6], [(120, 130)])

    def test_no_cross_without_a_time_wherever_the_picture_goes(self) -> None:
        told = "# left out: render.3 (its begin isn't in the trace)\n# left out: 356 jobs of t0 (ran on another processor), the first t0.3, the last t0.621\n"
        for part in (None, Range(0, 2000), Range(5000, 6000)):
            picture = drawn_gantt(DOCUMENT + told, part=part)
            self.assertEqual((picture.crosses, "left out" in picture.rows), ([], False))
            self.assertIn("left out of the document: 357 jobs, 357 of unknown time", picture.frame.notes)

    def test_what_the_user_cut_off_is_no_news(self) -> None:
        told = "".join(
            f"# left out: render.{9 + n} (before from); window {-140000 + n} {-139000 + n}\n" for n in range(500)
        )
        told += "# left out: render.600 (after to)\n# left out: 70 jobs of audio (before from), the first audio.1, the last audio.70\n"
        self.assertEqual(drawn_gantt(DOCUMENT + told), drawn_gantt(DOCUMENT))

    def test_a_window_beyond_the_document_moves_no_axis(self) -> None:
        told = "# left out: render.9 (ran on another processor); window -140000 -130000\n"
        picture = drawn_gantt(DOCUMENT + told)
        self.assertEqual(picture.frame.x, (0.0, 190.0))
        self.assertIn("left out of the document: 1 job, 1 beyond this time", picture.frame.notes)

    def test_comments_tell_of_lateness(self) -> None:
        told = "# late by less than a unit of time: render.0, 0.004 ms after its deadline\n# not ended: render.1, 0.004 ms after its deadline\n"
        notes = drawn_gantt(DOCUMENT + told).frame.notes
        self.assertEqual(
            list(notes), ["not done: render.1, render.2, audio.1", "late: render.5 by 900 µs, render.0 by 4 µs"]
        )
        ends = drawn_gantt(DOCUMENT + "# ends: render.5 6500\n# ends: audio.0 2300\n").frame.notes
        self.assertIn("late: render.5 by 5 ms", ends)

    def test_late_without_their_runs(self) -> None:
        told = (
            "job render.3 3000 4000 1\n# late, without its runs: render.3 (ran on another processor), 25.000 ms after its deadline; window 3000 4000\n"
            "job audio.2 12000 13000 1\n# late, without its runs: audio.2 (ran on another processor), not ended 10.000 ms after its deadline; window 12000 13000\n"
            "job render.7 0 9000 1\n# late, without its runs: render.7 (its begin isn't in the trace), at least 2.000 ms after its deadline\n"
        )
        picture = drawn_gantt(DOCUMENT + told)
        wanted = [
            "not done: render.2, audio.1, audio.2",
            "late: render.3 by 25 ms, render.7 by at least 2 ms, render.5 by 900 µs",
        ]
        self.assertEqual(list(picture.frame.notes), wanted)
        self.assertEqual(len(picture.misses), 6)
        row = picture.rows.index("render.7")
        self.assertEqual([one for one in picture.windows if one.row == row], [])
        self.assertNotIn("left out", picture.rows)

    def test_who_else_ran(self) -> None:
        told = "# other Web Content-419 2700 5000\n# other kworker/0:1-38 100 105\n# other a b-7 100 99\n# other x-8 6200 6600\n"
        picture = drawn_gantt(DOCUMENT + told)
        self.assertEqual(picture.rows[-1], "others")
        self.assertEqual(
            [(name, bar.start, bar.end) for bar, name in picture.others if name],
            [("Web Content-419", 27, 50), ("x-8", 62, 66)],
        )
        narrow = [bar for bar, name in picture.others if not name]
        self.assertEqual(len(narrow), 1)
        self.assertTrue(narrow[0].start <= 1.0 <= narrow[0].end and 0.16 <= narrow[0].part < 1)
        self.assertIn("others: Web Content-419 for 23 ms, x-8 for 4 ms, kworker/0:1-38 for 50 µs", picture.frame.hints)
        self.assertEqual([key.text for key in picture.frame.key][-1], "others ran")
        self.assertNotIn("others", drawn_gantt(DOCUMENT).rows)

    def test_the_form_goes_by_width_and_not_by_number(self) -> None:
        for jobs in (10, 300, 4000):
            text = simulated.document(jobs)
            count = text.count("\nrun ")
            for part in (None, Range(0, 3000)):
                picture = drawn_gantt(text, part=part, group="task")
                runs = read(text).runs
                units = 1e5 if picture.frame.x_label == "time (s)" else 100
                first, end = part or (picture.frame.x[0] * units, picture.frame.x[1] * units)
                pixel = (end - first) / int(960 - picture.frame.left - picture.frame.right)
                seen = [
                    (max(run.start, first), min(run.end, end)) for run in runs if run.end > first and run.start < end
                ]
                wide = [one for one in seen if one[1] - one[0] >= pixel * (1 - 1e-9)]
                self.assertEqual(len(picture.runs), len(wide), (jobs, count))
                self.assertEqual(bool(picture.shares), len(seen) > len(wide))
                self.assertLessEqual(len(picture.shares), 5000)
                for bar in [*picture.runs, *picture.shares]:
                    self.assertTrue(picture.frame.x[0] <= bar.start < bar.end <= picture.frame.x[1] * (1 + 1e-12))
                self.assertEqual(len(picture.rows), min(jobs, 12) if part is None else len(picture.rows))

    def test_too_many_rows(self) -> None:
        with self.assertRaisesRegex(Fault, "300 rows are more than 200; try --group task"):
            drawn_gantt(simulated.document(300), group="job")


class Speeds(unittest.TestCase):
    def test_a_box_for_each_run(self) -> None:
        picture = drawn_speed(DOCUMENT)
        self.assertEqual([key.text for key in picture.frame.key], ["render", "audio"])
        boxes = [(colour, [(box.start, box.end, box.above) for box in found]) for colour, found in picture.boxes]
        wanted = [(0, 1, 600), (10, 11, 1420), (25, 26, 600), (57, 60.9, 600)]
        self.assertEqual(
            [(c, [(a, round(b, 9), h) for a, b, h in found]) for c, found in boxes],
            [(COLOURS[0], wanted), (COLOURS[1], [(12, 22, 410)])],
        )
        self.assertEqual([level.text for level in picture.levels], ["410", "600", "820", "1010", "1200", "1420"])
        self.assertEqual(picture.greatest, [])

    def test_the_area_is_the_work(self) -> None:
        """Where columns of pixels are drawn as a whole, each shows its mean: so no work is lost."""
        for jobs in (10, 300, 4000):
            text = simulated.document(jobs)
            picture = drawn_speed(text)
            area = sum((box.end - box.start) * (box.above - box.below) for _, found in picture.boxes for box in found)
            work = sum((run.end - run.start) * run.speed for run in read(text).runs)
            self.assertAlmostEqual(
                area / (work / 100 * 10 if picture.frame.x_label == "time (ms)" else work / 1e5 * 10), 1.0, 9
            )
            self.assertEqual(len(picture.frame.key) - bool(picture.greatest), min(jobs, 12))
            top = max(
                [box.above for _, found in picture.boxes for box in found] + [one.above for one in picture.greatest]
            )
            self.assertAlmostEqual(top, max(run.speed for run in read(text).runs) * 10)

    def test_many_runs_make_few_boxes(self) -> None:
        """60,000 runs of one unit each, one in two units of time, by two tasks in turn, at a speed of 20."""
        head = "point 0 0\npoint 20 5\npoint 40 99\n" + "".join(
            f"job {'ab'[k % 2]}.{k} {k * 200} {k * 200 + 200} 2000\n" for k in range(600)
        )
        text = (
            head
            + "ticks 1\n"
            + "".join(f"run {'ab'[i // 100 % 2]}.{i // 100} {2 * i} {2 * i + 1} 20\n" for i in range(60000))
        )
        picture = drawn_speed(text)
        boxes = [box for _, found in picture.boxes for box in found]
        self.assertLess(len(boxes), 900)
        self.assertAlmostEqual(sum((box.end - box.start) * (box.above - box.below) for box in boxes), 1_200_000, 3)
        self.assertEqual({one.above for one in picture.greatest}, {20.0})
        found = drawn_gantt(text)
        self.assertLessEqual(len(found.shares), 5000)
        for row in (0, 1):
            self.assertTrue(all(0.16 <= bar.part <= 0.6 for bar in found.shares if bar.row == row))

    def test_more_tasks_than_colours_have_a_key(self) -> None:
        text = simulated.document(300, 30)
        picture = drawn_speed(text)
        keys = [key.text for key in picture.frame.key if key.look == "box"]
        self.assertEqual((len(keys), keys[-1]), (25, "6 more"))
        twelve = [key for key in drawn_speed(simulated.document(300)).frame.key if key.look == "box"]
        self.assertEqual((len(twelve), len({key.colour for key in twelve})), (12, 12))

    def test_several_documents(self) -> None:
        plan = "job a 0 400 800\nlevel 800 400\nslot a 0 400 800\n"
        online = "job a 0 400 800\nslot a 0 100 300\nslot a 200 400 500\n"
        trace = "point 0 0\npoint 3 9\njob a 0 400 800\nticks 1\nrun a 0 200 4\n"
        picture = speed([read(plan), read(trace), read(online)], ["plan", "governor", "oa"], Choice(500))
        self.assertEqual([line.name for line in picture.lines], ["governor", "oa", "plan"])
        self.assertEqual([line.is_area for line in picture.lines], [True, False, False])
        self.assertEqual([key.text for key in picture.frame.key], ["plan", "governor", "oa"])
        oa = picture.lines[1]
        self.assertEqual(oa.times, [0, 0, 100, 100, 200, 200, 400, 400, 400])
        self.assertEqual(oa.speeds, [0, 3, 3, 0, 0, 2.5, 2.5, 0, 0])

    def test_a_plan_below_the_least_point_is_told(self) -> None:
        plan = "point 0 0\npoint 41 9\njob a 0 400 800\nlevel 800 400\nslot a 0 400 800\n"
        picture = speed([read(plan), read(plan)], ["plan", "b"], Choice(500))
        self.assertIn(
            "plan runs below the least point, 41: the answer of `yds_cli round` is a schedule on the points",
            picture.frame.notes,
        )

    def test_units_of_the_first_file_are_those_of_all(self) -> None:
        """The program drops comments, so an answer has none."""
        picture = speed([read(DOCUMENT), read("job a 0 400 800\nslot a 0 400 800\n")], ["a", "b"], Choice())
        self.assertEqual((picture.frame.x_label, picture.frame.y_label), ("time (ms)", "speed (MHz)"))


class Amounts(unittest.TestCase):
    TABLE = """job,release,deadline,begin,end,response,slack,late,energy
decode.0,0,1000,0,400,400,600,0,10
"a,""b.0",500,1500,500,700,200,800,0,10
decode.1,1000,2000,1000,2150,1150,-150,150,10
decode.2,2000,3000,2000,3020,1020,-20,20,10
decode.3,3000,4000,inf,inf,inf,-inf,inf,0
decode.4 (left out: ran on another processor),4000,5000,,6500,2500,-1500,1500,
decode.5 (left out: not ended),5000,6000,,,,,,
"""

    def table(self, text: str) -> Any:
        return read_slacks(lines_of(io.BytesIO(text.encode())))

    def test_slack(self) -> None:
        picture = slacks(self.table(self.TABLE), units_of("10us,10MHz,1mW"), Choice())
        self.assertEqual((picture.frame.x_label, picture.frame.y_label), ("release (ms)", "slack (ms)"))
        self.assertEqual([dots.name for dots in picture.dots], ["decode", 'a,"b'])
        self.assertEqual(picture.dots[0].places, [(0, 6), (10, -1.5), (20, -0.2), (40, -15)])
        self.assertEqual((picture.undone, picture.rings), ([30], [(40, -15)]))
        wanted = [
            "late: decode.4 by 15 ms, decode.1 by 1.5 ms, decode.2 by 200 µs",
            "not done: decode.3",
            "1 job of unknown slack, not drawn",
        ]
        self.assertEqual(list(picture.frame.notes), wanted)
        self.assertIsNone(picture.linear)

    def test_one_job_that_is_very_late_flattens_nothing(self) -> None:
        table = self.table(self.TABLE + "decode.6,6000,7000,6000,19500,13500,-12500,12500,1\n")
        picture = slacks(table, units_of("10us"), Choice())
        self.assertEqual(picture.linear, 8.0)
        self.assertEqual(list(picture.frame.hints), ["below -8 ms the axis is logarithmic"])
        self.assertTrue(picture.frame.y[0] <= -125 and picture.frame.y[1] >= 8)

    def test_more_than_5000_jobs(self) -> None:
        head = self.TABLE.split("\n")[0]
        text = "\n".join([head, *(f"t.{n},{n},9,,,,{n % 7},," for n in range(6000))])
        picture = slacks(self.table(text), Units(), Choice())
        self.assertLess(len(picture.dots[0].places), 900)
        self.assertEqual({slack for _, slack in picture.dots[0].places}, {0.0})

    def test_a_curve_with_its_labels(self) -> None:
        near = "point 0 0\npoint 31 5\npoint 32 6\npoint 80 99\nbreak 0 15400\nbreak 30+1/2 900\nbreak 31 850\nbreak 31+1/5 820\nbreak 76+1/5 20\nbreak 76+3/10 0\n"
        told = read_breaks(rows(near))
        picture = excess(told.breaks, told.points, told.units)
        self.assertEqual(picture.labels, ["", "30.5", "31", "31.2", "76.2", "76.3"])
        labels = [one for one in place_labels(picture, 576, 320) if one]
        self.assertEqual(len(labels), 5)
        for one in labels:
            for other in labels:
                self.assertFalse(one is not other and one.label.touches(other.label, 13))
        self.assertEqual(point_rows(picture, 576)[0:2], [1, 2])

    def test_a_curve_of_many_breaks_names_the_last(self) -> None:
        breaks = [(Fraction(3 * n), Fraction((200 - n) ** 2)) for n in range(201)]
        picture = excess(breaks, [], Units())
        labels = [one for one in place_labels(picture, 576, 320) if one]
        self.assertEqual(labels[-1].label.text, "600")
        self.assertLess(len(labels), 60)

    def test_the_points_are_in_the_picture_of_a_low_curve(self) -> None:
        breaks = [(Fraction(0), Fraction(100)), (Fraction(20), Fraction(0))]
        self.assertEqual([text for _, text in excess(breaks, [0, 41, 60], Units()).points], ["41"])
        far = excess(breaks, [0, 410, 600], Units())
        self.assertEqual((far.points, far.beyond), ([], "the least point is 410 →"))

    def test_energies_by_point(self) -> None:
        text = "point 0 0\npoint 10 20\nplan energy 60\nplan time 0 7\nplan time 10 3\nslow energy 80\nslow time 0 6\nslow time 10 4\n# slow misses 3 deadlines, the first a.0\n"
        picture = bars(read_energies(rows(text)))
        self.assertEqual(picture.names, ["plan", "slow\nmisses 3 deadlines"])
        self.assertEqual(picture.heights, [60, 80])
        self.assertEqual([[tuple(part) for part in parts] for _, parts in picture.parts], [[(0, 0, 60), (1, 0, 80)]])
        self.assertEqual(picture.labels, [("60", ""), ("80", "+33.3 %")])
        self.assertIn("the plan runs at the least point alone, 10: it is enough at all times", picture.frame.notes)

    def test_points_of_another_device(self) -> None:
        for points in ("point 0 0\npoint 10 30\n", "point 0 0\npoint 11 20\n", "point 0 1\npoint 10 20\n"):
            with self.assertRaisesRegex(
                Fault, "the energy of plan isn't power times time on these points; give the points with"
            ):
                bars(read_energies(rows(points + "plan energy 60\nplan time 0 7\nplan time 10 3\n")))

    def test_energies_without_points_or_units(self) -> None:
        picture = bars(
            read_energies(
                rows(
                    "plan energy 1800000000\navr too-slow units 10 from 1 to 2 top 1\n# 3 jobs were left out of the document, with their energy\n"
                )
            )
        )
        self.assertEqual((picture.heights, picture.parts), ([1.8, None], []))
        self.assertEqual(picture.labels, [("1.8", ""), ("too slow", "")])
        self.assertEqual(list(picture.frame.notes), ["3 jobs were left out of the document, with their energy"])

    def test_ratios(self) -> None:
        table = "document\tplan\tavr\toa\town\trounded\tanswer\na\t3\t-\t4\t5\t0\tok\nb\t3\t4\t4.5\t-\t0\tok\n"
        picture = ratios(read_table(lines_of(io.BytesIO(table.encode()))))
        self.assertEqual([side.name for side in picture.sides], ["avr (1 too slow)", "oa", "own (1 without)"])
        oa = picture.sides[1]
        self.assertEqual([round(x, 9) for x in oa.ratios[:5]], [1, 1.333333333, 1.333333333, 1.5, 1.5])
        self.assertEqual(oa.shares, [0, 0, 50, 50, 100, 100])


class Samples(unittest.TestCase):
    """The samples of the manual, as they were drawn before."""

    BOTH = POINTS + (EXPECTED / "document.txt").read_text()
    LATE = (EXPECTED / "document-late.txt").read_text()

    def test_speed(self) -> None:
        picture = drawn_speed(self.BOTH, 9600)
        self.assertEqual((picture.frame.x_label, picture.frame.y_label), ("time (ms)", "speed (MHz)"))
        self.assertEqual([key.text for key in picture.frame.key], ["audio", "decode"])
        self.assertEqual(len(picture.boxes[0][1]), self.BOTH.count("\nrun audio"))
        self.assertEqual(sum(len(boxes) for _, boxes in picture.boxes), self.BOTH.count("\nrun "))

    def test_gantt(self) -> None:
        picture = drawn_gantt(self.LATE)
        self.assertEqual((len(picture.windows), len(picture.overruns), len(picture.deadlines)), (8, 1, 8))
        part = drawn_gantt(self.LATE, part=Range(3000, 5400))
        self.assertEqual((part.rows, part.ends), (["decode.1", "audio.3", "decode.2", "audio.4"], ["", "", "late", ""]))

    def test_curve(self) -> None:
        told = read_breaks(rows(self.BOTH + (EXPECTED / "curve.txt").read_text()))
        picture = excess(told.breaks, told.points, told.units)
        self.assertEqual(picture.frame.y_label, "least work above it (Mcycles)")
        self.assertEqual(picture.labels, ["", "481", "589", "620"])

    def test_energy(self) -> None:
        answers = "".join((EXPECTED / name).read_text() for name in ("compare-governor.txt", "energy.txt"))
        picture = bars(read_energies(rows(self.BOTH + answers)))
        self.assertEqual(picture.labels[0], ("1.98 mJ", ""))
        self.assertEqual((picture.names[3], picture.labels[3]), ("governor", ("2.69 mJ", "+36.1 %")))
        self.assertEqual(
            [key.text for key in picture.frame.key], ["410 MHz", "600 MHz", "820 MHz", "1010 MHz", "1420 MHz"]
        )

    def test_ratios(self) -> None:
        picture = ratios(read_table(lines_of(io.BytesIO((EXPECTED / "folder.tsv").read_bytes()))))
        self.assertEqual([side.name for side in picture.sides], ["avr", "oa"])
        self.assertEqual(picture.frame.title, "Energy beside the plan's, 3 documents")

    def test_names_of_no_tasks(self) -> None:
        text = "".join(f"job j{j} {j} {j + 9} 1\nslot j{j} {j} {j + 1} 1\n" for j in range(1, 14))
        picture = drawn_gantt(text)
        self.assertEqual((len(picture.rows), picture.rows[-1]), (13, "j13"))

    def test_units_of_words_and_none(self) -> None:
        text = "job a 0 2000 9000\nslot a 0 2000 9000\n"
        picture = speed([read(text, units_of("1ms,1kHz"))], [""], Choice())
        self.assertEqual((picture.frame.x_label, picture.frame.y_label), ("time (s)", "speed (kHz)"))
        thirds = speed([read(text, units_of("1/3ms,1kHz"))], [""], Choice()).frame
        self.assertEqual((thirds.x_label, round(thirds.x[1], 6)), ("time (ms)", 666.666667))
        own = (ROOT / "examples" / "own-slots.txt").read_text()
        picture = drawn_speed(own)
        self.assertEqual(
            (picture.frame.x_label, picture.frame.y_label), ("time (units)", "speed (work per unit of time)")
        )

    def test_a_side_that_misses_deadlines_by_way_of_the_other_commands(self) -> None:
        """The trace is late, and the point 10 isn't for that."""
        with TemporaryDirectory() as folder:
            path = Path(folder) / "late.txt"
            path.write_text("point 0 0\npoint 1 1\npoint 10 100\njob a 0 10 10\nticks 1\nrun a 5 15 1\n")
            told = "plan energy 10\n" + call("energy", "--name", "governor", path).out
            told += call("energy", "--name", "flat-out", "--at", "10", path).out
            names = [name for name in bars(read_energies(rows(told))).names if "misses" in name]
            self.assertEqual(names, ["governor\nmisses 1 deadline"])
            both = Path(folder) / "both.txt"
            both.write_text(told)
            picture = ratios(read_table(lines_of(io.BytesIO(call("collect", both).out.encode()))))
            self.assertEqual([side.name for side in picture.sides][2:], ["governor (1 without)", "flat-out"])


class Words(unittest.TestCase):
    def setUp(self) -> None:
        folder = TemporaryDirectory()
        self.addCleanup(folder.cleanup)
        self.folder = Path(folder.name)

    def file(self, text: str, name: str = "document.txt") -> Path:
        path = self.folder / name
        path.write_text(text, encoding="utf-8")
        return path

    def refused(self, told: str, *words: object, status: int = 1) -> None:
        found = call("plot", *words)
        self.assertEqual((found.status, found.out, found.err), (status, "", f"yds-plot: {told}\n"))

    def test_words(self) -> None:
        path = self.file(DOCUMENT)
        see = "; see yds-plot --help"
        kinds = "speed, gantt, slack, curve, energy, ratios"
        self.refused(f"bars is no kind of picture; the first word is one of {kinds}{see}", "bars", status=2)
        self.refused(
            f"only speed draws several files; yds-join puts points, jobs and traces together{see}",
            "gantt",
            path,
            path,
            status=2,
        )
        self.refused(f"--form jpg: the forms are svg, png, pdf, text{see}", "gantt", "-t", "jpg", path, status=2)
        self.refused(
            f"--size 9 isn't WIDTHxHEIGHT as 960x400, each at most 20000{see}", "gantt", "-s", "9", path, status=2
        )
        self.refused(
            f"--size 20001x9 isn't WIDTHxHEIGHT as 960x400, each at most 20000{see}",
            "gantt",
            "-s",
            "20001x9",
            path,
            status=2,
        )
        self.refused(
            f"--range 9:9 isn't FROM:TO in the document's units of time{see}", "gantt", "-r", "9:9", path, status=2
        )
        self.refused(f"--group jobs: there are job and task{see}", "gantt", "-g", "jobs", path, status=2)
        self.refused(
            f"--units 1s,1s isn't TIME,SPEED,POWER as 10us,10MHz,1mW{see}", "gantt", "-u", "1s,1s", path, status=2
        )
        self.refused(
            f"x.gif ends with .gif: the forms are svg, png, pdf, text{see}", "gantt", "-o", "x.gif", path, status=2
        )
        found = call("plot")
        self.assertEqual(found.status, 2)
        self.assertIn("the first word is the kind of picture", found.err)

    def test_text_for_a_terminal(self) -> None:
        found = call("plot", "gantt", self.file(DOCUMENT), "--form", "text", "--title", "Größe µ")
        self.assertEqual((found.status, found.err), (0, ""))
        told = found.out.encode("latin-1").decode().split("\n")
        self.assertEqual(told[0], "Größe µ")
        self.assertTrue(any(line.startswith("render.5 |") and line.endswith(" late") and "!" in line for line in told))
        for kind, text in (
            ("speed", DOCUMENT),
            ("slack", Amounts.TABLE),
            ("curve", "break 0 9\nbreak 3 0\n"),
            ("energy", "plan energy 3\n"),
        ):
            found = call("plot", kind, "-t", "text", "-s", "80x24", self.file(text))
            self.assertEqual((found.status, found.err), (0, ""))
            self.assertTrue(all(len(line) <= 130 for line in found.out.split("\n")))
        found = call(
            "plot",
            "energy",
            "-t",
            "text",
            self.file("plan energy 3\nslower energy 1\n# slower misses 3 deadlines, x\n"),
        )
        self.assertIn("slower, misses 3 deadlines |", found.out)
        found = call("plot", "gantt", "-t", "text", EXPECTED / "document-late.txt")
        self.assertRegex(found.out, r"decode\.2 .*!.* late")
        found = call("plot", "ratios", "-t", "text", EXPECTED / "folder.tsv")
        self.assertIn("* avr, o oa", found.out)

    def test_signs_say_no_more_than_they_can(self) -> None:
        """Of runs narrower than a sign a row tells no part of the time, and each of twelve tasks has a sign of its own."""
        jobs = [f"job task{place % 12}.{place // 12} {place * 9} {place * 9 + 9} 4" for place in range(1200)]
        runs = [f"run task{place % 12}.{place // 12} {place * 9} {place * 9 + 2} 2" for place in range(1200)]
        path = self.file("\n".join([*jobs, "ticks 1", *runs]) + "\n")
        told = call("plot", "gantt", "-t", "text", path).out.split("\n")
        self.assertIn("a run that is narrower than a sign is drawn as wide as one", told)
        self.assertFalse([line for line in told if "as high as" in line])
        key = call("plot", "speed", "-t", "text", path).out.split("\n")[-2]
        self.assertEqual([entry[2:] for entry in key.split(", ")], [f"task{place}" for place in range(12)])
        self.assertEqual(len({entry[0] for entry in key.split(", ")}), 12)

    def test_two_documents_have_two_names(self) -> None:
        """Files that differ in their endings or folders alone are told apart in the key."""
        for names in (["a.plan", "a.oa"], ["one/a.txt", "two/a.txt"]):
            files = [self.folder / name for name in names]
            for file in files:
                file.parent.mkdir(exist_ok=True)
                file.write_text(DOCUMENT)
            key = call("plot", "speed", "-t", "text", *files).out.split("\n")[-2]
            wanted = names if names[0] == "a.plan" else [str(file) for file in files]
            self.assertEqual([entry[2:] for entry in key.split(", ")], wanted)

    def test_faults_of_the_input(self) -> None:
        path = self.file("job a 0 9 1\nslot a 3 3 1\n")
        self.refused(f"{path}, line 2, column 10: a slot without length", "speed", path)
        path = self.file("job a 0 9 1\n")
        self.refused("no slot; give a trace's document or the answer of plan, round, avr or oa", "speed", path)
        self.refused("no job; is this a document?", "gantt", self.file("# nothing\n"))
        self.refused("no break line; is this the answer of curve?", "curve", path)
        self.refused("no energy line; is this the answer of compare?", "energy", path)
        path = self.file("refused 1 9 EmptyWindow\n")
        for kind in ("speed", "gantt", "curve", "energy"):
            self.refused(f"{path}, line 1: the input is an answer of no: refused 1 9 EmptyWindow", kind, path)
        self.refused(f"{BAD / 'failed.txt'}, line 1: the input is an answer of no: failed", "gantt", BAD / "failed.txt")
        path = self.file("job a 0 9 1\nlate slot 1 a 11 deadline 10\n")
        self.refused(f"{path}, line 2: the input is an answer of no: late slot 1 a 11 deadline 10", "gantt", path)
        path = EXPECTED / "folder.tsv"
        self.refused(
            f"{path}, line 1: no columns job, release and slack; is this the table of yds-jobs with --form csv?",
            "slack",
            path,
        )
        path = self.file(DOCUMENT)
        self.refused("no slot in this range", "gantt", "-r", "200:210", path)
        self.refused(f"{self.folder}/no can't be read: No such file or directory", "gantt", self.folder / "no")
        two = self.file("# speed unit 10000 kHz\njob a 0 9 1\nslot a 0 1 1\n# speed unit 1000 kHz\n")
        for words in ((), ("-u", "10us")):
            self.refused(
                f"{two}, line 4, column 3: a unit of speed of 1000 kHz here and 10000 kHz before; give points and trace the same --khz",
                "gantt",
                two,
                *words,
            )

    def test_output(self) -> None:
        path = self.file(DOCUMENT)
        found = call("plot", "gantt", "-o", self.folder / "picture.txt", path)
        self.assertEqual((found.status, found.out, found.err), (0, "", ""))
        self.assertTrue((self.folder / "picture.txt").read_text().startswith("Who runs when, by job\n"))
        out = self.folder / "no" / "picture.txt"
        self.refused(f"{out} can't be written: No such file or directory", "gantt", "-o", out, path)
        found = call("plot", "gantt", "-t", "text", "-o", "/dev/full", path)
        self.assertEqual(
            (found.status, found.err), (1, "yds-plot: /dev/full can't be written: No space left on device\n")
        )

    def test_names_run_nothing(self) -> None:
        here = os.getcwd()
        self.addCleanup(os.chdir, here)
        os.chdir(self.folder)
        for kind in ("gantt", "speed"):
            found = call("plot", kind, "-t", "text", BAD / "hostile.txt")
            self.assertEqual((found.status, found.err), (0, ""))
            self.assertIn("`touch${IFS}x`", found.out)
        self.assertEqual(list(self.folder.iterdir()), [])

    def test_broken_lines_are_refused(self) -> None:
        """Each field of each line, and its first word: no line is passed over that may be one misspelled."""
        document = ["point 0 0", "point 3 9", "job a 0 400 800", "ticks 1", "run a 0 200 4"]
        curve = ["point 0 0", "break 0 9+1/2", "break 3 0"]
        sides = ["plan energy 3", "plan time 0 4", "oa energy 5+1/3", "oa time 0 4"]
        table = ["document\tplan\tavr\tanswer", "a\t3\t4\tok"]
        csv = ["job,release,deadline,begin,end,response,slack,late,energy", "a.1,5,9,,,,3,,"]
        for kind, lines, apart in (
            ("gantt", document, " "),
            ("curve", curve, " "),
            ("energy", sides, " "),
            ("ratios", table, "\t"),
            ("slack", csv, ","),
        ):
            for place, line in enumerate(lines):
                for wrong in (
                    [*broken(line, 0), "x" + line]
                    if apart == " "
                    else [line + apart, line.rsplit(apart, 1)[0], "\xff" + line]
                ):
                    if wrong.startswith("#") or (wrong in ("", line)):
                        continue
                    found = call(
                        "plot",
                        kind,
                        "-t",
                        "text",
                        self.file("\n".join([*lines[:place], wrong, *lines[place + 1 :]]) + "\n"),
                    )
                    if kind in ("ratios", "slack") and place == 1 and found.status == 0:
                        self.assertTrue(wrong.startswith("\xff"), wrong)
                        continue
                    self.assertEqual(found.status, 1, (kind, wrong, found.out))
                    self.assertEqual(found.err.count("\n"), 1)

    def test_matplotlib_is_loaded_for_a_picture_alone(self) -> None:
        path = self.file(DOCUMENT)
        for words in (["--help"], ["gantt", "-t", "text", str(path)], ["speed", "-t", "text", str(path)]):
            code = f"import sys; from yds.commands.plot import main; main({words!r}); sys.exit('matplotlib' in sys.modules)"
            done = subprocess.run(
                [sys.executable, "-c", code],
                stdout=subprocess.DEVNULL,
                env={**os.environ, "PYTHONPATH": str(ROOT / "python")},
            )
            self.assertEqual(done.returncode, 0, words)

    def test_matplotlib_looks_for_fonts_in_silence(self) -> None:
        """It tells that it does where its first picture takes more than some seconds."""
        said = "import logging\nlogging.getLogger('matplotlib.font_manager').warning('building the font cache')\n"
        with TemporaryDirectory() as folder:
            Path(folder, "looking_for_fonts.py").write_text(said)
            code = "from yds._canvas import loaded; loaded('looking_for_fonts'); import logging; logging.warning('later')"
            path = os.pathsep.join([str(ROOT / "python"), folder])
            done = subprocess.run(
                [sys.executable, "-c", code], capture_output=True, text=True, env={**os.environ, "PYTHONPATH": path}
            )
        self.assertEqual((done.returncode, done.stderr), (0, "WARNING:root:later\n"))

    def test_where_there_is_no_matplotlib(self) -> None:
        code = "import sys; sys.modules['matplotlib'] = sys.modules['matplotlib.figure'] = None; from yds.commands.plot import main; sys.exit(main(sys.argv[1:]))"
        words = [sys.executable, "-c", code, "gantt", str(self.file(DOCUMENT))]
        done = subprocess.run(
            words, capture_output=True, text=True, env={**os.environ, "PYTHONPATH": str(ROOT / "python")}
        )
        self.assertEqual((done.returncode, done.stdout), (1, ""))
        self.assertIn("yds-plot: a picture needs matplotlib (", done.stderr)
        self.assertIn("pip install matplotlib, or on Debian apt-get install python3-matplotlib", done.stderr)


class Pages(unittest.TestCase):
    def test_ids_of_two_pictures_differ(self) -> None:
        text = b"""<svg xmlns="http://www.w3.org/2000/svg" xmlns:xlink="http://www.w3.org/1999/xlink" width="9pt" height="8pt">
<metadata/><defs><style type="text/css">*{stroke-linecap: butt}</style></defs>
<g id="a"><path id="m" d="M 0 0"/><use xlink:href="#m"/><text style="x" clip-path="url(#p1)">id="a" url(#a) &lt;b&gt;</text></g></svg>"""
        found = standing_alone(text, "one-", "A <title>", "Words & more.")
        self.assertIn('id="one-a"', found)
        self.assertIn('xlink:href="#one-m"', found)
        self.assertIn('clip-path="url(#one-p1)"', found)
        self.assertIn('>id="a" url(#a) &lt;b&gt;<', found)
        self.assertIn('<title id="one-title">A &lt;title&gt;</title>', found)
        self.assertIn('<desc id="one-told">Words &amp; more.</desc>', found)
        self.assertNotIn("<style", found)
        self.assertNotIn("metadata", found)
        self.assertIn('width="9"', found)


if __name__ == "__main__":
    unittest.main()
