"""What matplotlib drew of each picture: it is asked how many bars there are and where, and where its texts stand.

With 10, 300 and 4,000 jobs, 12 tasks, and names of 15 characters.
"""

import os
import random
import subprocess
import sys
import unittest
from fractions import Fraction
from io import BytesIO
from pathlib import Path
from tempfile import TemporaryDirectory
from typing import Any, Dict, List, Tuple
from unittest import mock
from xml.etree import ElementTree

import simulated

try:
    from matplotlib import colors
    from matplotlib.figure import Figure
    from matplotlib.text import Text
except ImportError as fault:
    raise unittest.SkipTest("matplotlib isn't here") from fault

from yds import pictures
from yds._framed import Choice
from yds._gantt import gantt as gantt_values
from yds._speeds import speed as speed_values
from yds._text import Rows, lines_of
from yds.jobs import table
from yds.results import Curve
from yds.tables import read_energies

NEEDS = ("matplotlib",)
ROOT = Path(__file__).resolve().parents[2]
JOBS = (10, 300, 4000)
SVG = "{http://www.w3.org/2000/svg}"
HOSTILE = ["$x_{1}^2$", "a<b>&amp;", "`touch${IFS}x`", "_hidden", "%d%s\\alpha", "__", "'\"]]>"]
UNITS = pictures.Units(Fraction(1, 10**5), Fraction(10**7), Fraction(1, 1000))


def rows(text: str) -> Rows:
    return Rows(lines_of(BytesIO(text.encode("latin-1"))))


def parts(patch: Any) -> List[Tuple[float, float, float, float]]:
    """Left, right, lower and upper edge of each part of a patch of boxes."""
    vertices = patch.get_path().vertices
    corners = [vertices[place : place + 4] for place in range(0, len(vertices), 5)]
    return [(box[0][0], box[1][0], box[0][1], box[2][1]) for box in corners]


def of_colour(axes: Any, colour: str) -> List[Tuple[float, float, float, float]]:
    found = [patch for patch in axes.patches if colors.to_hex(patch.get_facecolor()) == colour]
    return [box for patch in found for box in parts(patch)]


def marked(axes: Any, name: str) -> List[Tuple[float, float]]:
    lines = [line for line in axes.lines if line.get_gid() == name]
    return [(float(x), float(y)) for line in lines for x, y in zip(*line.get_data())]


def texts(figure: Any) -> List[Text]:
    figure.canvas.draw()
    found = [text for text in figure.findobj(Text) if text.get_visible() and text.get_text().strip()]
    ticks = set()
    for axes in figure.findobj(lambda one: hasattr(one, "get_xticklabels")):
        for axis in (axes.xaxis, axes.yaxis):
            low, high = sorted(axis.get_view_interval())
            for tick in [*axis.get_major_ticks(), *axis.get_minor_ticks()]:
                if not low - 1e-9 * abs(low) <= tick.get_loc() <= high + 1e-9 * abs(high):
                    ticks.update((tick.label1, tick.label2))
    return [text for text in found if text not in ticks]


class Case(unittest.TestCase):
    def assert_in_order(self, axes: Any) -> None:
        """No text is beyond the edges, and no two lie on each other; each is written as it is."""
        figure = axes.figure
        wide, high = figure.get_size_inches() * figure.dpi
        boxes = [(text, text.get_window_extent()) for text in texts(figure)]
        for text, box in boxes:
            self.assertTrue(-0.5 <= box.x0 and box.x1 <= wide + 0.5, (text.get_text(), box, wide))
            self.assertTrue(-0.5 <= box.y0 and box.y1 <= high + 0.5, (text.get_text(), box, high))
            if any(sign.isalpha() or sign == "$" for sign in text.get_text()):
                self.assertFalse(text.get_parse_math(), text.get_text())
        for place, (text, box) in enumerate(boxes):
            for other, beside in boxes[:place]:
                across = min(box.x1, beside.x1) - max(box.x0, beside.x0)
                along = min(box.y1, beside.y1) - max(box.y0, beside.y0)
                self.assertFalse(across > 0.5 and along > 0.5, (text.get_text(), other.get_text(), across, along))

    def assert_key(self, axes: Any, wanted: List[str]) -> None:
        legends = axes.figure.legends or [axes.get_legend()]
        self.assertEqual([text.get_text() for text in legends[0].get_texts()], wanted)


class Gantts(Case):
    def test_a_bar_for_each_run_or_share(self) -> None:
        for jobs in JOBS:
            for group in (None, "task") if jobs < 200 else ("task",):
                document = pictures.timeline(rows(simulated.document(jobs, others=True)))
                values = gantt_values(document, Choice(group=group))
                axes = pictures.gantt(document, group=group)
                bars = axes.collections[0]
                self.assertEqual(len(bars.get_paths()), len(values.runs) + len(values.shares))
                for path, bar in zip(bars.get_paths(), [*values.shares, *values.runs]):
                    box = path.get_extents()
                    self.assertAlmostEqual(box.x0, bar.start)
                    self.assertAlmostEqual(box.x1, bar.end)
                    self.assertAlmostEqual(box.y0, bar.row - 0.27 * bar.part)
                    self.assertAlmostEqual(box.y1, bar.row + 0.27 * bar.part)
                self.assertEqual(list(bars.get_array()), [bar.speed for bar in [*values.shares, *values.runs]])
                self.assertEqual(tuple(bars.get_clim()), (410.0, 1420.0))
                self.assertEqual([label.get_text() for label in axes.get_yticklabels()], values.rows)
                self.assertEqual(tuple(axes.get_xlim()), values.frame.x)
                self.assertEqual(len(of_colour(axes, "#e9e9e9")), len(values.windows))
                self.assertEqual(len(of_colour(axes, "#f5a623")), len(values.overruns))
                self.assertEqual(len(of_colour(axes, "#8c8c8c")), len(values.others))
                strokes = [one for one in axes.collections if one.get_gid() == "deadlines"]
                self.assertEqual(sum(len(one.get_segments()) for one in strokes), len(values.deadlines))
                self.assertEqual(marked(axes, "misses"), [(mark.time, mark.row - 0.44) for mark in values.misses])
                self.assert_key(axes, [key.text for key in values.frame.key])
                self.assert_in_order(axes)

    def test_parts_of_the_time(self) -> None:
        document = pictures.timeline(rows(simulated.document(300, others=True)))
        for start, end in ((0, 400), (6500, 9000), (15000, 15700), (22000, 27000)):
            for group in ("job", "task"):
                axes = pictures.gantt(document, start=start, end=end, group=group)
                low, high = axes.get_xlim()
                for path in axes.collections[0].get_paths():
                    box = path.get_extents()
                    self.assertTrue(low - 1e-9 <= box.x0 < box.x1 <= high + 1e-9)
                self.assert_in_order(axes)

    def test_names_of_others_stand_in_their_bands(self) -> None:
        document = pictures.timeline(rows(simulated.document(300, others=True)))
        axes = pictures.gantt(document, start=0, end=4000)
        named = [text for text in axes.texts if text.get_text().startswith(("kworker", "Web", "rcu"))]
        self.assertTrue(named)
        axes.figure.canvas.draw()
        for text in named:
            box = text.get_window_extent().transformed(axes.transData.inverted())
            self.assertTrue(any(left <= box.x0 and box.x1 <= right for left, right, _, _ in of_colour(axes, "#8c8c8c")))

    def test_who_was_left_out(self) -> None:
        told = "# left out: a.1 (ran on another processor), 2.000 ms after its deadline; window 500 1000\n# left out: a.2 (its begin isn't in the trace)\n"
        axes = pictures.gantt(rows(simulated.document(10) + told))
        self.assertEqual(marked(axes, "crosses-True"), [(5.0, 10.0)])
        self.assertEqual(marked(axes, "crosses-False"), [])
        self.assertEqual([label.get_text() for label in axes.get_yticklabels()][-1], "left out")
        self.assert_in_order(axes)

    def test_200_rows(self) -> None:
        axes = pictures.gantt(rows(simulated.document(200)), group="job")
        self.assertEqual(len(axes.get_yticklabels()), 200)
        self.assert_in_order(axes)


class Speeds(Case):
    def test_one_document(self) -> None:
        for jobs in JOBS:
            for tasks in (3, 12, 30):
                document = pictures.timeline(rows(simulated.document(jobs, tasks)))
                values = speed_values([document], ["one"], Choice())
                axes = pictures.speed(document)
                for colour, boxes in values.boxes:
                    found = of_colour(axes, colour)
                    self.assertEqual(len(found), len(boxes))
                    for drawn, box in zip(found, boxes):
                        self.assertEqual([round(float(one), 6) for one in drawn], [round(one, 6) for one in box])
                lines = [one for one in axes.collections if hasattr(one, "get_segments")]
                self.assertEqual(sum(len(one.get_segments()) for one in lines), len(values.greatest))
                self.assertEqual(tuple(axes.get_xlim()), values.frame.x)
                self.assertEqual(tuple(axes.get_ylim()), values.frame.y)
                self.assert_key(axes, [key.text for key in values.frame.key])
                self.assert_in_order(axes)

    def test_several_documents(self) -> None:
        documents = [simulated.document(300, 12, seed) for seed in range(1, 8)]
        axes = pictures.speed([rows(text) for text in documents], names=simulated.names(7))
        self.assertEqual(len(axes.lines) - 5, 7)
        self.assert_key(axes, simulated.names(7))
        self.assert_in_order(axes)


class Slacks(Case):
    def test_a_dot_for_each_job(self) -> None:
        for jobs in JOBS:
            found = table(rows(simulated.document(jobs))).rows
            axes = pictures.slack(found, units=UNITS)
            dots = [line for line in axes.lines if line.get_marker() == "o" and line.get_gid() is None]
            self.assertEqual(sum(len(line.get_xdata()) for line in dots), jobs)
            places = {(round(x, 6), round(y, 6)) for line in dots for x, y in zip(*line.get_data())}
            factor = 1e-5 if axes.get_xlabel() == "release (s)" else 0.01
            wanted = {
                (round(float(row.release or 0) * factor, 6), round(float(row.slack or 0) * 0.01, 6)) for row in found
            }
            self.assertEqual(places, wanted)
            self.assert_in_order(axes)

    def test_a_job_that_is_very_late(self) -> None:
        found = table(rows(simulated.document(300))).rows
        greatest = max(row.slack for row in found if row.slack is not None)
        for factor in (3, 10, 100, 3000):
            late = found[40]._replace(slack=-greatest * factor)
            axes = pictures.slack([*found, late], units=UNITS)
            self.assertEqual(axes.get_yscale(), "symlog")
            place = axes.transData.transform([(0, 0), (0, float(greatest) / 100)])
            self.assertGreater(place[1][1] - place[0][1], axes.bbox.height * 0.2, factor)
            self.assertLessEqual(axes.get_ylim()[0], float(late.slack or 0) * 0.01)
            self.assert_in_order(axes)


class Amounts(Case):
    def curve(self, breaks: List[Tuple[int, int]]) -> Curve:
        return Curve.read("".join(f"break {speed} {work}\n" for speed, work in breaks).encode())

    def test_curves(self) -> None:
        draw = random.Random(2)
        for count in (1, 2, 10, 300, 4000):
            speeds = sorted({draw.randrange(1, 10**5) for _ in range(count)})
            breaks = (
                [(0, 9 * 10**6)] + [(speed, 7 * (10**6 - 10 * speed)) for speed in speeds[:-1]] + [(speeds[-1], 0)]
            )
            for points in ([(0, 0), (41, 1), (60, 1), (82, 1), (speeds[-1] + 10, 2)], [], [(0, 0), (10**6, 5)]):
                axes = pictures.curve(self.curve(breaks), points=points)
                self.assertEqual(list(zip(*axes.lines[0].get_data())), breaks if max(speeds) < 10**7 else [])
                self.assertEqual(marked(axes, "breaks"), breaks)
                self.assertGreaterEqual(axes.get_xlim()[1], speeds[-1])
                self.assert_in_order(axes)

    def test_near_breaks(self) -> None:
        for breaks in (
            [(0, 200), (762, 1), (763, 0)],
            [(0, 15400), (300, 900), (310, 850), (312, 820), (762, 20), (763, 0)],
        ):
            axes = pictures.curve(self.curve(breaks), points=[(0, 0), (310, 5), (320, 6), (800, 99)])
            told = [text.get_text() for text in axes.texts]
            self.assertTrue(all(str(speed) in told for speed, _ in breaks[1:]), told)
            self.assert_in_order(axes)

    def sides(self, count: int, misses: int = 0) -> List[pictures.Side]:
        draw = random.Random(count)
        found = []
        for name in ["plan", *simulated.names(count)[1:]]:
            times = {speed: Fraction(draw.randrange(4000)) for speed in (0, 41, 60, 142)}
            energy = sum(power * times[speed] for speed, power in ((0, 1), (41, 28), (60, 41), (142, 179)))
            found.append(pictures.Side(name, Fraction(energy), times, misses * (name != "plan")))
        return found

    def test_energies(self) -> None:
        points = [(0, 1), (41, 28), (60, 41), (142, 179)]
        for count in (1, 3, 12):
            for size in (None, (900, 500), (640, 440)):
                for given in (points, []):
                    sides = self.sides(count, 212)
                    axes = pictures.energy(sides, points=given, size=size, units=UNITS if size else pictures.Units())
                    axes.figure.canvas.draw()
                    boxes = [box for patch in axes.patches if given for box in parts(patch)]
                    scale = float(
                        1e-5 if axes.get_ylabel() == "energy (mJ)" else 1 if "(power" in axes.get_ylabel() else 1e-6
                    )
                    for place, side in enumerate(sides):
                        tops = [box[3] for box in boxes if box[0] < place + 1 < box[1]]
                        tops = tops or [axes.patches[place].get_height()]
                        self.assertAlmostEqual(max(tops) / (float(side.energy or 0) * scale), 1.0)
                    self.assert_in_order(axes)

    def test_too_slow_and_no_sides_energy(self) -> None:
        axes = pictures.energy([pictures.Side("plan", Fraction(3)), pictures.Side("avr")])
        self.assertIn("too slow", [text.get_text() for text in axes.texts])
        self.assert_in_order(axes)

    def test_ratios(self) -> None:
        names = simulated.names(10)
        draw = random.Random(4)
        text = "\t".join(["document", "plan", "avr", "oa", *names, "rounded", "answer"]) + "\n"
        for place in range(300):
            text += (
                "\t".join([f"d{place}", "1000", *(str(1000 + draw.randrange(900)) for _ in range(12)), "0", "ok"])
                + "\n"
            )
        axes = pictures.ratios(read_energies(lines_of(BytesIO(text.encode()))))
        self.assertEqual(len(axes.lines), 12)
        for line in axes.lines:
            self.assertEqual((line.get_xdata()[0], line.get_ydata()[-1], len(line.get_xdata())), (1.0, 100.0, 602))
        self.assert_key(axes, ["avr", "oa", *names])
        self.assert_in_order(axes)


class Names(Case):
    def document(self) -> str:
        jobs = "".join(f"job {name} {place} {place + 30} 9\n" for place, name in enumerate(HOSTILE))
        slots = "".join(f"slot {name} {9 * place} {9 * place + 5} 9\n" for place, name in enumerate(HOSTILE))
        return jobs + slots

    def test_no_sign_of_a_name_is_a_formula_or_runs(self) -> None:
        text = self.document()
        for axes in (pictures.gantt(rows(text)), pictures.speed(rows(text), title="$a_b$ <i>Größe µ</i> \x1b[31m\x07")):
            self.assert_in_order(axes)
            root = ElementTree.fromstring(pictures.svg(axes, "a-"))
            told = [one.text for one in root.iter(SVG + "text")]
            for name in HOSTILE:
                self.assertIn(name, told)
        self.assertIn("$a_b$ <i>Größe µ</i> ?[31m?", told)

    def test_on_axes_that_were_made_elsewhere(self) -> None:
        axes = Figure().subplots()
        self.assertIs(pictures.gantt(rows(self.document()), axes), axes)
        axes.figure.canvas.draw()
        labels = axes.get_yticklabels()
        self.assertEqual([label.get_text() for label in labels], HOSTILE)
        self.assertTrue(all(not label.get_parse_math() for label in labels))
        self.assert_key(axes, ["window", "late", "deadline", "missed deadline"])

    def test_each_kind_on_given_axes(self) -> None:
        document = pictures.timeline(rows(simulated.document(300)))
        figure = Figure(figsize=(12, 20))
        places = figure.subplots(6)
        found = table(rows(simulated.document(300))).rows
        ratios = read_energies(lines_of(BytesIO(b"document\tplan\tavr\tanswer\na\t1\t2\tok\n")))
        self.assertIs(pictures.gantt(document, places[0]), places[0])
        self.assertIs(pictures.speed([document], places[1]), places[1])
        self.assertIs(pictures.slack(found, places[2]), places[2])
        self.assertIs(pictures.curve(Curve.read(b"break 0 9\nbreak 3 0\n"), places[3], color="red"), places[3])
        self.assertIs(pictures.energy([pictures.Side("plan", Fraction(3))], places[4]), places[4])
        self.assertIs(pictures.ratios(ratios, places[5]), places[5])
        self.assertTrue(all(one.get_label().endswith(".") for one in places))
        self.assertEqual(places[3].lines[0].get_color(), "red")

    def test_the_picture_in_words(self) -> None:
        axes = pictures.gantt(rows(simulated.document(10)))
        told = axes.get_label()
        self.assertTrue(told.startswith("Who runs when, by job. time (ms) from 0 to "), told)
        self.assertIn("10 rows: ", told)
        text = pictures.svg(axes, "one-", "A title")
        root = ElementTree.fromstring(text)
        self.assertEqual([one.text for one in root.iter(SVG + "title")], ["A title"])
        self.assertEqual([one.text for one in root.iter(SVG + "desc")], [told])

    def test_two_pictures_in_a_page_share_no_id(self) -> None:
        found: Dict[str, int] = {}
        axes = [pictures.gantt(rows(simulated.document(10))), pictures.speed(rows(simulated.document(10)))]
        for place, one in enumerate([*axes, axes[0]]):
            text = pictures.svg(one, f"p{place}-")
            root = ElementTree.fromstring(text)
            ids = [element.get("id") for element in root.iter() if element.get("id")]
            self.assertEqual(len(ids), len(set(ids)))
            for element in root.iter():
                for value in element.attrib.values():
                    for used in [value[1:]] if value.startswith("#p") else []:
                        self.assertIn(used, ids)
            for name in ids:
                found[str(name)] = found.get(str(name), 0) + 1
            self.assertNotIn("<style", text)
        self.assertEqual(set(found.values()), {1})


class Files(unittest.TestCase):
    def setUp(self) -> None:
        folder = TemporaryDirectory()
        self.addCleanup(folder.cleanup)
        self.path = Path(folder.name) / "document.txt"
        self.path.write_text(simulated.document(300, others=True))

    def plotted(self, *words: object, **environment: str) -> bytes:
        command = [sys.executable, "-m", "yds.commands.plot", *map(str, words)]
        given = {**os.environ, "PYTHONPATH": str(ROOT / "python"), **environment}
        done = subprocess.run(command, stdout=subprocess.PIPE, stderr=subprocess.PIPE, env=given)
        self.assertEqual((done.returncode, done.stderr), (0, b""))
        return done.stdout

    def test_two_runs_write_the_same_bytes(self) -> None:
        for form, begin in (("svg", b"<svg"), ("png", b"\x89PNG\r\n"), ("pdf", b"%PDF-")):
            for kind in ("gantt", "speed"):
                one = self.plotted(kind, "-t", form, self.path, PYTHONHASHSEED="1")
                other = self.plotted(kind, "-t", form, self.path, PYTHONHASHSEED="2", LC_ALL="C", TZ="Asia/Tokyo")
                self.assertEqual(one, other)
                self.assertTrue(one.startswith(begin), one[:20])

    def test_no_style_of_the_users_changes_a_picture(self) -> None:
        style = self.path.parent / "matplotlibrc"
        style.write_text(
            "axes.facecolor: black\nfont.size: 30\ntext.usetex: True\nsvg.fonttype: path\naxes.grid: True\n"
        )
        for kind in ("gantt", "speed"):
            self.assertEqual(self.plotted(kind, self.path), self.plotted(kind, self.path, MATPLOTLIBRC=str(style)))

    def test_titles_in_any_locale(self) -> None:
        for locale in ("C", "POSIX", "C.UTF-8", "de_DE.UTF-8", "tr_TR.UTF-8"):
            drawn = self.plotted("speed", "-T", "Größe µ", "-s", "700x300", self.path, LC_ALL=locale)
            told = [one.text for one in ElementTree.fromstring(drawn.decode("utf-8")).iter(SVG + "text")]
            self.assertIn("Größe µ", told, locale)
            self.assertIn("1420", told)

    def test_output_and_its_ending(self) -> None:
        out = self.path.parent / "picture.PNG"
        self.assertEqual(self.plotted("gantt", "-o", out, self.path), b"")
        self.assertEqual(out.read_bytes()[1:4], b"PNG")

    def test_pictures_are_small(self) -> None:
        self.path.write_text(simulated.document(4000))
        for kind in ("gantt", "speed"):
            self.assertLess(len(self.plotted(kind, self.path)), 1_000_000)
            self.assertLess(len(self.plotted(kind, "-t", "png", self.path)), 100_000)

    def test_no_figure_stays_with_pyplot(self) -> None:
        with mock.patch.dict("sys.modules", {"matplotlib.pyplot": None}):
            pictures.svg(pictures.gantt(rows(simulated.document(10))), "a-")


if __name__ == "__main__":
    unittest.main()
