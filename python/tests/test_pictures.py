"""What a notebook shows, and what is drawn on matplotlib's axes: matplotlib is asked what it drew."""

import random
import subprocess
import sys
import unittest
from fractions import Fraction
from typing import Any, List, Tuple
from unittest import mock
from xml.etree import ElementTree

import yds
from yds import pictures

try:
    import matplotlib

    matplotlib.use("Agg")
    from matplotlib import pyplot
except ImportError:
    matplotlib = None

NEEDS = ("matplotlib", "libyds")
THREE = yds.Document([("a", 0, 12, 4), ("b", 2, 10, 8), ("c", 4, 6, 6)], [(0, 0), (1, 1), (2, 4), (4, 16)])
SVG = "{http://www.w3.org/2000/svg}"


def drawn(count: int) -> yds.Document:
    draw = random.Random(count)
    releases = [draw.randrange(10 * count) for _ in range(count)]
    jobs = [(f"j{i}", start, start + draw.randrange(1, 99), draw.randrange(9)) for i, start in enumerate(releases)]
    return yds.Document(jobs)


def bars(picture: str) -> List[Tuple[str, float, float, float]]:
    """The bars of a picture in SVG: title, left, width and top."""
    found = []
    for bar in ElementTree.fromstring(picture).iter(SVG + "rect"):
        found.append((bar[0].text or "", float(bar.get("x")), float(bar.get("width")), float(bar.get("y"))))  # type: ignore
    return found


def words(picture: str) -> List[str]:
    return [text.text or "" for text in ElementTree.fromstring(picture).iter(SVG + "text")]


class Svg(unittest.TestCase):
    def test_windows_and_slots(self) -> None:
        """12 units of time are 630 wide, from 80 on: a unit is 52.5. Rows are 16 high."""
        picture = THREE.plan()._repr_svg_()
        assert picture is not None
        wanted = [
            ("a: work 4 from 0 to 12", 80.0, 630.0, 5),
            ("b: work 8 from 2 to 10", 185.0, 420.0, 21),
            ("c: work 6 from 4 to 6", 290.0, 105.0, 37),
            ("a: 0 to 2 at speed 1", 80.0, 105.0, 2),
            ("b: 2 to 4 at speed 4/3", 185.0, 105.0, 18),
            ("c: 4 to 6 at speed 3", 290.0, 105.0, 34),
            ("b: 6 to 10 at speed 4/3", 395.0, 210.0, 18),
            ("a: 10 to 12 at speed 1", 605.0, 105.0, 2),
        ]
        self.assertEqual(bars(picture), wanted)
        self.assertEqual(words(picture), ["a", "b", "c", "0", "12"])
        self.assertIn('fill="#1f5f99" fill-opacity="1.00"', picture)
        self.assertIn('fill="#1f5f99" fill-opacity="0.50"', picture)
        self.assertEqual(picture, THREE.plan()._repr_svg_())

    def test_what_isnt_shown_is_told(self) -> None:
        picture = drawn(300).plan()._repr_svg_()
        assert picture is not None
        self.assertEqual(words(picture)[-1], "and 260 more jobs")
        self.assertEqual(len([bar for bar in bars(picture) if ": work " in bar[0]]), 40)
        many = [("a", place, place + 1, 1) for place in range(2001)]
        picture = yds.Document([("a", 0, 2001, 2001)], slots=many)._repr_svg_()
        assert picture is not None
        self.assertEqual(words(picture)[-1], "and 1 more slot")

    def test_nothing_lies_beyond_the_edges(self) -> None:
        early = yds.Document([("a", 4, 6, 1)], slots=[("a", 1, 9, 1)])
        for document in (early, drawn(10).plan(), drawn(60).plan()):
            picture = document._repr_svg_()
            assert picture is not None
            self.assertTrue(all(left >= 80 and left + width <= 710.6 for _, left, width, _ in bars(picture)))

    def test_names_are_text(self) -> None:
        name = '<script>"&' + "x" * 50
        picture = yds.Document([(name, 0, 4, 8)]).plan()._repr_svg_()
        assert picture is not None
        self.assertEqual(words(picture)[0], '<script>"&x\u2026')
        self.assertNotIn("<script", picture)

    def test_documents_without_slots_show_no_picture(self) -> None:
        for document in (
            THREE,
            yds.Document(),
            yds.Document().plan(),
            yds.Document.from_text("job a 4 4 1\nslot a 0 1 1"),
        ):
            self.assertIsNone(document._repr_svg_())

    def test_slots_of_no_length(self) -> None:
        picture = yds.Document([("a", 0, 4, 1)], slots=[("a", 3, 2, 1), ("a", 1, 2, 1)])._repr_svg_()
        assert picture is not None
        self.assertEqual(len(bars(picture)), 2)


class Html(unittest.TestCase):
    def cells(self, table: str) -> List[List[str]]:
        return [[cell.text or "" for cell in row] for row in ElementTree.fromstring(table).iter("tr")]

    def test_reports(self) -> None:
        table = THREE.report()._repr_html_()
        wanted = [
            ["level", "work", "length", "speed"],
            ["0", "6", "2", "3"],
            ["1", "8", "6", "4/3"],
            ["2", "4", "4", "1"],
        ]
        self.assertEqual(self.cells(table), wanted)
        self.assertIn("<caption>Report of 3 jobs, work 18, 0 to 12, idle 0</caption>", table)
        cells = self.cells(yds.Document([(f"j{i}", 2 * i, 2 * i + 1, i + 1) for i in range(50)]).report()._repr_html_())
        self.assertEqual((len(cells), cells[-1]), (42, ["and 10 more levels"]))

    def test_curves(self) -> None:
        cells = self.cells(THREE.curve()._repr_html_())
        self.assertEqual(cells[1:], [["0", "18"], ["1", "6"], ["4/3", "10/3"], ["3", "0"]])

    def test_comparisons(self) -> None:
        compared = THREE.compare()
        assert isinstance(compared, yds.Comparison)
        cells = self.cells(compared._repr_html_())
        self.assertEqual(
            cells[0], ["", "energy", "times the least", *(f"time at {v}" for v in (0, 1, 2, 4)), "rounded"]
        )
        self.assertEqual(cells[1], ["plan", "36", "1.0000", "0", "8", "3", "1", ""])
        self.assertEqual(cells[2], ["avr", "too slow", "", "", "", "", "", "0"])
        self.assertEqual(cells[3], ["oa", "116/3", "1.0741", "4/3", "16/3", "13/3", "1", "0"])
        nothing = yds.Document([("a", 0, 4, 0)], [(0, 0)]).compare()
        assert isinstance(nothing, yds.Comparison)
        self.assertEqual(self.cells(nothing._repr_html_())[1][:3], ["plan", "0", ""])


class Loading(unittest.TestCase):
    def test_matplotlib_is_loaded_when_it_is_needed(self) -> None:
        code = (
            "import sys, yds; yds.Document([('a', 0, 4, 8)]).plan()._repr_svg_(); sys.exit('matplotlib' in sys.modules)"
        )
        self.assertEqual(subprocess.run([sys.executable, "-c", code]).returncode, 0)

    def test_where_there_is_none(self) -> None:
        with mock.patch.dict("sys.modules", {"matplotlib.pyplot": None}):
            with self.assertRaisesRegex(ImportError, r"a picture needs matplotlib \(.*\); pip install matplotlib"):
                THREE.plan().plot()


@unittest.skipIf(matplotlib is None, "matplotlib isn't here")
class Axes(unittest.TestCase):
    def tearDown(self) -> None:
        pyplot.close("all")

    def boxes(self, collection: Any) -> List[Tuple[float, float, float, float]]:
        return [tuple(path.get_extents().extents) for path in collection.get_paths()]

    def test_jobs(self) -> None:
        axes = THREE.plan().plot()
        windows, slots = axes.collections
        self.assertEqual(self.boxes(windows), [(0, -0.2, 12, 0.2), (2, 0.8, 10, 1.2), (4, 1.8, 6, 2.2)])
        wanted = [(0, 2, 0), (2, 4, 1), (4, 6, 2), (6, 10, 1), (10, 12, 0)]
        self.assertEqual(self.boxes(slots), [(start, row - 0.4, end, row + 0.4) for start, end, row in wanted])
        self.assertEqual(list(slots.get_array()), [1, 4 / 3, 3, 4 / 3, 1])
        self.assertEqual(slots.get_clim(), (0, 3))
        self.assertEqual([label.get_text() for label in axes.get_yticklabels()], ["a", "b", "c"])
        self.assertEqual(axes.get_ylim(), (2.5, -0.5))
        self.assertTrue(axes.get_xlim()[0] <= 0 and axes.get_xlim()[1] >= 12)

    def test_axes_are_given_back(self) -> None:
        for call in (THREE.plan().plot, THREE.curve().plot, THREE.compare().plot):  # type: ignore[union-attr]
            axes = pyplot.figure().subplots()
            self.assertIs(call(axes), axes)

    def test_many_jobs(self) -> None:
        for count in (10, 300, 4000):
            plan = drawn(count).plan()
            axes = plan.plot()
            self.assertEqual([len(one.get_paths()) for one in axes.collections], [count, len(plan.slots)])
            labels = [label for label in axes.get_yticklabels() if label.get_text()]
            self.assertEqual(len(labels), count if count <= 40 else 0)
            axes.figure.canvas.draw()
            (left, right), (bottom, top) = axes.get_xlim(), axes.get_ylim()
            for x0, y0, x1, y1 in self.boxes(axes.collections[1]):
                self.assertTrue(left <= x0 <= x1 <= right and top <= y0 <= y1 <= bottom)
            pyplot.close("all")

    def test_labels_dont_lie_on_each_other(self) -> None:
        names = [f"$x_{{{i}}}^$name-of-fifteen"[:15] + str(i) for i in range(12)]
        axes = yds.Document([(name, 0, 9, 1) for name in names]).plan().plot()
        axes.figure.canvas.draw()
        boxes = [label.get_window_extent() for label in axes.get_yticklabels()]
        self.assertTrue(all(not one.overlaps(other) for one, other in zip(boxes, boxes[1:])))
        self.assertTrue(all(len(label.get_text().replace("\\$", "$")) <= 15 for label in axes.get_yticklabels()))

    def test_no_jobs_and_strangers(self) -> None:
        self.assertEqual(len(yds.Document().plot().collections), 2)
        with self.assertRaisesRegex(ValueError, "slots of 'b' are given, and there is no such job"):
            pictures.jobs(yds.Document([("a", 0, 4, 1)]).jobs, [yds.Slot("b", 0, 1, 1)])

    def test_speeds(self) -> None:
        axes = pictures.speeds(THREE.plan().profile(), color="black")
        self.assertEqual(
            [list(data) for data in axes.lines[0].get_data()], [list(data) for data in THREE.plan().profile()]
        )
        self.assertEqual((axes.lines[0].get_drawstyle(), axes.lines[0].get_color()), ("steps-post", "black"))
        exact = pictures.speeds(yds.schedule.profile([("a", 0, 3, 2)], exact=True))
        self.assertEqual(list(exact.lines[0].get_ydata()), [2 / 3, 0])

    def test_curves(self) -> None:
        axes = THREE.curve().plot(color="red")
        self.assertEqual(list(axes.lines[0].get_xdata()), [0, 1, 4 / 3, 3])
        self.assertEqual(list(axes.lines[0].get_ydata()), [18, 6, float(Fraction(10, 3)), 0])

    def test_energies(self) -> None:
        compared = THREE.compare()
        assert isinstance(compared, yds.Comparison)
        axes = compared.plot()
        self.assertEqual([bar.get_height() for bar in axes.patches], [36, 0, float(Fraction(116, 3))])
        self.assertEqual([label.get_text() for label in axes.get_xticklabels()], ["plan", "avr\ntoo slow", "oa"])


if __name__ == "__main__":
    unittest.main()
