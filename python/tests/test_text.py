"""The lines of documents as typed rows, and the places of faults."""

import io
import tempfile
import unittest
from pathlib import Path
from typing import List

from called import broken, call
from yds._heads import MOST_BYTES
from yds._text import (
    Comment,
    Fault,
    Horizon,
    Job,
    Line,
    Other,
    Point,
    Row,
    Rows,
    Slot,
    Task,
    Ticks,
    base,
    lines_of,
    printable,
)


def rows(text: str) -> List[Row]:
    return list(Rows(lines_of(io.BytesIO(text.encode("latin-1")), "x.txt")))


class RowsTest(unittest.TestCase):
    def test_each_kind_of_row(self) -> None:
        found = rows(
            "# a\xb5 b\r\n\n \t\njob a 0 4 8\n task t 0 10 10 5\npoint 2 30\r\nhorizon 40\nslot a 0 1+1/3 8/1x\n".replace(
                "8/1x", "2+1/2"
            )
        )
        self.assertEqual([type(row) for row in found], [Comment, Job, Task, Point, Horizon, Slot])
        self.assertEqual([row.line.number for row in found], [1, 4, 5, 6, 7, 8])
        self.assertEqual(found[0][1], "# a\xb5 b")
        self.assertEqual([tuple(row)[1:] for row in found[1:4]], [("a", 0, 4, 8), ("t", 0, 10, 10, 5), (2, 30)])
        self.assertEqual(tuple(found[5])[1:], ("slot", "a", 0, 4, 3, 5, 2))
        found = rows("ticks 4\nrun a 2 5 8\nlevel 8 4\n")
        self.assertEqual([type(row) for row in found], [Ticks, Slot, Other])
        self.assertEqual(tuple(found[1])[1:], ("run", "a", 2, 5, 4, 24, 4))
        self.assertEqual(found[1].speed, 8)  # type: ignore[union-attr]

    def test_each_broken_field_is_a_fault(self) -> None:
        for line in ("job a 0 4 8", "task t 0 10 10 5", "point 2 30", "horizon 40", "slot a 0 2 4", "run a 0 2 4"):
            for wrong in broken(line, 1 if line[0] in "ph" else 2):
                with self.subTest(wrong):
                    if line.startswith("slot") and wrong.split()[-1] == "1+1/1":
                        continue
                    self.assertRaises(Fault, rows, f"ticks 1\n{wrong}\n")

    def test_faults_tell_their_place(self) -> None:
        for text, told in [
            ("\njob a 0 4x 8\n", "x.txt, line 2, column 9: a job needs NAME RELEASE DEADLINE WORK, in whole numbers"),
            ("job a 0 4\n", "x.txt, line 1, column 10: a job needs NAME RELEASE DEADLINE WORK, in whole numbers"),
            ("run a 0 4 1\n", "x.txt, line 1, column 1: a run before any line of ticks"),
            ("slot a 4 4 1\n", "x.txt, line 1, column 10: a slot without length"),
            (
                "slot a 0 1+1/0 1\n",
                "x.txt, line 1, column 10: a slot needs NAME FROM TO WORK, in numbers or fractions W+N/D",
            ),
            (" failed\n", "x.txt, line 1: the input is an answer of no:  failed"),
            (
                "# time unit 10 us\n# time unit 100 us\n",
                "x.txt, line 2, column 3: a unit of time of 100 us here and 10 us before; give both the same --us",
            ),
            (
                "# speed unit 10 kHz, power unit 1 uW\n# a power unit 2 uW\n",
                "x.txt, line 2, column 5: a unit of power of 2 uW here and 1 uW before; give the points of one --uw",
            ),
        ]:
            with self.subTest(text), self.assertRaises(Fault) as raised:
                rows(text)
            self.assertEqual(str(raised.exception), told)
        self.assertEqual(str(Line("-", 3, "a b").fault("wrong", 1)), "line 3, column 3: wrong")

    def test_units_that_are_spelled_otherwise_are_the_same(self) -> None:
        self.assertEqual(
            len(rows("# time unit 10 us\n# time unit 10.0 us\n# power unit .5 uW\n# power unit 0.50 uW\n")), 4
        )

    def test_a_line_without_an_end(self) -> None:
        with self.assertRaises(Fault) as raised:
            rows("x" * (MOST_BYTES + 2))
        self.assertEqual(str(raised.exception), f"x.txt, line 1: a line of more than {MOST_BYTES} bytes")

    def test_a_byte_order_mark_is_named(self) -> None:
        """It may stand before a comment that tells units: passed over, these would be lost."""
        for front in ("# time unit 10 us\n", "job a 0 4 8\n"):
            text = b"\xef\xbb\xbf" + front.encode() + b"job b 0 4 8\nticks 1\nrun b 0 4 2\n"
            for name in ("jobs", "changes", "join"):
                with tempfile.TemporaryDirectory() as folder:
                    Path(folder, "a.txt").write_bytes(text)
                    found = call(name, Path(folder, "a.txt"), *(["-"] if name == "join" else []))
                self.assertEqual(found.status, 1)
                self.assertIn("line 1, column 1: a byte order mark, which yds_cli refuses as UnknownKind; take", found.err)

    def test_names_that_a_terminal_would_obey(self) -> None:
        self.assertEqual(printable("a\x1b[2J\xb5"), "a?[2J?")
        self.assertEqual(printable("x" * 61), "x" * 60 + "..")
        self.assertEqual(base("/a/b\xb5.txt"), "b\xc2\xb5.txt")


if __name__ == "__main__":
    unittest.main()
