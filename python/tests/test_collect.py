"""yds-collect and yds-reports: tables of many answers."""

import json
import random
import tempfile
import unittest
from fractions import Fraction
from pathlib import Path

from called import EXPECTED, broken, call
from test_jobs import exact, spelled


class Folder(unittest.TestCase):
    def setUp(self) -> None:
        folder = tempfile.TemporaryDirectory()
        self.addCleanup(folder.cleanup)
        self.folder = Path(folder.name)

    def file(self, name: str, text: str) -> Path:
        path = self.folder / name
        path.write_text(text, encoding="latin-1")
        return path


class CollectTest(Folder):
    def test_stored(self) -> None:
        files = [EXPECTED / f"compare-{name}.txt" for name in ("a", "refused", "too-slow")]
        self.assertEqual(call("collect", *files), (0, (EXPECTED / "energies.tsv").read_text(), ""))
        more = self.file("more.txt", (EXPECTED / "compare-a.txt").read_text() + (EXPECTED / "energy.txt").read_text())
        self.assertEqual(call("collect", self.file("empty.txt", ""), more).out, (EXPECTED / "more.tsv").read_text())

    def test_what_comments_tell(self) -> None:
        told = "# x misses 1 deadline, the first a\n# not due by 9: b: this energy is in no line\n# part 2: 1 job was left out\n# other\n"
        out = call(
            "collect",
            self.file(
                "a.b.txt",
                "plan energy 1+1/3\nx energy 2\navr too-slow units 1 from 0 to 1 top 1\noa rounded 3\navr rounded 4\n"
                + told,
            ),
        ).out
        self.assertEqual(out.splitlines(), [
            "document\tplan\tavr\toa\tx\trounded\tanswer", "a.b\t1.333333\t-\t-\t-\t7\tok",
            "# a.b: x misses 1 deadline, the first a", "# a.b: not due by 9: b: this energy is in no line", "# a.b: part 2: 1 job was left out",
        ])  # fmt: skip

    def test_faults(self) -> None:
        twice = self.file("twice.txt", "x energy 1\nx time 0 1\nx energy 2\n")
        self.assertEqual(
            call("collect", twice),
            (
                1,
                "",
                f"yds-collect: {twice}, line 3, column 1: the side x stands twice; write its lines into a new file\n",
            ),
        )
        point = self.file("point.txt", "point 0 0\x1b[2J\n")
        self.assertEqual(
            call("collect", point).err,
            f'yds-collect: {point}, line 1: "point 0 0?[2J" is no line of compare or yds-energy\n',
        )
        self.assertEqual(call("collect").status, 2)
        self.assertEqual(call("collect", self.folder / "none").status, 1)
        for line in ("plan energy 9", "plan time 0 9", "avr rounded 3"):
            for wrong in broken(line, 2 if "time" not in line else 3):
                if wrong != "plan energy 1+1/1":
                    self.assertEqual(call("collect", self.file("wrong.txt", wrong + "\n")).status, 1, wrong)

    def test_drawn_answers(self) -> None:
        """2,000 answers: each energy in the table is within half a millionth of the answer's."""
        pick = random.Random(8)
        for _ in range(200):
            files, energies = [], []
            for place in range(10):
                numbers = {
                    side: spelled(pick.randrange(10**6), pick.choice([1, 3, 7, 1000]))
                    for side in ("plan", "avr", "oa", "x")
                }
                energies.append(numbers)
                files.append(
                    self.file(f"d{place}.txt", "".join(f"{side} energy {number}\n" for side, number in numbers.items()))
                )
            rows = [line.split("\t") for line in call("collect", *files).out.splitlines()[1:]]
            for row, numbers in zip(rows, energies):
                for cell, number in zip(row[1:5], numbers.values()):
                    self.assertLessEqual(abs(Fraction(cell) - exact(number)), Fraction(1, 2 * 10**6))


class ReportsTest(Folder):
    def test_stored(self) -> None:
        files = [EXPECTED / name for name in ("report-a.json", "report-refused.json")]
        self.assertEqual(call("reports", *files), (0, (EXPECTED / "reports.tsv").read_text(), ""))
        failed = self.file("failed.json", "# line 3: events were lost before it\nfailed\n")
        told = "failed" + "\t-" * 8 + "\tfailed"
        self.assertEqual(call("reports", failed).out.splitlines()[1:], [told])

    def test_faults(self) -> None:
        for text, told in [
            ("", "has no answer; look at what wrote it"),
            (
                '{"levels":[]}',
                "line 1: the answer has no whole numbers jobs, work, from, to and idle, and no list of levels",
            ),
            ('{"jobs":1,"work":-1,"from":0,"to":1,"idle":0,"levels":[]}', "line 1: the answer has no whole numbers"),
            (
                '{"jobs":1,"work":1,"from":0,"to":1,"idle":0,"levels":[{"work":1,"length":0,"speed":"1"}]}',
                "line 1: a level of the answer has no work, length and speed",
            ),
            (
                '{"jobs":1,"work":1,"from":0,"to":1,"idle":0,"levels":[{"work":1,"length":1,"speed":1}]}',
                "line 1: a level of the answer",
            ),
            ("# CPU 0 of a kernel trace\njob a 0 9 4\n", 'line 2: "job a 0 9 4" is no report and no refusal; '),
            ("feasible\n", 'line 1: "feasible" is no report and no refusal; give answers of yds_cli report --json'),
        ]:
            called = call("reports", self.file("wrong.json", text))
            self.assertEqual((called.status, called.out), (1, ""))
            self.assertIn(told, called.err)

    def test_drawn_reports(self) -> None:
        """2,000 reports: the mean is the works by the lengths in fractions, and the rest as it stands there."""
        pick = random.Random(9)
        files, reports = [], []
        for place in range(2000):
            levels = [
                {
                    "work": pick.randrange(1, 99),
                    "length": pick.randrange(1, 99),
                    "speed": spelled(pick.randrange(1, 99), 7),
                }
                for _ in range(pick.randrange(4))
            ]
            reports.append(
                {
                    "jobs": pick.randrange(99),
                    "work": pick.randrange(99),
                    "from": 0,
                    "to": pick.randrange(99),
                    "idle": pick.randrange(9),
                    "levels": levels,
                }
            )
            files.append(self.file(f"d{place}.json", json.dumps(reports[-1])))
        rows = [line.split("\t") for line in call("reports", *files).out.splitlines()[1:]]
        for row, report in zip(rows, reports):
            levels = report["levels"]
            self.assertEqual(
                row[1:7], [str(report[name]) for name in ("jobs", "work", "from", "to", "idle")] + [str(len(levels))]
            )
            peak = exact(levels[0]["speed"]) if levels else Fraction(0)
            mean = (
                Fraction(sum(level["work"] for level in levels), sum(level["length"] for level in levels))
                if levels
                else Fraction(0)
            )
            for cell, wanted in zip(row[7:9], (peak, mean)):
                self.assertLessEqual(abs(Fraction(cell) - wanted), Fraction(1, 10**6))


if __name__ == "__main__":
    unittest.main()
