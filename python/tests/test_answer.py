"""yds-answer: answers as JSON and as CSV."""

import csv
import io
import json
import tempfile
import unittest
from fractions import Fraction
from pathlib import Path

from called import EXPECTED, ROOT, broken, call
from test_jobs import drawn, exact

PLAN = "job a 0 12 4\nslot a 0 2 2\nslot a 4 12 2+2/3\nlevel 8 12\npiece 0 12\nmember a\n"


class AnswerTest(unittest.TestCase):
    def test_a_plan(self) -> None:
        found = json.loads(call("answer", given=PLAN.encode()).out)
        self.assertEqual(list(found), ["jobs", "slots", "levels", "pieces", "members"])
        self.assertEqual(
            found["slots"][1],
            {
                "job": "a",
                "from": 4,
                "from_exact": "4",
                "to": 12,
                "to_exact": "12",
                "work": 2.66666666666667,
                "work_exact": "2+2/3",
                "speed": 0.333333333333,
            },
        )
        self.assertEqual(
            found["levels"], [{"level": 1, "work": 8, "length": 12, "speed": 0.666666666666667, "speed_exact": "0+2/3"}]
        )
        self.assertEqual(found["members"], [{"level": 1, "job": "a"}])

    def test_misses(self) -> None:
        for line, wanted in [
            (
                "late slot 2 a 21+1/2 deadline 20, by 1+1/2 # due at 5.25 s",
                {
                    "verdict": "late",
                    "slot": 2,
                    "job": "a",
                    "to": 21.5,
                    "to_exact": "21+1/2",
                    "deadline": 20,
                    "late": 1.5,
                    "late_exact": "1+1/2",
                    "due": 5.25,
                },
            ),
            (
                "late slot 3 b 6 deadline 5, by at least 1: given 4 wanted 5",
                {
                    "verdict": "late",
                    "slot": 3,
                    "job": "b",
                    "to": 6,
                    "to_exact": "6",
                    "deadline": 5,
                    "late_at_least": 1,
                    "late_at_least_exact": "1",
                    "given": 4,
                    "given_exact": "4",
                    "wanted": 5,
                },
            ),
            (
                "work r.0 given 2 wanted 3, not ended 13.0 ms after its deadline",
                {"verdict": "work", "job": "r.0", "given": 2, "given_exact": "2", "wanted": 3, "not_ended_ms": 13.0},
            ),
            (
                "late in a run within one tick: r.0, 1.001 ms after its deadline # due at 2.5 s",
                {
                    "verdict": "late in a run within one tick",
                    "job": "r.0",
                    "reason": "r.0, 1.001 ms after its deadline",
                    "due": 2.5,
                },
            ),
            (
                "late on another processor: r.0@1, 1.001 ms after its deadline",
                {
                    "verdict": "late on another processor",
                    "job": "r.0@1",
                    "reason": "r.0@1, 1.001 ms after its deadline",
                },
            ),
            (
                "K1 overlap slot 2 a 3 previous 4",
                {
                    "condition": "K1",
                    "verdict": "overlap",
                    "slot": 2,
                    "job": "a",
                    "from": 3,
                    "from_exact": "3",
                    "previous": 4,
                    "previous_exact": "4",
                },
            ),
        ]:
            self.assertEqual(json.loads(call("answer", given=line.encode()).out), {"verdicts": [wanted]})

    def test_every_stored_answer_is_read(self) -> None:
        """Each number of a stored row's lines stands in its JSON again, but for those that are JSON already."""
        read = 0
        for path in sorted((ROOT / "examples" / "rows").glob("*/stdout")):
            text = path.read_text()
            if text.startswith("{"):
                self.assertIn("the answer is JSON already", call("answer", path).err)
                continue
            called = call("answer", path)
            self.assertEqual((called.status, called.err), (0, ""), path)
            found = json.loads(called.out)
            lines = [line for line in text.splitlines() if line.strip()]
            told = [value for rows in found.values() for row in rows for value in row.values()]
            if "report" not in found and "trial" not in found:
                self.assertEqual(sum(map(len, found.values())), len(lines), path)
            for line in lines:
                if not line.startswith("usage"):
                    self.assertTrue(set(filter(str.isdigit, line.split())) <= set(map(str, told)), path)
            read += 1
        self.assertGreaterEqual(read, 100)

    def test_drawn_documents_as_csv(self) -> None:
        """2,000 documents: the exact columns are the numbers of the lines, and the decimals are near them."""
        for seed in range(2000):
            text = drawn(seed)
            table = "runs" if "\nticks " in f"\n{text}" else "slots"
            rows = list(csv.DictReader(io.StringIO(call("answer", "--csv", table, given=text.encode()).out)))
            lines = [line.split() for line in text.splitlines() if line.startswith(table[:-1])]
            self.assertEqual(len(rows), len(lines))
            for row, fields in zip(rows, lines):
                if table == "runs":
                    self.assertEqual(list(row.values()), fields[1:])
                    continue
                self.assertEqual([row["job"], row["from_exact"], row["to_exact"], row["work_exact"]], fields[1:])
                speed = exact(fields[4]) / (exact(fields[3]) - exact(fields[2]))
                for cell, wanted in [
                    (row["from"], exact(fields[2])),
                    (row["work"], exact(fields[4])),
                    (row["speed"], speed),
                ]:
                    self.assertLessEqual(abs(Fraction(cell) - wanted), wanted / 10**11)

    def test_hostile_names(self) -> None:
        text = b'job a\\b"c,d 0 4 8\n# a\ttab, "quotes" and \\ \xff\n'
        self.assertEqual(
            call("answer", "--csv", "jobs", given=text).out, 'name,release,deadline,work\n"a\\b""c,d",0,4,8\n'
        )
        found = json.loads(call("answer", given=text).out.encode("latin-1").decode("utf-8"))
        self.assertEqual(found["jobs"][0]["name"], 'a\\b"c,d')
        self.assertEqual(found["comments"][0]["text"], '# a\ttab, "quotes" and \\ \ufffd')

    def test_several_files_and_faults(self) -> None:
        with tempfile.TemporaryDirectory() as folder:
            empty = Path(folder, "empty.txt")
            empty.write_text("")
            files = [EXPECTED / "compare-a.txt", empty]
            called = call("answer", "--csv", "energies", *files)
            self.assertEqual((called.status, called.out.splitlines()[1]), (1, f"{files[0]},plan,4531,4531"))
            self.assertEqual(called.err, f"yds-answer: no energies in {empty}; there is nothing\n")
            self.assertEqual(json.loads(call("answer", *files).out.splitlines()[1]), {"file": str(empty)})
        self.assertIn("--csv slot: there are jobs points slots", call("answer", "--csv", "slot").err)
        self.assertEqual(
            call("answer", given=b"late slot 2 a b deadline c, by 3").err,
            'yds-answer: line 1: "late slot 2 a b deadline c, by 3" is no line of an answer\n',
        )
        self.assertIn(
            "line 2, column 3: a unit of time of 9 us here",
            call("answer", given=b"# time unit 10 us\n# time unit 9 us\n").err,
        )
        for line in ("job a 0 4 8", "slot a 0 1 2", "plan energy 4", "late slot 2 a 9 deadline 8"):
            for wrong in broken(line, 4 if line.startswith("late") else 2):
                if "9999" not in wrong and not wrong.endswith(("1+1/1", "slot 2 a 9")):
                    self.assertEqual(call("answer", given=wrong.encode())[:2], (1, ""), wrong)


if __name__ == "__main__":
    unittest.main()
