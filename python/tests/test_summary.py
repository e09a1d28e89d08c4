"""yds-summary: energies beside the plan's, over many documents."""

import random
import unittest
from decimal import Decimal
from typing import Dict, List, Optional

from called import EXPECTED, call

TABLE = b"""document\tplan\tavr\toa\town\trounded\tanswer
a\t10.000000\t15.000000\t10.000000\t12.000000\t0\tok
b\t20.000000\t-\t21.000000\t-\t0\tok
c\t4.000000\t4.000000\t6.000000\t-\t3\tok
d\t10.000000\t11.000000\t10.000000\t14.000000\t0\tok
e\t-\t-\t-\t-\t-\trefused 1 9 EmptyWindow
f\t-\t-\t-\t-\t-\ttoo-slow work 100 length 1 top 5
g\t0.000000\t0.000000\t0.000000\t0.000000\t0\tok
h\t-\t-\t-\t-\t-\tno answer
# b: own misses 2 deadlines, the first x: y
# f: own misses 1 deadline, the first z
"""


class SummaryTest(unittest.TestCase):
    def test_by_hand(self) -> None:
        wanted = """side\tdocuments\ttoo slow\tmisses\twithout\tmean\tmedian\tgreatest\tin
avr\t3\t1\t0\t0\t1.20000\t1.10000\t1.50000\ta
oa\t4\t0\t0\t0\t1.13750\t1.02500\t1.50000\tc
own\t2\t0\t1\t1\t1.30000\t1.30000\t1.40000\td
# 8 documents, 4 compared, 1 refused, 1 too fast for their points, by any schedule, 1 with a plan that spends nothing, 1 without an answer
# in 1 of them a policy was rounded to the grid, so its energy isn't quite the policy's own; see the column rounded
"""
        self.assertEqual(call("summary", given=TABLE), (0, wanted, ""))
        self.assertEqual(call("summary", "--common", given=TABLE).out.split("\n")[1:4], [
            "avr\t2\t0\t0\t0\t1.30000\t1.30000\t1.50000\ta",
            "oa\t2\t0\t0\t0\t1.00000\t1.00000\t1.00000\ta",
            "own\t2\t0\t0\t0\t1.30000\t1.30000\t1.40000\td",
        ])  # fmt: skip
        told = b"# a: part 2: 1 job was left out of the document, with its energy\n# d: not due by 9: x\n# d: the work of 2 jobs isn't known, since\n"
        partial = "# in 2 of them jobs have energy that is in no line, or work that isn't known; see the comments of the table"
        self.assertIn(partial, call("summary", given=TABLE + told).out.split("\n"))

    def test_faults(self) -> None:
        cases = {
            b"": "no table; is this the table of yds-collect?",
            b"{}\n": "line 1: no columns document, plan and answer; is this the table of yds-collect?",
            TABLE + b"i\t1\n": "line 12: 2 columns, and the heading has 7",
            TABLE + b"i\t-\t1\t1\t1\t0\tok\n": "line 12: - is no energy of the plan",
            TABLE + b"i\t1\t-1\t1\t1\t0\tok\n": "line 12: -1 is no energy of avr",
        }
        for text, told in cases.items():
            self.assertEqual(call("summary", given=text), (1, "", f"yds-summary: {told}\n"))
        for field in range(1, 5):
            for wrong in ("", "x", "-1", "1e9", "1,5", "1.5.5", "nan", "1 1"):
                cells = ["i", "1.000000", "1.000000", "1.000000", "1.000000", "0", "ok"]
                cells[field] = wrong
                self.assertEqual(call("summary", given=TABLE + "\t".join(cells).encode() + b"\n").status, 1, cells)
        self.assertEqual(call("summary", "a", "b").status, 2)

    def test_stored_tables(self) -> None:
        self.assertEqual(
            call("summary", EXPECTED / "folder.tsv").out.split("\n")[1], "avr\t3\t0\t0\t0\t1.03892\t1.05389\t1.06287\tb"
        )

    def test_drawn_tables(self) -> None:
        """Means, medians and greatest are those of sums and sorted lists in decimals of 40 digits: a second reading."""
        drawn = random.Random(2)
        for _ in range(2000):
            rows: List[Dict[str, Optional[Decimal]]] = []
            for _ in range(drawn.randrange(1, 8)):
                row = {side: Decimal(drawn.randrange(1, 10**7)).scaleb(-6) for side in ("plan", "avr", "own")}
                rows.append({side: None if side != "plan" and drawn.randrange(4) == 0 else row[side] for side in row})
            cells = ["\t".join("-" if value is None else f"{value:.6f}" for value in row.values()) for row in rows]
            text = "document\tplan\tavr\town\tanswer\n" + "".join(
                f"d{place}\t{cell}\tok\n" for place, cell in enumerate(cells)
            )
            found = dict(line.split("\t", 1) for line in call("summary", given=text.encode()).out.splitlines()[1:3])
            for side in ("avr", "own"):
                self.assertEqual(found[side], self.by_decimals(side, rows), text)

    @staticmethod
    def by_decimals(side: str, rows: List[Dict[str, Optional[Decimal]]]) -> str:
        ratios = [
            (Decimal(value) / Decimal(row["plan"] or 0), place)
            for place, row in enumerate(rows)
            for value in [row[side]]
            if value is not None
        ]
        missing = len(rows) - len(ratios)
        counts = [len(ratios), missing if side == "avr" else 0, 0, 0 if side == "avr" else missing]
        if not ratios:
            return "\t".join([*map(str, counts), "-", "-", "-", "-"])
        values = sorted(value for value, _ in ratios)
        middle = (values[(len(values) - 1) // 2] + values[len(values) // 2]) / 2
        greatest = next(place for value, place in ratios if value == values[-1])
        told = [sum(values) / len(values), middle, values[-1]]
        return "\t".join([*map(str, counts), *(f"{number:.5f}" for number in told), f"d{greatest}"])


if __name__ == "__main__":
    unittest.main()
