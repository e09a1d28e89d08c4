"""Drawn documents, cut at drawn places.

Environment: DRAWN_PARTS, how many documents are tried (200); SEED, the first of them (1); SHOW, to see what was drawn.
"""

import os
import random
import unittest
from collections import Counter
from fractions import Fraction
from typing import List

import drawn
from in_parts import GRID, answered, joined, program, texts
from yds import parts

DOCUMENTS = int(os.environ.get("DRAWN_PARTS", "200"))
SEED = int(os.environ.get("SEED", "1"))
GRIDS = ("420", GRID)


class DrawnTest(unittest.TestCase):
    """The whole's verdict, and bounds that hold the whole's energy between them or the words that there is none."""

    def test_drawn(self) -> None:
        met: Counter = Counter()
        for seed in range(SEED, SEED + DOCUMENTS):
            with self.subTest(seed=seed):
                self.one(seed, met)
            program.cache_clear()
        if DOCUMENTS >= 200:
            for kind in ("windows open", "all closed", "both bounds", "both are it", "no upper", "plan at least", "avr at least"):
                self.assertGreater(met[kind], 9, (kind, met))
            for kind in ("dear idling", "falling powers", "any powers", "late", "work 0", "out of order", "starved"):
                self.assertGreater(met[kind], 9, (kind, met))
        if "SHOW" in os.environ:
            print(sorted(met.items()))

    def test_average_rate_rounds(self) -> None:
        """Where no part's run of Average Rate rounds on the grid 1, that of all jobs is told to round where it does."""
        met: Counter = Counter()
        for seed in range(SEED, SEED + DOCUMENTS):
            draw = random.Random(seed)
            lines: List[bytes] = [b"point 0 0\n", b"point 99 9801\n"]
            release = 0
            for number in range(draw.randint(2, 9)):
                release += draw.choice([0, 1, 2, 2, 4])
                window = draw.choice([1, 2, 4, 8])
                lines.append(b"job j%d %d %d %d\n" % (number, release, release + window, draw.choice([0, 1, 2, 4]) * max(window // 2, 1)))
            found = texts(lines, draw.randint(1, 5))
            told = joined(parts.whole(found, answered(found, "compare", "--grid", "1"), 1))
            rounded = b"\navr rounded 0\n" not in program(b"".join(lines), "compare", "--grid", "1")[1]
            if any(b"avr rounded 0\n" not in answer for answer in answered(found, "compare", "--grid", "1")):
                met["a part rounds"] += 1
            elif b"windows are open" in told:
                self.assertEqual(b"the run of all jobs would round up" in told, rounded, seed)
                self.assertEqual(b"avr at-least " in told, not rounded, seed)
                met["all round" if rounded else "none rounds"] += 1
        if DOCUMENTS >= 200:
            self.assertGreater(min(met["all round"], met["none rounds"]), 9, met)
        if "SHOW" in os.environ:
            print(sorted(met.items()))

    def one(self, seed: int, met: Counter) -> None:
        document = drawn.document(seed)
        met.update(document.kinds)
        text = b"".join(document.lines)
        limit = random.Random(seed).randint(2, 12)
        try:
            found = texts(document.lines, limit)
        except parts.PartsError as fault:
            self.assertIn("there is no place to cut from job", str(fault))
            met["no place"] += 1
            return
        is_open = self.is_cut(document, found, limit)
        met["windows open" if is_open else "all closed"] += 1
        self.judge(text, found, "audit")
        if document.points:
            self.judge(text, found, "audit", "--points")
            for grid in GRIDS:
                self.compare(text, found, is_open, grid, met)
            self.bound(text, found, limit, met)

    def is_cut(self, document: drawn.Drawn, found: List[bytes], limit: int) -> bool:
        """The parts are the whole, within the limit, each cut where it may be; whether windows are open at some."""
        rows = [drawn.seen(text) for text in found]
        jobs = [line.decode().split()[1:] for line in document.lines if line.startswith(b"job ")]
        runs = [line.decode().split()[1:] for line in document.lines if line.startswith(b"run ")]
        self.assertEqual([job for part in rows for job in part.jobs], jobs)
        numbered = sorted((run for part in rows for run in part.runs), key=lambda run: int(run[0]))
        self.assertEqual(numbered, [[str(place), *run] for place, run in enumerate(runs, 1)])
        some = False
        for place in range(1, len(rows)):
            self.assertLessEqual(len(rows[place].jobs), limit)
            is_open = drawn.is_open(rows[:place], rows[place:])
            self.assertEqual(", windows open" in rows[place].head, is_open)
            self.assertTrue(not is_open or drawn.is_quiet(rows[:place], rows[place:]))
            some = some or is_open
        return some

    def judge(self, text: bytes, found: List[bytes], *words: str) -> None:
        status, wanted = program(text, *words)
        told = parts.whole(found, answered(found, *words))
        self.assertEqual((joined(told), told.yes), (wanted, status == 0))

    def compare(self, text: bytes, found: List[bytes], is_open: bool, grid: str, met: Counter) -> None:
        status, wanted = program(text, "compare", "--grid", grid)
        told = parts.whole(found, answered(found, "compare", "--grid", grid), int(grid))
        lines_told = joined(told)
        if not is_open:
            self.assertEqual((lines_told, told.yes), (wanted, status == 0))
        elif not told.yes:
            self.assertEqual(status, 1)
        elif status == 0:
            rows = [line.split() for line in wanted.split(b"\n") if line]
            energies = {row[0]: drawn.number(row[2]) for row in rows if row[1] == b"energy"}
            rounded = {row[0]: int(row[2]) for row in rows if row[1] == b"rounded"}
            self.assertNotIn(b" energy ", b"".join(line for line in lines_told.split(b"\n") if line[:1] != b"#"))
            bounds = {line.split()[0]: line.split()[2] for line in lines_told.split(b"\n") if b" at-least " in line}
            self.assertNotIn(b"oa", bounds)
            if b"# avr: too slow" not in lines_told:
                self.assertEqual(b"avr" in bounds, rounded[b"avr"] == 0)
            for side, bound in bounds.items():
                met[side.decode() + " at least"] += 1
                self.assertLessEqual(drawn.number(bound), energies.get(side, drawn.number(bound)))

    def bound(self, text: bytes, found: List[bytes], limit: int, met: Counter) -> None:
        status, wanted = program(text, "round")
        told = parts.bounds(found, limit)
        if status != 0:
            self.assertIsNone(told.upper)
            met["whole too slow"] += 1
            return
        energy = drawn.number(wanted.rstrip(b"\n").split(b"\n")[-1].split()[1])
        self.assertIsInstance(told.lower, Fraction)
        self.assertLessEqual(told.lower, energy)
        if told.upper is None:
            met["no upper"] += 1
            self.assertIn("there is no upper bound", told.told[0])
        else:
            met["both bounds"] += 1
            self.assertLessEqual(energy, told.upper)
        if told.told[-1].split("open at ")[1].startswith("0 "):
            self.assertEqual((told.lower, told.upper), (energy, energy))
            met["both are it"] += 1

if __name__ == "__main__":
    unittest.main()
