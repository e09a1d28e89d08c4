"""yds-whole of the answers of yds-misses to the parts: the misses of the whole, and how many there are."""

import os
import re
import tempfile
import unittest
from pathlib import Path
from typing import List, Tuple
from unittest import mock

import drawn
import second_program
from called import call
from yds import parts

CASES = int(os.environ.get("CASES", "200"))
TOLD = re.compile(r"[0-9]+ missed deadlines?|feasible")


def misses(text: bytes) -> Tuple[int, List[str]]:
    """What yds-misses says of a document."""
    with mock.patch("yds._program.of_library", return_value=second_program.answer):
        found = call("misses", given=text)
    return found.status, found.out.splitlines()


def part(number: int, shift: int, rest: str, last: bool = False) -> bytes:
    """A part of one job, as yds_trace writes it."""
    head = f"# part {number}: jobs {number} to {number}, from {shift} to {shift + 9}, shift {shift}{', the last' if last else ''}\n"
    clock = f"# CPU 0 of a kernel trace; time 0 is 100.{5000 + shift:04d}00000 s\n# time unit 100 us, speed unit 10000 kHz\n"
    return (head + clock + rest + "# 1 job written, none left out\n").encode()


class MissedOfPartsTest(unittest.TestCase):
    def test_drawn(self) -> None:
        """Of CASES drawn documents each miss is told as of the whole, once, and their number is that of the whole."""
        late = shifted = 0
        for seed in range(CASES):
            document = drawn.document(seed)
            status, wanted = misses(b"".join(document.lines))
            if not wanted or not TOLD.fullmatch(wanted[-1]):
                continue
            for shift in (False, True):
                try:
                    found = [one.text for one in parts.cut(document.lines, 2 + seed % 9, shift)]
                except parts.PartsError:
                    continue
                answers = [misses(text)[1] for text in found]
                put = parts.whole(found, ["".join(f"{line}\n" for line in lines).encode() for lines in answers])
                told = [line.decode().rstrip("\n") for line in put.lines]
                with self.subTest(seed=seed, shift=shift):
                    self.assertEqual((put.yes, sorted(told), told[-1]), (status == 0, sorted(wanted), wanted[-1]))
                late += len(told) > 2
                shifted += shift and len(found) > 1 and len(told) > 2
        self.assertGreater(min(late, shifted), CASES // 20)

    def test_parts_of_a_trace(self) -> None:
        texts = [
            part(1, 0, "job a.0 0 9 12\nticks 1\nrun a.0 3 6 4\n"),
            part(2, 100, "job a.1 0 9 12\nticks 1\nrun a.1 8 11 4\n# places where events were lost, up to here: 2\n"),
            part(
                3,
                200,
                "job a.2 0 9 1\nticks 1\n# late, without its runs: a.2 (events lost), at least 3.2 ms after its deadline; window -4 9\n"
                "# left out: a.3 (ran on another processor), 1.5 ms after its deadline; window 5 30\n"
                "# places where events were lost, up to here: 4\n",
                True,
            ),
        ]
        with tempfile.TemporaryDirectory() as folder:
            for number, text in enumerate(texts, 1):
                place = Path(folder, f"part-{number:05d}.txt")
                place.write_bytes(text)
                place.with_suffix(".misses").write_text("".join(f"{line}\n" for line in misses(text)[1]))
            found = call("whole", *sorted(Path(folder).glob("*.misses")))
        self.assertEqual(found.status, 1)
        self.assertEqual(
            found.out.splitlines(),
            [
                "late slot 2 a.1 111 deadline 109, by 2 # due at 100.510900 s",
                "late, without its runs: a.2 (events lost), at least 3.2 ms after its deadline; window 196 209 # due at 100.520900 s",
                "left out: a.3 (ran on another processor), 1.5 ms after its deadline; window 205 230 # due at 100.523000 s",
                "# places where events were lost: 4: whole jobs may have been there",
                "3 missed deadlines",
            ],
        )
        self.assertEqual(found.err.count("missed deadline"), 2)

    def test_none_missed(self) -> None:
        texts = [part(1, 0, "job a.0 0 9 12\nticks 1\nrun a.0 3 6 4\n"), part(2, 9, "job a.1 0 9 0\nticks 1\n", True)]
        answers = ["".join(f"{line}\n" for line in misses(text)[1]).encode() for text in texts]
        self.assertEqual(answers[1], b"# 1 job has no work: it needs nothing and is in time, the first a.1\nfeasible\n")
        holes = [text.replace(b"# 1 job", b"# places where events were lost: 1\n# 1 job") for text in texts]
        answers = ["".join(f"{line}\n" for line in misses(text)[1]).encode() for text in holes]
        put = parts.whole(holes, answers)
        told = [b"# 1 job has no work: it needs nothing and is in time, the first a.1\n"]
        told += [b"# places where events were lost: 1: whole jobs may have been there\n", b"feasible as far as the trace shows\n"]
        self.assertEqual((put.yes, put.is_open, list(put.lines)), (True, True, told))
        self.assertFalse(parts.whole(texts, [b"feasible\n"] * 2).is_open)

    def test_what_is_not_known_of_all_parts(self) -> None:
        left = "# left out: a.%d (not ended)\n# left out: 2 jobs of b (events lost), the first b.%d, the last b.9\n"
        first = "job a.0 0 9 12\nticks 1\nrun a.0 3 6 4\n# exited: a.0\n"
        second = "job a.1 0 9 12\nticks 1\nrun a.1 3 6 4\n# exited: a.1\n"
        texts = [part(1, 0, first + left % (7, 1)), part(2, 9, second + left % (8, 3), True)]
        answers = ["".join(f"{line}\n" for line in misses(text)[1]).encode() for text in texts]
        self.assertIn(b"# 3 jobs are left out whose begin or end isn't known, the first a.8: ", answers[1])
        put = parts.whole(texts, answers)
        told = [
            b"# 6 jobs are left out whose begin or end isn't known, the first a.7: it isn't known whether they were in time\n",
            b"# 2 jobs were ended as their threads were over, the first a.0: perhaps before their work was done\n",
            b"feasible as far as the trace shows\n",
        ]
        self.assertEqual((put.yes, put.is_open, list(put.lines)), (True, True, told))

    def test_what_is_no_answer_to_the_part(self) -> None:
        text = part(1, 0, "job a.0 0 9 12\nticks 1\nrun a.0 9 12 4\n", True)
        good = "late slot 1 a.0 12 deadline 9, by 3\n1 missed deadline\n"
        self.assertFalse(parts.whole([text], [good.encode()]).yes)
        for wrong in (
            good.replace("1 missed", "2 missed").replace("deadline\n", "deadlines\n"),
            good.replace("slot 1", "slot 2"),
            good.replace("12", "-12"),
            good.replace("late slot", "lat slot"),
            "1 missed deadline\n",
            good + "1 missed deadline\n",
            "overlap slot 2 a 3 previous 4\n1 missed deadline\n",
        ):
            with self.subTest(wrong), self.assertRaises(parts.PartsError):
                parts.whole([text], [wrong.encode()])


if __name__ == "__main__":
    unittest.main()
