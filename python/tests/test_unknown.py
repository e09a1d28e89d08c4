"""What is left out of a trace's document and could hide a miss, and jobs with which their threads were over: no plain yes is said of them."""

import tempfile
import unittest
from pathlib import Path
from typing import List

from called import call
from test_lacking import HEAD, asked, document, page_of
from yds._unknown import NOT_KNOWN, of_thread

FAR = "feasible as far as the trace shows"
OTHER_REASONS = ["ran on another processor", "frequency not known"]
EXITED = "# exited: a.1"
WENT_ON = "# went on behind a sleep without a wake-up: a.0"


def told(comments: List[str], late: bool = False) -> "tuple[int, List[str]]":
    """What yds-misses says of a document with these comments."""
    found = asked("misses", given=document(comments, late=late))
    return found.status, found.out.splitlines()


class VerdictTest(unittest.TestCase):
    """It is plain where nothing is left out that could hide a miss."""

    def test_a_begin_or_an_end_that_is_not_known(self) -> None:
        for reason in NOT_KNOWN:
            with self.subTest(reason):
                one = "# 1 job is left out whose begin or end isn't known, a.7: it isn't known whether it was in time"
                self.assertEqual(told([f"# left out: a.7 ({reason})"]), (8, [one, FAR]))
                many = "# 9 jobs are left out whose begin or end isn't known, the first a.2: it isn't known whether they were in time"
                self.assertEqual(told([f"# left out: 9 jobs of a ({reason}), the first a.2, the last a.70"]), (8, [many, FAR]))

    def test_what_hides_none(self) -> None:
        for reason in OTHER_REASONS:
            self.assertEqual(told([f"# left out: a.7 ({reason})", WENT_ON]), (0, ["feasible"]))
        self.assertEqual(told(["# left out: 3 jobs before from or after to"]), (0, ["feasible"]))

    def test_a_thread_that_was_over(self) -> None:
        one = "# 1 job was ended as its thread was over, a.1: perhaps before its work was done"
        self.assertEqual(told([EXITED]), (8, [one, FAR]))
        two = "# 2 jobs were ended as their threads were over, the first a.1: perhaps before their work was done"
        self.assertEqual(told([EXITED, "# exited: b.3"]), (8, [two, FAR]))

    def test_beside_a_miss(self) -> None:
        status, lines = told([EXITED], late=True)
        self.assertEqual((status, lines[-1], lines[-2][:25]), (1, "1 missed deadline", "# 1 job was ended as its "))

    def test_its_answer_as_tables(self) -> None:
        answer = asked("misses", given=document([EXITED, "# left out: a.7 (events lost)"])).out
        self.assertEqual(call("answer", "--csv", "verdicts", given=answer.encode()).out.split(), ["verdict,as_far_as", "feasible,trace"])


class OthersTest(unittest.TestCase):
    """Where else they are told."""

    def test_jobs(self) -> None:
        out = asked("jobs", given=document([EXITED, WENT_ON])).out.splitlines()
        self.assertIn("# 1 job was ended as its thread was over, a.1: perhaps before its work was done", out)

    def test_whole(self) -> None:
        """The answers to parts are put together with the same status."""
        for comments, status in ([[], 0], [[EXITED], 8]):
            text = "# part 1: jobs 1 to 2, from 0 to 18, shift 0, the last\n" + document(comments)
            with tempfile.TemporaryDirectory() as folder, self.subTest(comments):
                Path(folder, "part-00001.txt").write_text(text)
                answer = Path(folder, "part-00001.misses")
                answer.write_text(asked("misses", given=text).out)
                found = call("whole", answer)
                self.assertEqual((found.status, found.out), (status, answer.read_text()))

    def test_page(self) -> None:
        self.assertEqual(page_of(document([WENT_ON])).ids["verdict"].attributes["class"], "yes")
        self.assertEqual(page_of(document([EXITED])).ids["verdict"].attributes["class"], "open")

    def test_frames(self) -> None:
        """The jobs have the application's names."""
        trace = HEAD + "job r.3 0 9 12\njob r.4 9 18 12\nticks 1\nrun r.3 3 6 4\nrun r.4 10 13 4\n# went on behind a sleep without a wake-up: r.3\n"
        trace += "# exited: r.4\n# exited: r.9\n# 2 jobs written, none left out\n"
        with tempfile.TemporaryDirectory() as folder:
            file = Path(folder, "app.txt")
            file.write_text("# time unit 10 us, speed unit 10000 kHz\njob r.0 0 8 12\njob r.1 9 18 12\n")
            lines = call("frames", "--jobs", file, "--first", "r.3", given=trace.encode()).out.splitlines()
        self.assertEqual([line for line in lines if of_thread(line)], ["# went on behind a sleep without a wake-up: r.0", "# exited: r.1"])


if __name__ == "__main__":
    unittest.main()
