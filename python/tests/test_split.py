"""yds-parts --split: parts that stand in one text, one behind the other, each in a file of its own."""

import tempfile
import unittest
from pathlib import Path
from typing import Dict

from called import Called, call
from yds import parts

POINTS = "# table: speed unit 10000 kHz, power unit 1000 uW\npoint 0 0\npoint 10 10\n"
FIRST = """\
# part 1: jobs 1 to 2, from 0 to 600, shift 0
# CPU 0 of a kernel trace; time 0 is 5123.400623455 s
# time unit 10 us, speed unit 10000 kHz, work unit 100 cycles
job t.1 0 300 200
job t.2 300 600 100
ticks 1
run t.1 0 20 10
run t.2 300 310 10
# 2 jobs written, none left out
"""
LAST = """\
# part 2: jobs 3 to 3, from 800 to 900, shift 600, windows open, the last
# CPU 0 of a kernel trace; time 0 is 5123.406623455 s
# time unit 10 us, speed unit 10000 kHz, work unit 100 cycles
job t.4 200 300 100
ticks 1
run t.4 310 320 10
# 1 job written, 1 left out
"""


def of(text: str, cpu: int, is_last: bool = False) -> str:
    """The part, as yds_trace --cpu all writes it."""
    head, rest = text.replace("CPU 0", f"CPU {cpu}").split("\n", 1)
    head, last = head.replace(", the last", ""), ", the last" if is_last else ""
    head, is_open, _ = head.partition(", windows open")
    return f"{head}, cpu {cpu}{is_open}{last}\n{rest}"


EMPTY = "# part 1: jobs 1 to 0, from 0 to 0, shift 0, the last\nticks 1\n# 0 jobs written, none left out\n"
SEVERAL = of(FIRST, 2) + of(FIRST, 0, True) + of(EMPTY, 1, True) + of(LAST, 2, True)


class SplitTest(unittest.TestCase):
    def setUp(self) -> None:
        folder = tempfile.TemporaryDirectory()
        self.addCleanup(folder.cleanup)
        self.folder = Path(folder.name) / "parts"

    def split(self, text: str, *words: object) -> Called:
        return call("parts", "--folder", self.folder, "--split", *words, given=text.encode())

    def files(self) -> Dict[str, str]:
        return {path.name: path.read_text() for path in self.folder.iterdir()}

    def test_each_part_has_the_points(self) -> None:
        self.assertEqual(self.split(POINTS + FIRST + LAST.rstrip("\n")), (0, "", ""))
        first, last = (part.split("\n", 1) for part in (FIRST, LAST))
        wanted = [f"{head}\n{POINTS}{rest}" for head, rest in (first, last)]
        self.assertEqual(self.files(), {"part-00001.txt": wanted[0], "part-00002.txt": wanted[1]})

    def test_answers_to_them_are_put_together(self) -> None:
        self.split(FIRST + LAST)
        (self.folder / "part-00001.audit").write_text("feasible\n")
        (self.folder / "part-00002.audit").write_text("late slot 1 t.4 320 deadline 300\n")
        told = call("whole", *(self.folder / f"part-0000{number}.audit" for number in (1, 2)))
        self.assertEqual((told.status, told.out), (1, "late slot 3 t.4 920 deadline 900\n"))

    def test_a_verdict_on_no_slot_of_a_part(self) -> None:
        self.split(FIRST + LAST)
        (self.folder / "part-00001.audit").write_text("feasible\n")
        for number in (0, 2):
            (self.folder / "part-00002.audit").write_text(f"late slot {number} t.4 320 deadline 300\n")
            told = call("whole", *(self.folder / f"part-0000{number}.audit" for number in (1, 2)))
            self.assertEqual((told.status, told.out), (1, "failed\n"))
            self.assertIn(f"part-00002.audit: tells of slot {number}, and the part has 1", told.err)

    def test_a_part_without_jobs(self) -> None:
        empty = "# part 1: jobs 1 to 0, from 7 to 7, shift 7, the last\nticks 1\n# 0 jobs written, 2 left out\n"
        self.assertEqual(self.split(empty), (0, "", ""))
        self.assertEqual(self.files(), {"part-00001.txt": empty})

    def test_what_is_refused(self) -> None:
        for text, told in [
            ("", "there is no part; the first line of one is as '# part 1: jobs 1 to 4000, ..'"),
            (FIRST, "part 1 isn't the last one, and none follows: the text is cut short"),
            (FIRST + LAST[:170], "line 10: part 2 has 0 jobs, and its head tells 1"),
            (
                FIRST + LAST[:250],
                "line 10: part 2 doesn't end with '# 1 jobs written, ..': the text is cut short",
            ),
            (LAST, "line 1: part 2 here, where part 1 is missing"),
            (FIRST + LAST + LAST, "line 17: a part behind part 2, which is the last one"),
            (FIRST + LAST.replace("3 to 3", "4 to 4"), "line 10: part 2 begins with job 4, and job 3 is missing"),
            ("job a 0 4 8\n" + FIRST, "line 1: before the first part only points and comments stand"),
            (
                FIRST + "# line 38: events were lost\nfailed\n",
                "line 11: what wrote these parts has failed: line 38: events were lost",
            ),
            (FIRST + "failed\n", "line 10: what wrote these parts has failed: 2 jobs written, none left out"),
            (
                FIRST.replace("1 to 2", "1 to 5000") + "job x 0 1 1\n" * 4000 + LAST,
                "line 4008: part 1 has more than 4000 jobs or 8388608 bytes, the limits of a document",
            ),
        ]:
            with self.subTest(told):
                self.assertEqual(self.split(text), (1, "", f"yds-parts: {told}\n"))
                self.assertEqual(self.files(), {"part-00001.txt": "failed\n"})

    def test_each_processor_has_files_of_its_own(self) -> None:
        self.assertEqual(self.split(POINTS + SEVERAL), (0, "", ""))
        places = {
            "cpu0-part-00001.txt": of(FIRST, 0, True),
            "cpu1-part-00001.txt": of(EMPTY, 1, True),
            "cpu2-part-00001.txt": of(FIRST, 2),
            "cpu2-part-00002.txt": of(LAST, 2, True),
        }
        self.assertEqual(self.files(), {name: text.replace("\n", "\n" + POINTS, 1) for name, text in places.items()})
        self.assertIn(", shift 600, cpu 2, windows open, the last\n", places["cpu2-part-00002.txt"])
        self.assertEqual(self.split(FIRST + LAST).status, 0)
        self.assertEqual(sorted(self.files()), ["part-00001.txt", "part-00002.txt"])

    def test_one_processor_of_its_own_number(self) -> None:
        self.assertEqual(self.split(of(FIRST, 0, True)), (0, "", ""))
        self.assertEqual(self.files(), {"cpu0-part-00001.txt": of(FIRST, 0, True)})

    def test_answers_of_one_processor_are_put_together(self) -> None:
        self.split(SEVERAL)
        for part in self.folder.glob("*.txt"):
            part.with_suffix(".audit").write_text("feasible\n")
        (self.folder / "cpu2-part-00002.audit").write_text("late slot 1 t.4 320 deadline 300\n")
        answers = sorted(self.folder.glob("*.audit"))
        told = call("whole", "--cpu", 2, *answers)
        self.assertEqual((told.status, told.out), (1, "late slot 3 t.4 920 deadline 900\n"))
        for cpu in (0, 1):
            self.assertEqual(call("whole", "--cpu", cpu, *answers), (0, "feasible\n", ""))
        self.assertEqual(call("whole", *answers[2:]).out, told.out)

    def test_answers_of_several_processors_are_no_whole(self) -> None:
        self.split(SEVERAL)
        for part in self.folder.glob("*.txt"):
            part.with_suffix(".audit").write_text("feasible\n")
        answers = sorted(self.folder.glob("*.audit"))
        for places in ([0, 1, 2, 3], [0, 3]):
            told = call("whole", *(answers[place] for place in places))
            self.assertEqual((told.status, told.out), (1, "failed\n"))
            self.assertIn("and the first one of processor 0; give those of one processor (yds-whole --cpu N)", told.err)
        told = call("whole", "--cpu", 2, *answers[:3])
        self.assertIn("cpu2-part-00001.audit: is not the last part", told.err)
        told = call("whole", "--cpu", 3, *answers)
        self.assertEqual((told.status, told.out), (1, "failed\n"))
        self.assertIn("no part of processor 3 is among those of the files", told.err)
        self.assertEqual(call("whole", "--cpu", "all", *answers).status, 2)

    def test_parts_of_several_processors_have_no_bounds(self) -> None:
        self.split(POINTS + SEVERAL)
        told = "part 2 is of another processor; give those of one \\(yds-whole --cpu N\\)"
        with self.assertRaisesRegex(parts.PartsError, told):
            parts.bounds(sorted(self.folder.glob("*.txt")), answer=lambda words, document: (0, b""))

    def test_what_is_refused_of_several_processors(self) -> None:
        first, last, empty = of(FIRST, 2), of(LAST, 2, True), of(EMPTY, 1, True)
        none = of(FIRST, 0, True)
        for text, told in [
            (first, "processor 0 has no last part: the text is cut short"),
            (first + none, "processor 1 has no last part: the text is cut short"),
            (first + none + empty, "processor 2 has no last part: the text is cut short"),
            (first + none + last, "line 19: part 2 of processor 2 here, where the last one of processor 1 is missing"),
            (first + empty, "line 10: part 1 of processor 1 here, where the last one of processor 0 is missing"),
            (none + first + empty + last, "line 10: part 1 of processor 2 here, where the last one of processor 1 is missing"),
            (none + empty + last, "line 13: part 2 of processor 2 here, where part 1 is missing"),
            (SEVERAL + of(FIRST, 0), "line 29: a part of processor 0 behind part 1, which is the last one"),
            (SEVERAL.replace("3 to 3", "4 to 4"), "line 22: part 2 of processor 2 begins with job 4, and job 3 is missing"),
            (FIRST + none, "line 10: part 1 of processor 0 in a text of another trace: give one trace"),
            (none + FIRST, "line 10: part 1 in a text of another trace: give one trace"),
            (
                first + none + empty + last[:250],
                "line 22: part 2 of processor 2 doesn't end with '# 1 jobs written, ..': the text is cut short",
            ),
            (
                first + none + "# part 1: no job can be written\nfailed\n",
                "line 20: what wrote these parts has failed: part 1: no job can be written",
            ),
        ]:
            with self.subTest(told):
                self.assertEqual(self.split(text), (1, "", f"yds-parts: {told}\n"))
                self.assertEqual(self.files(), {"part-00001.txt": "failed\n"})

    def test_a_tool_that_reads_one_document(self) -> None:
        for text in (SEVERAL, of(FIRST, 0, True) + of(EMPTY, 1, True)):
            told = call("changes", given=text.encode())
            self.assertEqual(told.status, 1)
            self.assertIn("another part begins here, behind that of line 1", told.err)
        self.assertEqual(call("changes", given=of(FIRST, 0, True).encode()).status, 0)

    def test_words(self) -> None:
        for words in (("--jobs", 5), ("--shift",)):
            told = "--split takes the parts as they are; leave --jobs and --shift out; see yds-parts --help"
            self.assertEqual(self.split(FIRST + LAST, *words), (2, "", f"yds-parts: {told}\n"))

    def test_parts_without_the_word(self) -> None:
        told = "line 10: the head of part 2, so the input is parts already; give --split"
        done = call("parts", "--folder", self.folder, given=(FIRST + LAST).encode())
        self.assertEqual(done, (1, "", f"yds-parts: {told}\n"))

    def test_points_are_joined_with_parts(self) -> None:
        places = [self.folder.with_name(name) for name in ("points", "parts.txt")]
        for place, text in zip(places, (POINTS, FIRST + LAST)):
            place.write_text(text)
        self.assertEqual(call("join", *places), (0, POINTS + FIRST + LAST, ""))


if __name__ == "__main__":
    unittest.main()
