"""Where a long document is cut, the texts of its parts, and what is refused."""

import io
import unittest

import drawn
from in_parts import SHORT, lines, texts
from yds import parts


class CutTest(unittest.TestCase):
    def test_three_parts(self) -> None:
        found = texts(SHORT, 1)
        self.assertEqual(len(found), 3)
        last = b"# part 3: jobs 3 to 3, from 9 to 12, shift 0, the last\njob c 9 12 3\npoint 0 1\npoint 2 5\n"
        self.assertEqual(found[2], last)

    def test_a_closed_instant_goes_before_a_later_one_with_windows_open(self) -> None:
        found = texts(lines("job a 0 4 1", "job b 4 9 1", "job c 5 9 1", "job d 6 9 1"), 3)
        self.assertEqual([drawn.seen(text).head for text in found], [
            "# part 1: jobs 1 to 1, from 0 to 4, shift 0",
            "# part 2: jobs 2 to 4, from 4 to 9, shift 0, the last",
        ])  # fmt: skip

    def test_a_quiet_instant_with_windows_open(self) -> None:
        document = lines(
            "job a 0 9 2", "job b 1 9 1", "job c 2 9 1", "ticks 1", "run a 0 1 1", "run b 1 2 1", "run a 2 3 1", "run c 3 4 1"
        )
        found = texts(document, 2)
        self.assertEqual(drawn.seen(found[1]).head, "# part 2: jobs 3 to 3, from 2 to 9, shift 0, windows open, the last")
        self.assertEqual(found[1].split(b"\n")[-3:-1], [b"# slot 4 after run 3", b"run c 3 4 1"])
        with self.assertRaisesRegex(parts.PartsError, "no place to cut from job a to job a: .* are 2, above 1"):
            texts(document, 1)

    def test_a_late_run_behind_a_closed_instant_goes_into_its_jobs_part(self) -> None:
        document = lines("job a 0 4 2", "job b 4 9 1", "ticks 1", "run a 0 1 1", "run b 4 5 1", "run a 5 6 1")
        found = texts(document, 1)
        self.assertEqual(found[0].split(b"\n")[-3:-1], [b"# slot 3 after run 5", b"run a 5 6 1"])

    def test_a_run_far_from_its_job(self) -> None:
        many = [b"job j%d %d %d 1\n" % (job, job, job + 1) for job in range(9000)]
        found = texts([*many, b"ticks 1\n", b"run j8999 8999 9000 1\n", b"run j3 9000 9001 1\n"])
        self.assertEqual([len(drawn.seen(text).jobs) for text in found], [3, 4000, 4000, 997])
        self.assertEqual(drawn.seen(found[1]).runs, [["2", "j3", "9000", "9001", "1"]])

    def test_times_from_0(self) -> None:
        document = lines("job a 2000000000000 2000000000004 8", "job b 2000000000004 2000000000006 4", "ticks 10",
                         "run a 20000000000005 20000000000010 3")  # fmt: skip
        found = texts(document, 1, shift=True)
        self.assertEqual(found[0], b"# part 1: jobs 1 to 1, from 2000000000000 to 2000000000004, shift 2000000000000\n"
                                   b"job a 0 4 8\nticks 10\nrun a 5 10 3\n")  # fmt: skip
        with self.assertRaisesRegex(parts.PartsError, r"line 1: a time above 1000000000; shift the times of each part \(--shift\)"):
            texts(document, 1)

    def test_comments_and_units(self) -> None:
        document = lines("# time unit 10 us", "# first", *(line.decode().strip() for line in SHORT), "# left out: j.7")
        found = texts(document, 1)
        self.assertTrue(all(b"# time unit 10 us\n" in text for text in found))
        self.assertEqual(sum(text.count(b"# left out: j.7\n") for text in found), 1)
        self.assertEqual(sum(text.count(b"# first\n") for text in found), 1)

    def test_a_part_has_no_period(self) -> None:
        """What repeats is the whole: the hours of a part's energies would be those of a processor that sleeps for the rest."""
        document = lines("# period 2000", *(line.decode().strip() for line in SHORT))
        parts = texts(document, 1)
        self.assertGreater(len(parts), 1)
        self.assertFalse([text for text in parts if b"# period" in text])
        self.assertEqual(sum(text.count(b"# no period: a part of what repeats after 2000\n") for text in parts), 1)
        whole = texts(document, 4000)
        self.assertEqual((len(whole), b"# period 2000\n" in whole[0]), (1, True))

    def test_windows_line_ends_tabs_and_empty_lines(self) -> None:
        other = [line.replace(b" ", b"\t ").replace(b"\n", b"\r\n") for line in SHORT for line in (b"\n", line)]
        self.assertEqual(texts(other, 1), texts(SHORT, 1))

    def test_faults(self) -> None:
        order = "line 3: job c is released at 3, and one above it at 5; the jobs need the order of their releases: "
        for document, message in [
            (("job a 0 4 8", "job b 5 6 1", "job c 3 9 1"), order),
            (("job a 0 4 8", "job b 4 6 1", "", "job a 6 9 1"), "line 4: a job of the name a is there already, at line 1"),
            (("job a 0 4 8", "slot b 0 4 8"), "line 2: no job of the name b"),
            (("job a 0 4 8", "slot b 4 5 8", "job b 4 5 8"), "line 2: the line of job b comes after it, as line 3"),
            (("job a 0 4 8", "run a 0 4 2", "ticks 1"), "line 2: a run before any line of ticks"),
            (("ticks 1", "ticks 1", "job a 0 4 8"), "line 2: a second line of ticks"),
            (("job a 0 4 8", "job b 4 6"), "line 2: a job is: job NAME RELEASE DEADLINE WORK, in whole numbers"),
            (("job a 0 4 8", "job b 04 6 1"), "line 2: a job is: job NAME RELEASE DEADLINE WORK, in whole numbers"),
            (("job a 0 4 8", "job b 4 6 -1"), "line 2: a job is: job NAME RELEASE DEADLINE WORK, in whole numbers"),
            (("job a 0 4 " + "9" * 1000000,), "line 1: a job is: job NAME RELEASE DEADLINE WORK, in whole numbers"),
            (("job a 4 4 8",), "line 1: job a has its deadline 4 at or before its release 4"),
            (("job a 0 4 1000001",), "line 1: a work above 1000000"),
            (("job " + "a" * 65 + " 0 4 8",), "line 1: a name of more than 64 bytes"),
            (("failed",), "line 1: the input is an answer of no: failed"),
            (("job a 0 4 8", "jobs b 4 6 1"), "line 2: jobs is no kind of line"),
            (("job a 0 4 8", "slot a 0 1+1/ 8"), "line 2: a slot is: slot NAME FROM TO WORK"),
            (("job a 0 4 8", "slot a\x0b0 4 8"), "line 2: a byte that stands in no line but a comment"),
            (("# time unit 10 us", "job a 0 4 8", "# time unit 1 us"), "line 3: a unit of time of 1 us here and 10 us before; give both the same --us"),
            (("point 0 1", "# no job"), "no job line; look at what wrote the input"),
            ((), "the input is empty; look at what wrote it"),
        ]:
            with self.subTest(document), self.assertRaises(parts.PartsError) as raised:
                texts(lines(*document), 2)
            self.assertIn(message, str(raised.exception))

    def test_lines_of_a_file_and_of_a_list_are_the_same(self) -> None:
        many = [b"job j%d %d %d 1\n" % (job, job, job + 3) for job in range(9000)] + [b"# between\n", b"ticks 2\n"]
        many += [b"run j%d %d %d 1\n" % (job, 2 * job, 2 * job + 2) for job in range(9000)]
        many[-1] = many[-1][:-1]
        self.assertEqual(texts(many, 700), texts(io.BytesIO(b"".join(many)), 700))

    def test_two_lines_in_one_are_no_line(self) -> None:
        for document in ([b"job a 0 4 8\njobs b 4 6 4\n"], [b"job a 0 4 8\njob b 4 6 4\n", b"job c 5 9"]):
            with self.assertRaises(parts.PartsError):
                texts(document)

    def test_names_with_equal_hashes_are_looked_up(self) -> None:
        from yds import _long

        _long.hash = lambda name: 7  # type: ignore[attr-defined]
        try:
            self.assertEqual(len(texts(SHORT, 1)), 3)
            with self.assertRaisesRegex(parts.PartsError, "line 6: a job of the name a is there already, at line 1"):
                texts([*SHORT, b"job a 12 13 1\n"], 1)
        finally:
            del _long.hash  # type: ignore[attr-defined]

if __name__ == "__main__":
    unittest.main()
