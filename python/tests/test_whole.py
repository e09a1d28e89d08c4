"""The answers to parts, put together."""

import unittest

import drawn
from in_parts import GRID, SHORT, answered, joined, lines, program, texts
from yds import parts
from yds._heads import read_head


class WholeTest(unittest.TestCase):
    def test_by_hand(self) -> None:
        found = texts(SHORT, 1)
        plan = [b"job a 0 4 8", b"job b 4 6 4", b"job c 9 12 3", b"point 0 1", b"point 2 5", b"slot a 0 4 8", b"slot b 4 6 4"]
        plan += [b"slot c 9 12 3", b"level 12 6", b"piece 0 6", b"member a", b"member b", b"level 3 3", b"piece 9 12"]
        self.assertEqual(joined(parts.whole(found, answered(found, "plan"))), b"\n".join([*plan, b"member c", b""]))
        rounded = joined(parts.whole(found, answered(found, "round")))
        self.assertEqual(rounded.split(b"\n")[-2], b"energy 42")
        compared = joined(parts.whole(found, answered(found, "compare", "--grid", "1")))
        self.assertEqual(compared.split(b"\n")[:3], [b"plan energy 42", b"plan time 0 4+1/2", b"plan time 2 7+1/2"])
        table = joined(parts.whole(found, answered(found, "report")))
        wanted = b"jobs 3 work 15 from 0 to 12\n    1         12          6 2\n    2          3          3 1\nidle 3\n"
        self.assertEqual(table, wanted)
        checked = [program(answer, "check")[1] for answer in answered(found, "plan")]
        self.assertEqual(joined(parts.whole(found, checked)), b"accepted\n")

    def test_sums_beyond_a_float(self) -> None:
        found = texts(lines("job a 0 4 1", "job b 10 14 1", "point 0 0", "point 1 1"), 1)
        first = b"plan energy 9007199254740993+1/3\nplan time 0 3+2/3\nplan time 1 0+1/3\n"
        second = b"plan energy 5+1/1152921504606846975\nplan time 0 3+1/7\nplan time 1 0+6/7\n"
        wanted = b"plan energy 9007199254740998+384307168202282326/1152921504606846975\n"
        wanted += b"plan time 0 12+17/21\nplan time 1 1+4/21\n"
        self.assertEqual(joined(parts.whole(found, [first, second])), wanted)
        with self.assertRaisesRegex(parts.PartsError, "the times of plan in all parts aren't those of the parts' jobs"):
            parts.whole(found, [first.replace(b"3+2/3", b"3"), second])

    def test_too_slow(self) -> None:
        document = lines("job a 0 4 8", "job b 4 6 10", "job c 9 12 15", "job d 20 21 4", "point 0 1", "point 2 5")
        found = texts(document, 1)
        told = parts.whole(found, answered(found, "round"))
        self.assertEqual((told.yes, joined(told)), (False, b"too-slow work 25 length 5 top 2\n"))

    def test_slots_before_works_with_numbers_of_the_whole(self) -> None:
        document = lines("job a 0 9 2", "job b 1 9 1", "job c 5 9 1", "ticks 1", "run a 0 1 1", "run b 1 2 1", "run c 4 5 1")
        found = texts(document, 1)
        self.assertTrue(all(", windows open" in drawn.seen(text).head for text in found[1:]))
        told = parts.whole(found, answered(found, "audit"))
        self.assertEqual((told.yes, joined(told)), (False, b"early slot 3 c 4 release 5\n"))
        self.assertEqual(told.told, (
            "the answer of part 1: work a given 1 wanted 2", "the answer of part 3: early slot 1 c 4 release 5"
        ))  # fmt: skip

    def test_a_late_run_behind_a_cut(self) -> None:
        document = lines("job a 0 4 2", "job b 4 9 1", "ticks 1", "run a 0 1 1", "run b 4 5 1", "run a 5 6 1")
        found = texts(document, 1)
        self.assertEqual(joined(parts.whole(found, answered(found, "audit"))), b"late slot 3 a 6 deadline 4\n")

    def test_parts_of_a_trace(self) -> None:
        # What yds_trace --parts writes: the first line of each, with times of the whole, and a last part without a job.
        first = b"# part 1: jobs 1 to 1, from 100 to 1100, shift 100\n# CPU 0 of a kernel trace; time 0 is 5.001000000 s\n"
        first += b"job t.0 0 1000 20000\nticks 1\nrun t.0 0 200 100\n# 1 job written, none left out\n"
        second = b"# part 2: jobs 2 to 2, from 1100 to 2100, shift 1100, windows open\n"
        second += first.split(b"\n", 1)[1].replace(b"t.0", b"t.1")
        last = b"# part 3: jobs 3 to 2, from 0 to 0, shift 0, the last\nticks 1\n# 0 jobs written, none left out\n"
        found = [first, second, last]
        heads = [read_head(text.split(b"\n")[0]) for text in found]
        self.assertEqual([head.jobs if head else None for head in heads], [1, 1, 0])
        told = parts.whole(found, [b"feasible\n"] * 3)
        self.assertEqual((told.yes, joined(told)), (True, b"feasible\n"))
        missed = parts.whole(found, [b"feasible\n", b"late slot 1 t.1 1200 deadline 1000\n", b"feasible\n"])
        self.assertEqual((missed.yes, joined(missed)), (False, b"late slot 2 t.1 2300 deadline 2100\n"))
        with self.assertRaisesRegex(parts.PartsError, "the last"):
            parts.whole(found[:2], [b"feasible\n"] * 2)

    def test_slots_of_two_parts_that_overlap(self) -> None:
        document = lines("job a 0 4 2", "job b 1 9 1", "ticks 1", "run a 1 3 1", "run b 2 3 1")
        found = texts(document, 1)
        self.assertEqual([program(text, "audit")[1] for text in found], [b"feasible\n", b"feasible\n"])
        told = parts.whole(found, answered(found, "audit"))
        self.assertEqual((told.yes, joined(told)), (False, b"overlap slot 2 b 2 previous 3\n"))

    def test_parts_without_comments_on_their_slots(self) -> None:
        """As yds_trace writes them: the slots of each part come after those of the part before."""
        document = lines("job a 0 4 2", "job b 4 6 1", "ticks 10", "run a 10 30 1", "run b 40 60 1")
        found = [text.replace(b"# slot 2 after run 30\n", b"") for text in texts(document, 1)]
        told = parts.whole(found, [b"feasible\n", b"late slot 1 b 7 deadline 6\n"])
        self.assertEqual(joined(told), b"late slot 2 b 7 deadline 6\n")
        found[1] = found[1].replace(b"run b 40", b"run b 29")
        self.assertEqual(joined(parts.whole(found, [b"feasible\n"] * 2)), b"overlap slot 2 b 2+9/10 previous 3\n")

    def test_the_first_slot_in_a_later_part(self) -> None:
        found = texts(lines("job a 0 4 2", "job b 4 6 1", "ticks 1", "run b 3 4 1", "run a 4 6 1"), 1)
        self.assertIn(b"\n# slot 1 after no slot\nrun b 3 4 1\n", found[1])
        self.assertEqual(joined(parts.whole(found, answered(found, "audit"))), b"early slot 1 b 3 release 4\n")

    def test_windows_open(self) -> None:
        document = lines("job a 0 4 4", "job b 2 6 4", "point 0 1", "point 1 2", "point 2 5")
        found = texts(document, 1)
        told = joined(parts.whole(found, answered(found, "compare", "--grid", GRID), int(GRID)))
        self.assertEqual(told.split(b"\n")[0], b"plan at-least 14")
        self.assertIn(b"\navr at-least 14\n", told)
        self.assertIn(b"\n# oa: no bound of its energy, since windows are open at 1 of 1 cuts\n", told)
        self.assertNotIn(b"energy 1", told)
        for words in ("plan", "round", "report", "avr --grid 1"):
            with self.assertRaisesRegex(parts.PartsError, "windows are open at 1 of 1 cuts, and so answers of this kind"):
                parts.whole(found, answered(found, *words.split()))
        compared = answered(found, "compare", "--grid", GRID)
        rounded = [answer.replace(b"rounded 0", b"rounded 1") for answer in compared]
        why = b"since windows are open at 1 of 1 cuts and the runs of the parts rounded up 2 times"
        self.assertIn(b"\n# avr: no bound of its energy, " + why, joined(parts.whole(found, rounded)))

    def test_average_rate_of_all_jobs_that_rounds(self) -> None:
        """No part's run rounds. The run of all does at 1, where the second part has an event point: it spends 4, and the parts 5."""
        document = lines("job d 0 1 0", "job a 0 4 2", "job c 2 4 2", "point 0 0", "point 1 1", "point 2 3")
        self.assertIn(b"avr energy 4\n", program(b"".join(document), "compare", "--grid", "1")[1])
        found = [
            b"# part 1: jobs 1 to 1, from 0 to 1, shift 0\n" + document[0] + b"".join(document[3:]),
            b"# part 2: jobs 2 to 3, from 0 to 4, shift 0, windows open, the last\n" + b"".join(document[1:]),
        ]
        compared = answered(found, "compare", "--grid", "1")
        self.assertTrue(all(b"avr rounded 0\n" in answer for answer in compared))
        told = joined(parts.whole(found, compared, 1))
        self.assertIn(b"\n# avr: no bound of its energy, since windows are open at 1 of 1 cuts and the run of all jobs would "
                      b"round up, first for job a at 1; take a finer grid\n", told)  # fmt: skip
        self.assertIn(b"\n# avr: no bound of its energy, since windows are open at 1 of 1 cuts and only with compare's grid",
                      joined(parts.whole(found, compared)))  # fmt: skip
        self.assertIn(b"\navr at-least 5\n", joined(parts.whole(found, answered(found, "compare", "--grid", "2"), 2)))

    def test_a_given_schedule_where_windows_are_open(self) -> None:
        document = lines("job a 0 4 2", "job b 2 6 2", "point 0 1", "point 1 2", "ticks 1", "run a 0 2 1", "run b 2 4 1")
        found = texts(document, 1)
        given = [b"governor energy 6\ngovernor time 0 2\ngovernor time 1 2\n"] * 2
        self.assertEqual(joined(parts.whole(found, given)), b"governor energy 10\ngovernor time 0 2\ngovernor time 1 4\n")

    def test_each_field_of_each_line_broken(self) -> None:
        """Names of slots and members aren't looked up, and the other fields all are."""
        found = texts(SHORT, 2)
        for words in ("plan", "round", "report", "compare --grid 1", "audit", "avr --grid 1"):
            first, second = answered(found, *words.split())
            rows = [line.split(b" ") for line in second.split(b"\n")[:-1]]
            for row, fields in enumerate(rows):
                named = fields[0] in (b"slot", b"member", b"work")
                for field in range(len(fields)):
                    for broken in (b"", b"-1", b"x", b"1+1/0", fields[field] + b" 1"):
                        if not fields[field] or named and field == 1:
                            continue
                        lines_now = [*rows[:row], [*fields[:field], broken, *fields[field + 1 :]], *rows[row + 1 :]]
                        text = b"".join(b" ".join(line) + b"\n" for line in lines_now)
                        with self.subTest(text), self.assertRaises(parts.PartsError):
                            joined(parts.whole(found, [first, text]))

    def test_no_answer(self) -> None:
        found = texts(SHORT, 1)
        plans = answered(found, "plan")
        for place, answer, message in [
            (1, b"", "the answer of part 2: is empty: lack of memory, or the program didn't run"),
            (2, b"job c 9 12 3\nslot c 9 12 3\nlevel 3", "the answer of part 3: ends without a line feed: it was cut"),
            (2, b"job c 9 12 3\npoint 0 1\npoint 2 5\nslot c 9 12 3\n", "isn't whole: the levels have 0 of the jobs' work of 3"),
            (1, b"refused 2 9 EmptyWindow\n", "refused 2 9 EmptyWindow, in the text of part 2: job b 4 6 4"),
            (1, b"refused too-long\n", "the answer of part 2: refused too-long"),
            (1, b"failed\n", "the answer of part 2: failed"),
            (1, b"break 0 4\n", '"break 0 4" is no line of an answer that can be put together'),
            (1, program(found[1], "report")[1], "another kind of answer than that to part 1"),
            (1, program(found[1], "avr", "--grid", "1")[1], "another kind of answer than that to part 1"),
            (1, program(found[1].replace(b"point 2", b"point 3"), "plan")[1], "other points than those of part 1"),
            (1, program(found[1].replace(b"b 4 6", b"b 4 7"), "plan")[1], "the jobs aren't those of the text of part 2"),
        ]:
            with self.subTest(answer), self.assertRaises(parts.PartsError) as raised:
                parts.whole(found, [*plans[:place], answer, *plans[place + 1 :]])
            self.assertIn(message, str(raised.exception))
        for some, message in [
            (slice(0, 2), "is not the last part; the answers to the parts after it aren't among those named"),
            (slice(0, 3, 2), "is the answer to part 3, and that to part 2 is missing"),
            (slice(0, 0), "no answer is named"),
        ]:
            with self.subTest(some), self.assertRaisesRegex(parts.PartsError, message):
                parts.whole(found[some], plans[some])
        with self.assertRaisesRegex(parts.PartsError, '"feasible" stands after the verdict'):
            parts.whole(found, [b"feasible\nfeasible\n", b"feasible\n", b"feasible\n"])

if __name__ == "__main__":
    unittest.main()
