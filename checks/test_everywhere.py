"""test_everywhere.py: tries the second reading of a trace of several processors on cases that are written by hand.

    python3 checks/test_everywhere.py

It is that of `yds_trace --cpu all`, `--moved parts`, `--others spans` and of lines out of order in robustness/second.py and
parted.py. In the cases of cuts, a part is looked for behind each 8th line, and two jobs or three spans are much. The last
line is 'N passed, M failed'.
"""

import sys
import unittest
from pathlib import Path
from typing import List, Sequence

ROOT = Path(__file__).resolve().parent.parent
sys.path.insert(0, str(ROOT / "robustness"))

import parted  # noqa: E402
import trace as whole  # noqa: E402
from second import asked_by, ordered  # noqa: E402

SMALL = parted.Limits(8, 1, 100, 2, 3, 100, 6)
"""Less is looked at than the program does, so that a case can be read."""
PIDS = {"swapper": 0, "a": 10, "b": 11, "c": 12, "d": 13}
UNITS = "# time unit 10 us, speed unit 10000 kHz, work unit 100 cycles"
WORDS = ["--tasks", "a:1.5,b:1.5", "--start", "1000000", "--lost", "cut"]


def stamp(processor: int, time: int) -> str:
    """The begin of a line. Times are microseconds."""
    return f" who-5 [{processor:03d}] d..2. {5 + time // 10**6}.{time % 10**6:06d}: "


def wake(processor: int, time: int, name: str) -> str:
    """A wake-up, as a line of this processor."""
    return f"{stamp(processor, time)}sched_waking: comm={name} pid={PIDS[name]} prio=120 target_cpu=000"


def switch(processor: int, time: int, before: str, state: str, after: str) -> str:
    """A switch."""
    return (f"{stamp(processor, time)}sched_switch: prev_comm={before} prev_pid={PIDS[before]} prev_prio=120 prev_state={state} ==>"
            f" next_comm={after} next_pid={PIDS[after]} next_prio=120")


def other(processor: int, time: int) -> str:
    """A line of another event."""
    return f"{stamp(processor, time)}irq_handler_entry: irq=1 name=x"


def job(processor: int, time: int, name: str) -> List[str]:
    """A job that is woken, runs for a millisecond from the tenth of one on, and ends."""
    return [wake(processor, time, name), switch(processor, time + 100, "swapper", "R", name), switch(processor, time + 1100, name, "S", "swapper")]


def told(lines: Sequence[str], *more: str, limits: parted.Limits = parted.FULL) -> List[str]:
    """The lines that are written of a trace."""
    return parted.told_in_parts(("\n".join(lines) + "\n").encode(), asked_by([*WORDS, "--cpu", "all", *more]), limits)[0].text.splitlines()


def cut_small(lines: Sequence[str], *more: str) -> List[str]:
    """The same, where a part is looked for behind each 8th line."""
    return told(lines, *more, limits=SMALL)


def alone(lines: Sequence[str], *more: str) -> List[str]:
    """The lines that are written of one processor, as one document."""
    return whole.told([*WORDS, *more], ("\n".join(lines) + "\n").encode()).text.splitlines()


def order_of(*lines: "int | str") -> List[int]:
    """The numbers of the lines in order of time. A number stands for an event at so many nanoseconds."""
    texts = [line if isinstance(line, str) else f" who-5 [001] d..2. 7.{line:09d}: irq_handler_entry: irq=1" for line in lines]
    return [one.number for one in ordered(("\n".join(texts) + "\n").encode()).placed]


class InOrderOfTime(unittest.TestCase):
    """Where a line is put."""

    LATER = 5_000_000

    def test_a_line_is_put_before_each_that_is_later(self) -> None:
        self.assertEqual(order_of(1, 4, 3, 2, 5), [1, 4, 3, 2, 5])

    def test_lines_of_one_time_are_in_the_order_of_the_text(self) -> None:
        self.assertEqual(order_of(9, 4, 4, 9, 4), [2, 3, 5, 1, 4])

    def test_a_millisecond_is_passed_and_a_nanosecond_more_is_not(self) -> None:
        self.assertEqual(order_of(self.LATER, self.LATER - 1_000_000), [2, 1])
        self.assertEqual(order_of(self.LATER, self.LATER - 1_000_001), [1, 2])

    def test_64_lines_are_passed_and_65_are_not(self) -> None:
        self.assertEqual(order_of(*[self.LATER] * 64, 4_500_000), [65, *range(1, 65)])
        self.assertEqual(order_of(*[self.LATER] * 65, 4_500_000), [*range(1, 67)])

    def test_nothing_is_put_before_a_line_that_stays(self) -> None:
        self.assertEqual(order_of(self.LATER, 1, 4_500_000, 4_400_000), [1, 2, 4, 3])

    def test_nothing_is_put_before_lost_events(self) -> None:
        self.assertEqual(order_of(5, "CPU:1 [LOST 3 EVENTS]", 4, 3), [1, 2, 4, 3])

    def test_lost_events_with_a_stamp_have_their_time(self) -> None:
        self.assertEqual(order_of(5, " who 5 [001] 7.000000004: PERF_RECORD_LOST lost 7", 3), [3, 2, 1])

    def test_a_line_that_says_nothing_has_no_place(self) -> None:
        self.assertEqual(order_of("# tracer: nop", 5, "#", 4), [4, 2])

    def test_lines_behind_one_whose_form_is_refused_are_not_read(self) -> None:
        self.assertEqual(order_of(5, " who-5 [001] d..2. 7.000000006: cpu_frequency: x", 4), [1])

    def test_the_number_of_the_text_is_told(self) -> None:
        self.assertEqual(told(["# tracer: nop", wake(0, 100, "a"), switch(0, 300, "a", "Q", "swapper"), switch(0, 200, "swapper", "R", "a")])[-2:],
                         ["# line 3: a task leaves in a state that the kernel doesn't have; write the trace anew", "failed"])


class Belonging(unittest.TestCase):
    """Which processor's document has a job."""

    maxDiff = None

    def test_a_job_is_in_the_document_of_its_processor(self) -> None:
        self.assertEqual(told([*job(1, 0, "a"), *job(0, 2000, "b")]), [
            "# part 1: jobs 1 to 1, from 200 to 350, shift 200, cpu 0, the last",
            "# CPU 0 of a kernel trace; time 0 is 5.002000000 s",
            UNITS,
            "job b.0 0 150 10000",
            "ticks 1",
            "run b.0 10 110 100",
            "# 1 job written, none left out",
            "# part 1: jobs 1 to 1, from 0 to 150, shift 0, cpu 1, the last",
            "# CPU 1 of a kernel trace; time 0 is 5.000000000 s",
            UNITS,
            "job a.0 0 150 10000",
            "ticks 1",
            "run a.0 10 110 100",
            "# 1 job written, none left out",
        ])

    def test_the_word_for_parts_changes_nothing(self) -> None:
        lines = [*job(1, 0, "a"), *job(0, 2000, "b")]
        self.assertEqual(told(lines, "--parts"), told(lines))

    def test_a_job_that_moved_is_left_out_in_both_and_is_in_no_third(self) -> None:
        """Its name counts over all jobs of its task: a.1 is the second of a's, and the only one of processor 1."""
        moves = [
            wake(0, 2000, "a"), switch(1, 2100, "swapper", "R", "a"), switch(1, 2200, "a", "R", "swapper"),
            switch(2, 2300, "swapper", "R", "a"), switch(2, 2400, "a", "S", "swapper"),
        ]
        self.assertEqual(told([*job(0, 0, "a"), *job(0, 2000, "b")[:0], *moves, *job(2, 4000, "b")]), [
            "# part 1: jobs 1 to 1, from 0 to 150, shift 0, cpu 0, the last",
            "# CPU 0 of a kernel trace; time 0 is 5.000000000 s",
            UNITS,
            "job a.0 0 150 10000",
            "ticks 1",
            "run a.0 10 110 100",
            "# 1 job written, none left out",
            "# part 1: jobs 1 to 0, from 200 to 200, shift 200, cpu 1, the last",
            "# CPU 1 of a kernel trace; time 0 is 5.002000000 s",
            UNITS,
            "ticks 1",
            "# left out: a.1 (ran on another processor)",
            "# 0 jobs written, 1 left out",
            "# part 1: jobs 1 to 1, from 400 to 550, shift 200, cpu 2, the last",
            "# CPU 2 of a kernel trace; time 0 is 5.002000000 s",
            UNITS,
            "job b.0 200 350 10000",
            "ticks 1",
            "run b.0 210 310 100",
            "# left out: a.1 (ran on another processor)",
            "# 1 job written, 1 left out",
        ])

    def test_a_late_job_that_moved_is_written_in_both_without_its_runs(self) -> None:
        moves = [
            wake(0, 0, "a"), switch(1, 100, "swapper", "R", "a"), switch(1, 1100, "a", "R", "swapper"),
            switch(0, 1100, "swapper", "R", "a"), switch(0, 2000, "a", "S", "swapper"),
        ]
        expected: List[str] = []
        for processor in (0, 1):
            expected += [
                f"# part 1: jobs 1 to 1, from 0 to 150, shift 0, cpu {processor}, the last",
                f"# CPU {processor} of a kernel trace; time 0 is 5.000000000 s",
                UNITS,
                "job a.0 0 150 1",
                "ticks 1",
                "# late, without its runs: a.0 (ran on another processor), 0.500000 ms after its deadline; window 0 150",
                *(["# left out: b.0 (not ended)"] if processor == 0 else []),
                f"# 1 job written, {'1' if processor == 0 else 'none'} left out, 1 late without its runs",
            ]
        self.assertEqual(told([*moves, wake(1, 2000, "b")]), expected)

    def test_a_job_that_has_run_nowhere_is_in_the_document_of_processor_0(self) -> None:
        """Also where it was woken on another processor."""
        self.assertEqual(told([wake(1, 0, "a"), wake(1, 2000, "b"), other(1, 2500)])[3:], [
            "job a.0 0 150 1",
            "ticks 1",
            "# not ended: a.0, 1.000000 ms after its deadline",
            "# left out: b.0 (not ended)",
            "# 1 job written, 1 left out",
            "# part 1: jobs 1 to 0, from 0 to 0, shift 0, cpu 1, the last",
            "# CPU 1 of a kernel trace; time 0 is 5.000000000 s",
            UNITS,
            "ticks 1",
            "# 0 jobs written, none left out",
        ])

    def test_a_stretch_of_no_length_is_one(self) -> None:
        lines = [wake(0, 0, "a"), switch(1, 0, "swapper", "R", "a"), switch(1, 0, "a", "R", "swapper"), *job(0, 100, "a")[1:], *job(0, 2000, "b")]
        self.assertIn("# left out: a.0 (ran on another processor)", told(lines)[7:])


class Processors(unittest.TestCase):
    """Which processors there are."""

    def heads(self, lines: Sequence[str]) -> List[str]:
        """The head lines of parts, from the processor on."""
        return [line.partition(", cpu ")[2] for line in told(lines) if line.startswith("# part ")]

    def test_each_number_up_to_the_greatest_has_a_document(self) -> None:
        self.assertEqual(self.heads([*job(1, 0, "a"), *job(1, 2000, "b"), other(3, 4000)]), [f"{number}, the last" for number in range(4)])

    def test_a_loss_tells_of_its_processor(self) -> None:
        for loss in ("CPU:2 [LOST 3 EVENTS]", "##### CPU 2 buffer started ####"):
            with self.subTest(loss=loss):
                speed = f"{stamp(0, 0)}cpu_frequency: state=1000000 cpu_id=0"
                self.assertEqual(self.heads([loss, speed, *job(0, 0, "a"), *job(0, 2000, "b")]), [f"{number}, the last" for number in range(3)])

    def test_the_processor_of_a_speed_or_of_a_wake_up_is_not_told_of(self) -> None:
        speed = f"{stamp(0, 0)}cpu_frequency: state=1000000 cpu_id=3"
        woken = wake(0, 0, "a").replace("target_cpu=000", "target_cpu=005")
        self.assertEqual(self.heads([speed, woken, *job(0, 0, "a")[1:], *job(0, 2000, "b")]), ["0, the last"])

    def test_only_parts_tell_a_processor_if_one_is_asked_for(self) -> None:
        lines = ("\n".join([*job(1, 0, "a"), *job(0, 2000, "b")]) + "\n").encode()
        text = parted.told_in_parts(lines, asked_by([*WORDS, "--cpu", "0", "--parts"]))[0].text
        self.assertEqual(text.splitlines()[0], "# part 1: jobs 1 to 1, from 200 to 350, shift 0, the last")


class Cuts(unittest.TestCase):
    """Where a processor's documents are cut."""

    maxDiff = None

    FIRST = [*job(0, 0, "a"), other(0, 1200), *job(1, 2000, "b"), other(0, 3200)]
    """Behind it, processor 0 has a part with a.0, and 1 has a silent cut, both at b.0's begin."""
    SECOND = [*job(0, 4000, "a"), other(0, 5200), *job(1, 6000, "b"), other(0, 7200)]

    def heads(self, lines: Sequence[str]) -> List[str]:
        """The head lines, and the last two lines where the trace halts."""
        found = cut_small(lines)
        return [line for line in found if line.startswith("# part ") and ": jobs " in line] + (found[-2:] if found[-1] == "failed" else [])

    def test_each_processor_counts_its_parts_and_jobs_by_itself(self) -> None:
        self.assertEqual(self.heads([*self.FIRST, *self.SECOND]), [
            "# part 1: jobs 1 to 1, from 0 to 150, shift 0, cpu 0",
            "# part 2: jobs 2 to 2, from 400 to 550, shift 400, cpu 0",
            "# part 1: jobs 1 to 1, from 200 to 350, shift 200, cpu 1",
            "# part 3: jobs 3 to 2, from 0 to 0, shift 0, cpu 0, the last",
            "# part 2: jobs 2 to 2, from 600 to 750, shift 600, cpu 1, the last",
        ])

    def test_a_silent_cut_leaves_the_number_of_the_part(self) -> None:
        self.assertEqual(self.heads(self.FIRST), [
            "# part 1: jobs 1 to 1, from 0 to 150, shift 0, cpu 0",
            "# part 2: jobs 2 to 1, from 0 to 0, shift 0, cpu 0, the last",
            "# part 1: jobs 1 to 1, from 200 to 350, shift 200, cpu 1, the last",
        ])

    def test_a_window_of_another_processor_is_not_open(self) -> None:
        """b.0 is due at 3.5 ms. Where a begins then at 3.3 ms, b's window is open for processor 1, and not for 0. No window is open where b.0
        begins, but processor 1 has no job before it: so it is cut at 3.3 ms, too."""
        lines = [*job(0, 0, "a"), *job(1, 2000, "b"), *job(0, 3300, "a"), other(0, 4500), *job(1, 5000, "b")]
        self.assertEqual(self.heads(lines), [
            "# part 1: jobs 1 to 1, from 0 to 150, shift 0, cpu 0",
            "# part 1: jobs 1 to 1, from 200 to 350, shift 200, cpu 1",
            "# part 2: jobs 2 to 2, from 330 to 480, shift 330, cpu 0, the last",
            "# part 2: jobs 2 to 2, from 500 to 650, shift 500, cpu 1, windows open, the last",
        ])

    def test_a_processor_without_a_job_of_its_own_is_cut_where_no_window_is_open(self) -> None:
        """None of all jobs that wait is processor 1's. At the last begin, no window of its own is open: it is cut there, and not a line is written."""
        _, parts = parted.told_in_parts(("\n".join([other(1, 0), *job(0, 0, "a"), *job(0, 2000, "b"), other(0, 3200)]) + "\n").encode(),
                                        asked_by([*WORDS, "--cpu", "all"]), SMALL)
        self.assertEqual(parts.moved, {8: {0, parted.IDLE}})
        self.assertEqual([parts.cut_of(processor).boundary for processor in (0, 1)], [5_002_000_000] * 2)

    def test_an_open_window_of_its_own_is_told_behind_the_processor(self) -> None:
        lines = [*job(1, 0, "a"), *job(1, 1200, "b"), other(0, 3200), other(0, 3200), *job(1, 4000, "b")]
        self.assertEqual(self.heads(lines), [
            "# part 1: jobs 1 to 1, from 0 to 150, shift 0, cpu 1",
            "# part 1: jobs 1 to 0, from 0 to 0, shift 0, cpu 0, the last",
            "# part 2: jobs 2 to 3, from 120 to 550, shift 120, cpu 1, windows open, the last",
        ])

    def test_a_part_of_jobs_that_are_left_out_is_written(self) -> None:
        """a.0 moved: it is all that processor 0 has before b.0, and it is left out there."""
        moves = [
            wake(0, 0, "a"), switch(1, 100, "swapper", "R", "a"), switch(1, 200, "a", "R", "swapper"),
            switch(0, 300, "swapper", "R", "a"), switch(0, 400, "a", "S", "swapper"),
        ]
        self.assertEqual(cut_small([*moves, *job(0, 2000, "b")])[:6], [
            "# part 1: jobs 1 to 0, from 0 to 0, shift 0, cpu 0",
            "# CPU 0 of a kernel trace; time 0 is 5.000000000 s",
            UNITS,
            "ticks 1",
            "# left out: a.0 (ran on another processor)",
            "# 0 jobs written, 1 left out",
        ])
        self.assertEqual(self.heads([*moves, *job(0, 2000, "b")])[2], "# part 2: jobs 1 to 1, from 200 to 350, shift 200, cpu 0, the last")

    def test_a_job_within_apart_is_not_settled(self) -> None:
        """With 4 ms for a, the job a.0 may go on until 4 ms, also for the processor on which it didn't run."""
        lines = [*self.FIRST, wake(1, 3900, "a"), *job(1, 3900, "a")[1:], *job(0, 6000, "b")]
        text = parted.told_in_parts(("\n".join(lines) + "\n").encode(), asked_by(["--tasks", "a:1.5:4,b:1.5", *WORDS[2:], "--cpu", "all"]), SMALL)[0].text
        heads = [line for line in text.splitlines() if line.startswith("# part ")]
        self.assertEqual([head for head in heads if "the last" not in head], [])


def woken(processor: int, time: int, name: str) -> str:
    """That a wake-up was done, as a line of this processor."""
    return wake(processor, time, name).replace("sched_waking", "sched_wakeup")


class Sleeps(unittest.TestCase):
    """What becomes of jobs whose threads are woken as they go to sleep, come back without a wake-up, are stopped, or are over."""

    BEGIN = [wake(0, 0, "a"), switch(0, 100, "swapper", "R", "a")]
    BACK = [switch(0, 3000, "swapper", "R", "a"), switch(0, 3500, "a", "S", "swapper")]
    THEN = [f"{stamp(0, 8900)}cpu_frequency: state=1000000 cpu_id=0", *job(0, 9000, "b")]
    """Job b.0 is written in any case, so that no document is without a job."""

    def jobs(self, lines: Sequence[str], *more: str, then: Sequence[str] = THEN) -> List[str]:
        """The lines of the jobs of a, and what comments tell of them."""
        return [line for line in alone([*lines, *then], *more) if " a." in line and not line.startswith("run")]

    def test_a_thread_that_is_woken_as_it_goes_to_sleep(self) -> None:
        """The first half comes at 0.9 ms, while it runs, and the job begins there, by one half or by both."""
        leaves = switch(0, 1000, "a", "S", "swapper")
        wanted = ["job a.0 0 150 9000", "job a.1 90 240 5000"]
        for between in ([], [woken(0, 1200, "a")]):
            lines = [*self.BEGIN, wake(0, 900, "a"), leaves, *between, *self.BACK]
            with self.subTest(between=between):
                self.assertEqual([line for line in self.jobs(lines) if line.startswith("job")], wanted)
        done = [*self.BEGIN, wake(0, 800, "a"), woken(0, 900, "a"), leaves, *self.BACK]
        self.assertEqual(self.jobs(done)[0], "job a.0 0 150 14000")
        anew = [*self.BEGIN, wake(0, 900, "a"), leaves, wake(0, 1200, "a"), *self.BACK]
        self.assertEqual(self.jobs(anew)[1], "job a.1 120 270 5000")

    def test_a_thread_that_comes_without_a_wake_up(self) -> None:
        once = [*self.BEGIN, switch(0, 1000, "a", "S", "swapper"), *self.BACK]
        told_of = "# went on behind a sleep without a wake-up: a.0"
        self.assertEqual(self.jobs(once), ["job a.0 0 150 14000", "# late: a.0, 2.000000 ms after its deadline", told_of])
        twice = [*once, switch(0, 4000, "swapper", "R", "a"), switch(0, 4500, "a", "S", "swapper")]
        self.assertEqual(self.jobs(twice)[-2:], ["# left out: a.0 (events lost)", "# left out: a.1 (its begin isn't in the trace)"])
        self.assertEqual(whole.told(WORDS[:-2], ("\n".join([*twice, *self.THEN]) + "\n").encode()).kind, "line: not woken")
        lost = [*self.BEGIN, switch(0, 1000, "a", "S", "swapper"), "CPU:0 [LOST EVENTS]", *self.BACK]
        self.assertEqual(self.jobs(lost)[0], "job a.0 0 150 9000")

    def test_a_loss_behind_such_a_sleep(self) -> None:
        """It is known open up to that sleep, and so not known to be late."""
        lines = [*self.BEGIN, switch(0, 1000, "a", "S", "swapper"), self.BACK[0], other(0, 3200), "CPU:0 [LOST EVENTS]"]
        self.assertEqual(self.jobs(lines), ["# left out: a.0 (events lost)"])
        told_of = "# late, without its runs: a.0 (events lost), not ended 1.700000 ms after its deadline; window -900 -750"
        self.assertEqual(self.jobs([*self.BEGIN, other(0, 3200), "CPU:0 [LOST EVENTS]"])[1:], [told_of])

    def test_states(self) -> None:
        for state, has_job in [("T", False), ("t", False), ("T+", False), ("8", False), ("S", True), ("I", True), ("P", True), ("64", True)]:
            lines = [*self.BEGIN, switch(0, 1000, "a", state, "swapper"), wake(0, 2900, "a"), *self.BACK]
            with self.subTest(state=state):
                self.assertEqual(any(line.startswith("job a.1 ") for line in self.jobs(lines)), has_job)

    def test_a_thread_that_was_over(self) -> None:
        for state in ("X", "Z", "x", "X+", "16", "32"):
            lines = [*self.BEGIN, switch(0, 1000, "a", state, "swapper")]
            with self.subTest(state=state):
                self.assertEqual(self.jobs(lines), ["job a.0 0 150 9000", "# exited: a.0"])
                self.assertEqual(alone([*lines, wake(0, 2000, "a")])[-1], "failed")
                self.assertIn("its thread was over with it", alone([*lines, *self.THEN], "--strict")[0])

    def test_a_renamed_thread(self) -> None:
        """By its name it is refused, and by its number it is followed."""
        lines = [*self.BEGIN, switch(0, 1000, "a", "S", "swapper"), wake(0, 2000, "a").replace("comm=a ", "comm=z ")]
        self.assertIn("line 4: a task's thread has another name here", alone([*lines, *self.THEN])[0])
        trace = ("\n".join([*lines, *self.THEN]) + "\n").encode()
        self.assertEqual(whole.told(["--tasks", "10=a:1.5,b:1.5", *WORDS[2:]], trace).status, 0)

    def test_a_job_that_was_due_before_from(self) -> None:
        lines = [*self.BEGIN, other(0, 8000)]
        told_of = "# late, without its runs: a.0 (before from), not ended 8.600000 ms after its deadline; window -300 -150"
        self.assertEqual(self.jobs(lines, "--from", "5.003", then=job(1, 9000, "b")), ["job a.0 0 1 1", told_of])
        ended = [*self.BEGIN, switch(0, 3000, "a", "S", "swapper")]
        self.assertEqual(self.jobs(ended, "--from", "5.003"), [])
        self.assertEqual(self.jobs(ended, "--from", "5.002999999")[0], "job a.0 0 1 1")

    def test_a_thread_that_was_elsewhere(self) -> None:
        """It left processor 0 before, so it wasn't on processor 1 since the trace's begin."""
        lines = [*self.BEGIN, switch(0, 1000, "a", "S", "swapper"), wake(0, 3000, "a"), switch(1, 3500, "a", "S", "swapper")]
        self.assertIn("# left out: a.1 (a switch is missing)", self.jobs(lines))

    def test_behind_a_part(self) -> None:
        """The job a.0 is in a part that was written when its thread is back, or a wake-up is done that was started before its end."""
        first = [*Cuts.FIRST]
        back = switch(0, 6000, "swapper", "R", "a")
        self.assertEqual(cut_small([*first, back])[-2:], ["# line 9: it changes jobs of a part that was written; choose --from and --to around it", "failed"])
        self.assertNotIn("failed", cut_small([*first, wake(0, 5900, "a"), back]))


class Faults(unittest.TestCase):
    """What a trace of several processors is refused for."""

    WRITTEN = "it changes jobs of a part that was written; choose --from and --to around it"

    def end(self, lines: Sequence[str], *more: str) -> List[str]:
        """The last two lines."""
        return cut_small(lines, *more)[-2:]

    def test_a_loss_of_one_processor_reaches_into_the_part_of_another(self) -> None:
        """Processor 1 has a line at 3.1 ms, and the part of 0 was written behind 3.2 ms."""
        self.assertEqual(self.end([*Cuts.FIRST, "CPU:1 [LOST 3 EVENTS]"]), [f"# line 9: {self.WRITTEN}", "failed"])

    def test_a_loss_since_just_then_does_not(self) -> None:
        lines = [*Cuts.FIRST[:-1], other(1, 3200)]
        self.assertEqual(self.end([*lines, "CPU:1 [LOST 3 EVENTS]"])[1], "# 1 job written, none left out")

    def test_a_loss_of_a_processor_that_comes_first_with_it(self) -> None:
        self.assertEqual(self.end([*Cuts.FIRST, "CPU:5 [LOST 3 EVENTS]"]), [f"# line 9: {self.WRITTEN}", "failed"])

    def test_a_cut_at_which_nothing_was_written(self) -> None:
        """Two jobs overlap on processor 0, which has no place. All of which no line has told are cut, and a loss before that is refused."""
        overlap = [
            wake(0, 0, "a"), switch(0, 100, "swapper", "R", "a"), wake(0, 1000, "b"), switch(0, 2000, "a", "S", "b"),
            switch(0, 3000, "b", "S", "swapper"), other(0, 3100), other(0, 3100), other(0, 3200),
        ]
        for loss in ("CPU:5 [LOST 3 EVENTS]", "##### CPU 0 buffer started ####"):
            with self.subTest(loss=loss):
                self.assertEqual(self.end([*overlap, loss]), [f"# line 9: {self.WRITTEN}", "failed"])
        self.assertNotIn("failed", cut_small([*overlap, "CPU:0 [LOST 3 EVENTS]"]))

    def test_a_thread_that_was_there(self) -> None:
        """b leaves processor 2, which hasn't switched: it had it since that processor's first line, before both cuts. Without such a line it
        didn't come before them."""
        leaves = switch(2, 4000, "b", "S", "swapper")
        lines = [*job(0, 0, "a"), other(2, 1200), *job(1, 2000, "b"), other(0, 3200), leaves]
        self.assertEqual(self.end(lines), [f"# line 9: {self.WRITTEN}", "failed"])
        self.assertNotIn("failed", cut_small([*Cuts.FIRST, leaves]))

    def test_switches_that_are_missing(self) -> None:
        """b came to processor 1 before the line behind which both were cut, and comes to another one. Where it came behind that line, what is
        missing changes nothing that was written."""
        front = [*job(0, 0, "a"), other(0, 1200), wake(1, 2000, "b")]
        comes, elsewhere = switch(1, 2100, "swapper", "R", "b"), switch(2, 5000, "swapper", "R", "b")
        self.assertEqual(self.end([*front, comes, other(0, 3000), other(0, 3200), elsewhere]), [f"# line 9: {self.WRITTEN}", "failed"])
        fillers = [other(0, time) for time in (2010, 2020, 2030)]
        self.assertNotIn("failed", cut_small([*front, *fillers, comes, elsewhere]))

    def test_too_much_waits_and_there_is_no_place(self) -> None:
        """a hangs on processor 1, and four jobs wait: processor 0 comes first, and tells of it. Nothing of that line is written."""
        hangs = [wake(0, 0, "a"), switch(1, 100, "swapper", "R", "a")]
        many = [line for time in (2000, 4000, 6000) for line in job(0, time, "b")]
        lines = [*hangs, *many, *[other(0, 8000)] * 5]
        self.assertEqual(cut_small(lines), [
            "# no part can end, since the processor is never quiet; look at job a.0, begun at 5.000000000 s, known to be late by 6.500000 ms:"
            " choose --from and --to around it, or leave its task out",
            "failed",
        ])

    def test_a_limit_of_one_processor_keeps_the_parts_of_the_line_from_being_written(self) -> None:
        """With `--strict` the part of processor 1 has a missed job behind the same line behind which that of 0 is whole."""
        first = [wake(0, 0, "a"), switch(0, 100, "swapper", "R", "a"), wake(0, 150, "b"), switch(1, 200, "swapper", "R", "b")]
        then = [switch(1, 300, "b", "R", "swapper"), switch(2, 400, "swapper", "R", "b"), switch(2, 500, "b", "S", "swapper"), switch(0, 600, "a", "S", "swapper")]
        lines = [*first, *then, *job(0, 2000, "a"), *[other(0, 8000)] * 5]
        strict = "it doesn't stand as it is, or its thread was over with it, and --strict is given; leave that out, or choose --from and --to around the job"
        self.assertEqual(cut_small(lines, "--strict"), [f"# part 1 of processor 1: found job 1: {strict}", "failed"])
        self.assertEqual(cut_small(lines)[0], "# part 1: jobs 1 to 1, from 0 to 150, shift 0, cpu 0")

    def test_no_processor_has_a_job(self) -> None:
        """Parts without a job may have been written before: of those it is told at the end, and no last part is written."""
        moves = [
            wake(0, 0, "a"), switch(1, 100, "swapper", "R", "a"), switch(1, 200, "a", "R", "swapper"),
            switch(0, 300, "swapper", "R", "a"), switch(0, 400, "a", "S", "swapper"),
        ]
        last = [wake(0, 2000, "b"), other(0, 2100), other(0, 2200)]
        why = "no job can be written of any processor; choose one of them by --cpu, and the reason is told"
        found = cut_small([*moves, *last])
        self.assertEqual([line for line in found if line.startswith("# part ")], [
            "# part 1: jobs 1 to 0, from 0 to 0, shift 0, cpu 0",
            "# part 1: jobs 1 to 0, from 0 to 0, shift 0, cpu 1",
            f"# part 1: {why}",
        ])
        self.assertEqual(found[-1], "failed")


class Shares(unittest.TestCase):
    """What the documents have of a job that ran on several processors, with `--moved parts`."""

    maxDiff = None

    def moved(self, until: int) -> List[str]:
        """a is woken at 0, runs for a millisecond on processor 1, and goes on to 0 until then."""
        return [
            wake(0, 0, "a"), switch(1, 100, "swapper", "R", "a"), switch(1, 1100, "a", "R", "swapper"),
            switch(0, 1100, "swapper", "R", "a"), switch(0, until, "a", "S", "swapper"),
        ]

    def test_each_has_what_it_ran_there_in_the_window_of_the_whole(self) -> None:
        self.assertEqual(told([*self.moved(1400), *job(2, 2000, "b")], "--moved", "parts"), [
            "# part 1: jobs 1 to 1, from 0 to 150, shift 0, cpu 0, the last",
            "# CPU 0 of a kernel trace; time 0 is 5.000000000 s",
            UNITS,
            "job a.0@0 0 150 3000",
            "ticks 1",
            "run a.0@0 110 140 100",
            "# 1 job written, none left out",
            "# part 1: jobs 1 to 1, from 0 to 150, shift 0, cpu 1, the last",
            "# CPU 1 of a kernel trace; time 0 is 5.000000000 s",
            UNITS,
            "job a.0@1 0 150 10000",
            "ticks 1",
            "run a.0@1 10 110 100",
            "# ends: a.0@1 140",
            "# 1 job written, none left out",
            "# part 1: jobs 1 to 1, from 200 to 350, shift 200, cpu 2, the last",
            "# CPU 2 of a kernel trace; time 0 is 5.002000000 s",
            UNITS,
            "job b.0 0 150 10000",
            "ticks 1",
            "run b.0 10 110 100",
            "# 1 job written, none left out",
        ])

    def test_a_late_job_is_late_in_each(self) -> None:
        """Its end shows it on processor 0. On 1 its work is a unit above what it ran there."""
        found = told([*self.moved(2000), *job(2, 2000, "b")], "--moved", "parts")
        self.assertEqual(found[3:7], [
            "job a.0@0 0 150 9000", "ticks 1", "run a.0@0 110 200 100", "# late: a.0@0, 0.500000 ms after its deadline",
        ])
        self.assertEqual(found[11:15], [
            "job a.0@1 0 150 10001", "ticks 1", "run a.0@1 10 110 100", "# late on another processor: a.0@1, 0.500000 ms after its deadline",
        ])

    def test_one_processor_has_its_share_alone(self) -> None:
        lines = [*self.moved(1400), *job(2, 2000, "b")]
        self.assertEqual(alone(lines, "--cpu", "1", "--moved", "parts")[2:], [
            "job a.0@1 0 150 10000", "ticks 1", "run a.0@1 10 110 100", "# ends: a.0@1 140",
            "# left out: b.0 (ran on another processor)", "# 1 job written, 1 left out",
        ])

    def test_a_job_that_ran_elsewhere_alone_has_none(self) -> None:
        found = alone([*self.moved(2000), *job(2, 2000, "b")], "--cpu", "2", "--moved", "parts")
        self.assertEqual(found[2:6], ["job a.0 0 1 1", "job b.0 0 150 10000", "ticks 1", "run b.0 10 110 100"])

    def test_a_speed_that_is_not_known_leaves_out_the_share_there_alone(self) -> None:
        """Behind a loss no speed is known, until a line tells it."""
        lines = [
            "CPU:0 [LOST 3 EVENTS]", f"{stamp(0, 0)}cpu_frequency: state=1000000 cpu_id=0", wake(0, 0, "a"), switch(0, 0, "b", "S", "swapper"),
            switch(1, 0, "swapper", "R", "swapper"), *self.moved(1400)[1:],
        ]
        found = told(lines, "--moved", "parts")
        self.assertIn("job a.0@0 0 150 3000", found)
        self.assertIn("# left out: a.0@1 (frequency not known)", found)

    def test_a_share_counts_its_own_stretches(self) -> None:
        """Of five stretches of a.0 processor 0 has four, and 1 has one."""
        there = [line for time in range(1400, 1800, 100) for line in (switch(0, time, "swapper", "R", "a"), switch(0, time + 50, "a", "R", "swapper"))]
        lines = [*self.moved(1400)[:3], *there[:-1], switch(0, 1750, "a", "S", "swapper"), wake(0, 3000, "b")]
        _, parts = parted.told_in_parts(("\n".join(lines) + "\n").encode(), asked_by([*WORDS, "--cpu", "all", "--moved", "parts"]))
        self.assertEqual([parts.how_much(processor, parts.idle) for processor in (0, 1, 2)], [(2, 4, 0), (2, 1, 0), (2, 5, 0)])

    def test_a_name_that_is_too_long(self) -> None:
        """A name has 64 bytes at most, and that of a share has the processor behind it."""
        task = "a" * 53
        lines = [switch(1000, 0, "a", "R", "swapper"), switch(0, 100, "swapper", "R", "a"), switch(0, 900, "a", "S", "swapper"), wake(0, 1000, "a")]
        words = ["--tasks", f"10={task}:0.5", "--start", "1000000", "--moved", "parts", "--cpu"]
        texts = {cpu: whole.told([*words, cpu], ("\n".join(lines) + "\n").encode()).text.splitlines() for cpu in ("0", "1000")}
        self.assertIn(f"job {task}.before@0 0 50 1", texts["0"])
        self.assertEqual(texts["1000"], ["# written job 1: its name is longer than 64 bytes; choose a shorter time by --from and --to", "failed"])


class Others(unittest.TestCase):
    """Who else had the processor while a job waited, with `--others spans`."""

    maxDiff = None

    FIRST = [switch(0, 0, "swapper", "R", "c"), wake(0, 100, "a"), switch(0, 600, "c", "S", "a"), switch(0, 900, "a", "S", "swapper")]
    """c has the processor from 0 to 0.6 ms, and a waits from 0.1 ms on."""
    LAST = job(1, 2000, "b")

    def spans(self, lines: Sequence[str], *more: str) -> List[str]:
        """The comments of other threads."""
        return [line for line in alone(lines, "--others", "spans", *more) if line.startswith("# other ")]

    def test_it_is_told_before_the_last_line(self) -> None:
        self.assertEqual(alone([*self.FIRST, *self.LAST], "--others", "spans")[2:], [
            "job a.0 0 150 3000", "ticks 1", "run a.0 50 80 100", "# left out: b.0 (ran on another processor)", "# other c-12 0 50",
            "# 1 job written, 1 left out",
        ])
        self.assertNotIn("other", " ".join(alone([*self.FIRST, *self.LAST])[2:]).replace("another", ""))

    def test_one_that_is_preempted_waits(self) -> None:
        lines = [*job(0, 0, "a")[:2], switch(0, 500, "a", "R", "c"), switch(0, 800, "c", "S", "d"), switch(0, 900, "d", "R", "a"), job(0, 0, "a")[2]]
        self.assertEqual(self.spans([*lines, *self.LAST]), ["# other c-12 50 80", "# other d-13 80 90"])

    def test_one_that_sleeps_does_not_wait(self) -> None:
        self.assertEqual(self.spans([*job(0, 0, "a"), switch(0, 1200, "swapper", "R", "c"), switch(0, 1900, "c", "R", "swapper"), *self.LAST]), [])

    def test_nor_does_one_that_runs_on_another_processor(self) -> None:
        """a waits until it gets processor 1, and again where it leaves that awake."""
        lines = [
            switch(0, 0, "swapper", "R", "c"), wake(0, 100, "a"), switch(1, 400, "swapper", "R", "a"), switch(1, 700, "a", "R", "swapper"),
            switch(1, 900, "swapper", "R", "a"), switch(1, 1000, "a", "S", "swapper"), switch(0, 1100, "c", "S", "swapper"),
        ]
        self.assertEqual(self.spans([*lines, *job(0, 2000, "b")], "--from", "5.00005"), ["# other c-12 5 35", "# other c-12 65 85"])

    def test_the_idle_thread_and_listed_ones_are_not_in_the_way(self) -> None:
        lines = [wake(0, 0, "a"), *job(0, 0, "b"), switch(0, 1200, "swapper", "R", "a"), switch(0, 1300, "a", "S", "swapper")]
        self.assertEqual(self.spans(lines), [])

    def test_of_two_jobs_one_that_waits_is_enough(self) -> None:
        lines = [wake(0, 0, "a"), wake(0, 0, "b"), switch(1, 100, "swapper", "R", "b"), switch(0, 200, "swapper", "R", "c"),
                 switch(0, 900, "c", "S", "a"), switch(0, 950, "a", "S", "swapper"), switch(1, 1000, "b", "S", "swapper")]
        self.assertEqual(self.spans(lines), ["# other c-12 20 90"])

    def test_another_processor_is_not_told_of(self) -> None:
        self.assertEqual(self.spans([*self.FIRST, *self.LAST], "--cpu", "1"), [])

    def test_what_lies_before_time_0_is_cut_off(self) -> None:
        self.assertEqual(self.spans([*self.FIRST, *job(0, 2000, "b")], "--from", "5.0003"), ["# other c-12 0 30"])

    def test_it_goes_on_at_the_end_of_what_is_asked_for(self) -> None:
        """Up to the trace's last line, or up to `to`."""
        lines = [*job(0, 0, "b"), switch(0, 1200, "swapper", "R", "c"), wake(0, 1300, "a"), other(1, 1900), other(1, 2500)]
        self.assertEqual(self.spans(lines), ["# other c-12 130 250"])
        self.assertEqual(self.spans(lines, "--to", "5.002"), ["# other c-12 130 200"])

    def test_a_loss_ends_it(self) -> None:
        """One without a stamp ends it at the line before, and one with a stamp at its own. Then nobody is known to have the processor."""
        lines = [*job(0, 0, "b"), switch(0, 1200, "swapper", "R", "c"), wake(0, 1300, "a"), other(1, 1900)]
        behind = [other(1, 2500), wake(0, 2600, "a"), other(1, 2700), switch(0, 2800, "d", "S", "c"), switch(0, 2900, "c", "S", "a")]
        torn = f" who     5 [000] {5}.002200: PERF_RECORD_LOST lost 7"
        self.assertEqual(self.spans([*lines, "CPU:1 [LOST 3 EVENTS]", *behind]), ["# other c-12 130 190", "# other c-12 280 290"])
        self.assertEqual(self.spans([*lines, torn, *behind]), ["# other c-12 130 220", "# other c-12 280 290"])

    def test_what_is_within_a_unit_of_time_is_not_told(self) -> None:
        """From 0.101 to 0.109 ms, and from 0.109 to 0.111 ms."""
        for begin, end, found in ((101, 109, []), (109, 111, ["# other c-12 10 11"])):
            with self.subTest(begin=begin):
                lines = [*job(0, 0, "b")[:1], switch(0, 50, "swapper", "R", "b"), switch(0, begin, "b", "R", "c"), switch(0, end, "c", "R", "b"),
                         switch(0, 900, "b", "S", "swapper"), *job(0, 1000, "a")]
                self.assertEqual(self.spans(lines), found)

    def test_one_number_goes_on_under_its_first_name(self) -> None:
        again = switch(0, 400, "c", "R", "c").replace("next_comm=c", "next_comm=renamed")
        self.assertEqual(self.spans([*self.FIRST[:2], again, *self.FIRST[2:], *self.LAST]), ["# other c-12 0 50"])

    def test_a_name_of_any_bytes_and_of_any_length(self) -> None:
        """64 bytes are kept, and what moves a terminal's cursor is shown as a question mark."""
        for name, shown in (("x\x1b[2J\x7f y", "x?[2J? y"), ("n" * 70, "n" * 64), ("Ünï", "Ünï")):
            with self.subTest(name=name):
                first = [line.replace("_comm=c ", f"_comm={name} ") for line in self.FIRST]
                self.assertEqual(self.spans([*first, *self.LAST]), [f"# other {shown}-12 0 50"])

    def test_jobs_that_begin_at_their_first_run_wait_where_they_are_preempted(self) -> None:
        lines = [*self.FIRST, *job(0, 1000, "a")[:2], switch(0, 1500, "a", "R", "c"), switch(0, 1700, "c", "S", "a"), job(0, 1000, "a")[2], *job(1, 3000, "b")]
        self.assertEqual(self.spans(lines, "--begin", "run"), ["# other c-12 40 60"])

    def test_each_part_tells_its_own(self) -> None:
        """a.0, which is left out, moved, and still waits at 2 ms, where b.0 begins and the part ends. c has the processor then."""
        lines = [
            *job(0, 0, "b"), *[other(1, 1100)] * 5, wake(0, 1200, "a"), switch(1, 1300, "swapper", "R", "a"), switch(1, 1400, "a", "R", "swapper"),
            switch(0, 1500, "swapper", "R", "c"), wake(0, 2000, "b"), switch(0, 2100, "c", "S", "a"), switch(0, 2200, "a", "S", "b"),
            switch(0, 2300, "b", "S", "swapper"),
        ]
        text = parted.told_in_parts(("\n".join(lines) + "\n").encode(), asked_by([*WORDS, "--cpu", "0", "--parts", "--others", "spans"]), SMALL)[0].text
        self.assertEqual([line for line in text.splitlines() if line.startswith(("# other ", "# part "))], [
            "# part 1: jobs 1 to 1, from 0 to 150, shift 0", "# other c-12 150 200",
            "# part 2: jobs 2 to 2, from 200 to 350, shift 200, the last", "# other c-12 0 10",
        ])

    def test_many_spans_are_a_part_and_too_many_have_no_place(self) -> None:
        """Three wait at the eighth line, where a.0 is the only job and there is no place; and eight at the sixteenth."""
        turns = [switch(0, 100 * number + 500, "cd"[number % 2], "R", "dc"[number % 2]) for number in range(14)]
        lines = [wake(0, 0, "b"), switch(0, 10, "swapper", "R", "b"), switch(0, 20, "b", "S", "swapper"), wake(0, 100, "a"), switch(0, 400, "swapper", "R", "c")]
        for many, halted in ((10, False), (14, True)):
            asked = asked_by([*WORDS, "--cpu", "0", "--parts", "--others", "spans"])
            limits = SMALL._replace(jobs=9, most_jobs=9)
            text, parts = parted.told_in_parts(("\n".join([*lines, *turns[:many]]) + "\n").encode(), asked, limits)
            with self.subTest(many=many):
                self.assertEqual(len(parts.written) > 1, not halted)
                self.assertEqual(text.text.endswith("failed\n"), halted)


def main() -> int:
    suite = unittest.defaultTestLoader.loadTestsFromModule(sys.modules[__name__])
    result = unittest.TextTestRunner(stream=sys.stdout).run(suite)
    failed = len(result.failures) + len(result.errors)
    print(f"{result.testsRun - failed} passed, {failed} failed")
    return 1 if failed else 0


if __name__ == "__main__":
    sys.exit(main())
