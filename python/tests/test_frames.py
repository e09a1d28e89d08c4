"""yds-frames: an application's job lines in the place of a trace's, by hand and on drawn traces."""

import os
import random
import tempfile
import unittest
from pathlib import Path
from typing import Dict, List, NamedTuple, Optional, Sequence, Tuple

from called import EXPECTED, SAMPLES, Called, broken, call

CASES = int(os.environ.get("CASES", "200"))
"""How many traces are drawn."""
HEAD = "# CPU 0 of a kernel trace; time 0 is 200.000000000 s\n"
UNITS = "# time unit 10 us, speed unit 1000 kHz, work unit 10 cycles\n"
MS = "# time unit 1000 us, speed unit 1000 kHz\n"
CLOSING = "# 1 job written, none left out\n"


class Frames(unittest.TestCase):
    def setUp(self) -> None:
        folder = tempfile.TemporaryDirectory()
        self.addCleanup(folder.cleanup)
        self.file = Path(folder.name, "app.txt")

    def called(self, frames: str, trace: str, *words: str) -> Called:
        """What it answers of a trace's document, which is closed here where it isn't."""
        trace += "" if " written, " in trace else CLOSING
        self.file.write_bytes(frames.encode("latin-1"))
        return call("frames", "--jobs", self.file, *words, given=trace.encode("latin-1"))

    def told(self, frames: str, trace: str, *words: str) -> List[str]:
        status, out, err = self.called(frames, trace, *words)
        self.assertEqual((status, err), (0, ""))
        return out.splitlines()


class ByHand(Frames):
    def test_a_stored_trace(self) -> None:
        """In units of 10 us the runs are those that yds_trace writes in units of 1 us, to a tenth of these times."""
        fine = (EXPECTED / "document-microseconds.txt").read_text().splitlines()
        trace = (EXPECTED / "document.txt").read_text().replace("10000 kHz", "1000 kHz")
        lines = (SAMPLES / "frames.txt").read_text()
        told = self.told(lines, trace, "--us", "1000", "--khz=1000")
        units = "# time unit 1000 us, speed unit 1000 kHz, work unit 1000 cycles"
        self.assertEqual(told[:11], [fine[0], units, *lines.splitlines(), "ticks 100"])
        self.assertEqual(told[-1], "# 8 jobs written, none left out")
        runs = [line.split()[1:4] for line in fine if line[:4] == "run "]
        rounded = [[name, start[:-1] or "0", end[:-1]] for name, start, end in runs]
        self.assertEqual([line.split()[1:4] for line in told[11:-1]], rounded)

    def test_what_is_late_is_told_anew(self) -> None:
        """The trace's deadlines were 16 ms after the begins; the application's are its own."""
        trace = (
            HEAD + UNITS + "job r.0 0 1600 1\njob r.1 5000 6600 1\n"
            "# late, without its runs: r.1 (ran on another processor), 25.000 ms after its deadline; window 5000 6600\n"
            "job r.2 10000 11600 900\njob r.3 20000 21600 101\nticks 1\nrun r.0 0 9 1\nrun r.2 10000 10900 1\nrun r.3 20000 20100 1\n"
            "# not ended: r.3, 4.000 ms after its deadline\n# left out: r.4 (not ended); window 22000 23600\n"
            "# a comment of another kind\n# 4 jobs written, 1 left out, 1 late without its runs\n"
        )
        lines = "job r.0 0 16 90\njob r.1 50 80 9\njob r.2 100 109 9000\njob r.3 200 216 9\njob r.4 220 240 8\n"
        told = self.told(MS + lines, trace)
        self.assertEqual(
            told[8:],
            [
                *("ticks 100", "run r.0 0 9 1", "run r.2 10000 10900 1", "run r.3 20000 20100 1"),
                "# not ended: r.3, 3.999 ms after its deadline",
                "# late, without its runs: r.1 (ran on another processor), at least 10.999 ms after its deadline; window 50 80",
                "# left out: r.4 (not ended); window 220 240",
                "# 2 jobs of app.txt have no run here, the first r.1",
                "# 1 job ends in the tick of its deadline, or within a unit of it: it may be late by less than that, the first r.2",
                "# a comment of another kind",
                "# 5 jobs written, 1 left out, 1 late without its runs",
            ],
        )
        self.assertEqual(
            told[:3], [HEAD[:-1], "# time unit 1000 us, speed unit 1000 kHz, work unit 1000 cycles", MS[:-1]]
        )
        later = self.told(MS + lines.replace("50 80", "50 91").replace("200 216", "200 221"), trace)
        self.assertIn("# left out: r.1 (ran on another processor); window 50 91", later)
        self.assertIn("# left out: r.3 (not ended); window 200 221", later)
        self.assertIn("# jobs of the trace that aren't here ran for 1.000 ms", later)
        self.assertEqual(later[-1], "# 5 jobs written, 3 left out")

    def test_begins_and_ends(self) -> None:
        """A last run within a tick has the job's end in a comment, and may be late."""
        trace = HEAD + UNITS + "job r.3 0 900 50\n# begins: r.3 0\n# ends: r.3 950\nticks 1\nrun r.3 800 850 1\n"
        told = self.told(MS + "job r 0 9 5\n", trace, "--first", "r.3")
        self.assertEqual(
            told[5:8],
            ["run r 800 850 1", "# late in a run within one tick: r, 0.500 ms after its deadline", "# begins: r 0"],
        )
        self.assertEqual(told[8], "# ends: r 950")
        told = self.told(MS + "job r 0 10 5\n", trace, "--first", "r.3")
        self.assertEqual(told[6:], ["# begins: r 0", "# ends: r 950", "# 1 job written, none left out"])
        within = (
            trace.replace("# ends: r.3 950\n", "")
            + "# late in a run within one tick: r.3, 3.000 ms after its deadline\n"
        )
        self.assertIn(
            "# late in a run within one tick: r, 1.999 ms after its deadline",
            self.told(MS + "job r 0 10 5\n", within, "--first=r.3"),
        )
        self.assertIn("may be late by less", "".join(self.told(MS + "job r 0 12 5\n", within, "--first=r.3")))
        self.assertNotIn("late", "".join(self.told(MS + "job r 0 13 5\n", within, "--first=r.3")))

    def test_which_job_is_the_first(self) -> None:
        """The second job began before time 0, so the third is NAME.0."""
        trace = (
            HEAD + UNITS + "job r.2 100 900 50\njob r.3 1000 1900 50\nticks 1\nrun r.2 100 150 1\nrun r.3 1000 1050 1\n"
            "# left out: r.-1 (before from)\n# left out: r.0 (before from); window -90 -20\n# left out: r.1 (ran on another processor); window -3 50\n"
        )
        lines = MS + "job r.0 1 9 50\njob r.1 10 19 50\njob r.2 20 29 0\n"
        told = self.told(lines, trace)
        self.assertEqual([line for line in told if line[:3] == "run"], ["run r.0 100 150 1", "run r.1 1000 1050 1"])
        self.assertEqual(told[-2:], ["# 3 jobs of the trace begin before time 0", "# 3 jobs written, 3 left out"])
        self.assertEqual(self.told(lines, trace.replace("r.-1", "r.before")), told)
        unknown = trace.replace("# left out: r.1 (ran on another processor); window -3 50\n", "# left out: r.1 (its begin isn't in the trace)\n")
        called = self.called(lines, unknown)
        self.assertEqual(called[:2], (1, "failed\n"))
        self.assertEqual(
            called.err,
            "yds-frames: which job of r is the first at or after time 0 isn't known: r.1 or r.2 "
            "(when r.1 began isn't told: its begin isn't in the trace); give it, as --first r.1\n",
        )
        self.assertEqual(self.told(lines, unknown, "--first", "r.2")[:9], told[:9])
        shifted = self.told(lines, unknown, "--first", "r.1")
        self.assertIn("# 2 jobs begin outside of their windows, the first r.1; look at time 0 and at --first", shifted)

    def test_what_yds_trace_tells_together(self) -> None:
        """It names no job before --from, and tells those that moved in one line: all begin at --from or later."""
        trace = (
            HEAD + UNITS + "job r.5 1000 1900 50\njob r.7 3000 3900 50\nticks 1\nrun r.5 1000 1950 1\nrun r.7 3000 3050 1\n"
            "# late: r.5, 0.501234 ms after its deadline\n"
            "# left out: 2 jobs of r (ran on another processor), the first r.4, the last r.6\n"
            "# left out: 4 jobs before from or after to\n# 2 jobs written, 6 left out\n"
        )
        lines = MS + "".join(f"job r.{number} {10 * number} {10 * number + 9} 50\n" for number in range(4))
        told = self.told(lines, trace)
        self.assertEqual([line for line in told if line[:3] == "run"], ["run r.1 1000 1950 1", "run r.3 3000 3050 1"])
        self.assertEqual(
            told[-4:],
            [
                "# left out: 2 jobs of r (ran on another processor), the first r.0, the last r.2",
                "# 2 jobs of app.txt have no run here, the first r.0",
                "# left out: 4 jobs before from or after to",
                "# 4 jobs written, 6 left out",
            ],
        )
        self.assertNotIn("# late: ", "\n".join(told))
        lost = trace.replace("ran on another processor", "events lost")
        self.assertEqual(
            self.called(lines, lost).err,
            "yds-frames: which job of r is the first at or after time 0 isn't known: r.4 or r.5 "
            "(when 2 jobs from r.4 on began isn't told: events lost); give it, as --first r.4\n",
        )
        self.assertEqual(self.told(lines, lost, "--first", "r.4")[:10], told[:10])
        later = self.called(lines, trace, "--zero", "200.005")
        self.assertIn("r.4 or r.5 (when 2 jobs from r.4 on began isn't told: ran on another processor)", later.err)
        earlier = self.called(lines, trace.replace("200.000000000", "200.100000000"), "--zero", "200")
        self.assertIn("isn't known: r.0 to r.4", earlier.err)

    def test_another_time_0(self) -> None:
        trace = (
            HEAD + UNITS + "job r.0 100 900 50\njob r.1 2000 2900 50\nticks 1\nrun r.0 100 150 1\nrun r.1 2000 2050 1\n"
        )
        told = self.told(MS + "job r.0 10 19 50\n", trace, "--zero", "200.01")
        self.assertEqual(told[0], "# CPU 0 of a kernel trace; time 0 is 200.010000000 s")
        self.assertEqual(
            told[4:],
            [
                "ticks 100",
                "run r.0 1000 1050 1",
                "# 1 job of the trace begins before time 0",
                "# jobs of the trace that aren't here ran for 0.500 ms",
                "# 1 job written, 1 left out",
            ],
        )
        called = self.called(MS + "job r.0 10 19 50\n", trace, "--zero", "200.010001")
        self.assertEqual(
            called.err,
            "yds-frames: time 0 of the jobs is no whole number of the trace's units after its own; give it to yds_trace as --from\n",
        )

    def test_who_else_ran(self) -> None:
        """Comments on others are in ticks, from the other time 0 on."""
        trace = (
            HEAD
            + UNITS
            + "job r.0 2000 2900 50\nticks 1\nrun r.0 2000 2050 1\n# other a b-7 10 20\n# other c-8 900 1100\n"
        )
        told = self.told(MS + "job r.0 10 19 50\n", trace, "--zero", "200.01")
        self.assertEqual([line for line in told if line.startswith("# other ")], ["# other c-8 0 100"])
        self.assertIn("# other a b-7 10 20", self.told(MS + "job r.0 20 29 50\n", trace))

    def test_jobs_without_a_line(self) -> None:
        trace = (
            HEAD
            + UNITS
            + "".join(f"job r.{k} {k * 1000} {k * 1000 + 900} 5\n" for k in range(4))
            + "ticks 1\nrun r.0 0 5 1\nrun r.3 3000 3005 1\n"
        )
        told = self.told(MS + "job r.0 0 9 50\n", trace)
        self.assertIn("# left out: 3 jobs of r (not in app.txt), the first r.1, the last r.3", told)
        self.assertEqual(told[-1], "# 1 job written, 3 left out")
        self.assertEqual(
            self.called(MS + "job s.0 0 9 50\n", trace).err,
            "yds-frames: no job of the trace has a line in app.txt; the trace's tasks are r\n",
        )


TRACE = HEAD + UNITS + "job r.0 0 900 50\nticks 1\nrun r.0 0 50 1\n"


class Refused(Frames):
    def test_units(self) -> None:
        for words, told in [
            ([], "no comment of the jobs tells their unit of time; give --us"),
            (["--us", "1000"], "no comment of the jobs tells their unit of speed; give --khz"),
            (["--us", "0"], "--us 0 is no whole number of 1 or more"),
            (["--us", "1.5"], "--us 1.5 is no whole number of 1 or more"),
            (["--us=10", "--khz=10", "--first", "r"], "--first r is no name and number, as decode.3"),
            (["--us=10", "--khz=1000", "--zero", "x"], "--zero x is no number of seconds, with at most nine decimals"),
            (["us=10"], "us=10 is no word of this command: write --us 10; a file of this name is ./us=10"),
        ]:
            called = self.called("job r.0 0 9 50\n", TRACE, *words)
            self.assertEqual(called, (2, "failed\n", f"yds-frames: {told}; see yds-frames --help\n"))
        called = self.called(MS + "job r.0 0 9 50\n", TRACE, "--us", "10")
        self.assertIn("--us 10, and the jobs' own unit of time is 1000; leave the option out", called.err)
        self.assertEqual(call("frames", given=TRACE.encode())[:2], (2, "failed\n"))
        for frames, trace, told in [
            (
                MS,
                TRACE.replace("1000 kHz", "10000 kHz"),
                "a unit of speed of 1000 kHz in FILE and of 10000 kHz in the trace; give both the same",
            ),
            (
                MS.replace("1000 us", "25 us"),
                TRACE,
                "a unit of 25 us is no whole number of the trace's ticks of 10 us; give yds_trace --us 25",
            ),
            (
                MS.replace("1000 us", "5 us"),
                TRACE,
                "a unit of 5 us is no whole number of the trace's ticks of 10 us; give yds_trace --us 5",
            ),
        ]:
            called = self.called(frames + "job r.0 0 9 50\n", trace)
            self.assertEqual(called, (1, "failed\n", f"yds-frames: {told}\n".replace("FILE", str(self.file))))

    def test_a_share_of_a_job_that_moved(self) -> None:
        """Its runs here aren't all that the frame ran."""
        told = "r.0@1 is what a job ran on one of its processors; leave --moved out where the document is made"
        for trace, place in [
            (TRACE.replace("r.0", "r.0@1"), "line 3, column 5"),
            (TRACE + "# left out: r.0@1 (frequency not known)\n", "line 6"),
        ]:
            called = self.called(MS + "job r.0 0 9 50\n", trace)
            self.assertEqual(called, (1, "failed\n", f"yds-frames: {place}: {told}\n"))

    def test_each_broken_field(self) -> None:
        """What is broken is refused, or a comment tells that the runs have no place."""
        for wrong in [
            *broken("job r.0 0 9 50"),
            "slot r.0 0 9 50",
            "run r.0 0 9 50",
            "ticks 1",
            "failed",
            "job r.0 9 9 1",
            "horizon 9",
        ]:
            status, out, _ = self.called(MS + wrong + "\n", TRACE)
            self.assertEqual((status, out), (1, "failed\n"), wrong)
        self.assertEqual(self.called(MS + "job r.0 0 9 50\njob r.0 0 9 50\n", TRACE)[:2], (1, "failed\n"))
        for good in ("job r.0 0 900 50", "run r.0 0 50 1"):
            for wrong in [
                *broken(good),
                "slot r.0 0 9 50",
                "task r 0 9 9 1",
                "failed",
                "ticks 2",
                "# part 2: jobs 1 to 3, from 0 to 9",
                "job r 0 9 9",
            ]:
                status, out, _ = self.called(MS + "job r.0 0 9 50\n", TRACE.replace(good, wrong))
                self.assertEqual((status, out), (1, "failed\n"), wrong)
        for text in (
            TRACE.replace(HEAD, ""),
            TRACE.replace(UNITS, ""),
            TRACE.replace("ticks 1\n", ""),
            "",
            UNITS + TRACE.replace("unit 10 us", "unit 9 us"),
        ):
            self.assertEqual(self.called(MS + "job r.0 0 9 50\n", text)[:2], (1, "failed\n"), text)


# --- Drawn traces, of which the truth is known in nanoseconds.


class Truth(NamedTuple):
    """A job as it was: nanoseconds since the trace's time 0."""

    task: str
    number: int
    begin: int
    end: Optional[int]
    runs: List[Tuple[int, int]]
    lost: str
    """Why its runs aren't in the trace's document; empty where they are."""


def drawn_jobs(pick: random.Random, last: int) -> List[Truth]:
    """Two tasks that take turns. A job may run on another CPU, and the last ones may not end."""
    jobs, now = [], -pick.randrange(4) * 10_000_000
    numbers = {"r": 0, "s": 0}
    while now < last:
        task = pick.choice("rs")
        begin = now + pick.randrange(3_000_000)
        runs, at = [], begin + pick.choice([0, 100, 2_000_000])
        for _ in range(pick.randrange(1, 3)):
            length = pick.choice([400, 9_000, 10_000, pick.randrange(20_000_000)])
            runs.append((at, at + length))
            at += length + pick.choice([0, 1000, 4_000_000])
        end = runs[-1][1]
        lost = pick.choice(["", "", "", "ran on another processor"])
        jobs.append(Truth(task, numbers[task], begin, end if end <= last else None, runs, lost))
        numbers[task] += 1
        now = end
    return jobs


def up(nano: int) -> str:
    micro = -(-nano // 1000)
    return f"{micro // 1000}.{micro % 1000:03d}"


def trace_of(jobs: Sequence[Truth], tick: int, length: int, last: int) -> str:
    """The document, by the rules of yds_trace, where each deadline is so long after the begin."""
    lines, runs, behind = [], [], []
    for job in jobs:
        name, due = f"{job.task}.{job.number}", job.begin + length
        until = last if job.end is None else job.end
        late = until - due if until > due else None
        line = f"job {name} {job.begin // tick} {due // tick} 1"
        window = f"; window {job.begin // tick} {due // tick}"
        how = "" if late is None else f", {'not ended ' if job.end is None else ''}{up(late)} ms after its deadline"
        if job.begin < 0 and late is None:
            behind.append(f"# left out: {name} (before from){window}")
        elif job.begin < 0 or job.lost or (job.end is None and late is None):
            reason = "before from" if job.begin < 0 else job.lost or "not ended"
            if late is None:
                behind.append(f"# left out: {name} ({reason}){window}")
            else:
                lines.append(line if job.begin >= 0 else f"job {name} 0 {max(1, due // tick)} 1")
                lines.append(f"# late, without its runs: {name} ({reason}){how}{window}")
        else:
            lines.append(line)
            shown = [
                (a // tick, min(b, last) // tick) for a, b in job.runs if a < last and a // tick < min(b, last) // tick
            ]
            runs += [f"run {name} {a} {b} 1" for a, b in shown]
            ends_at = shown[-1][1] if shown else None
            note = ""
            if late is not None and job.end is None:
                note = "not ended"
            elif late is not None and until // tick == due // tick:
                note = "late by less than a unit of time"
            elif late is not None and (ends_at is None or ends_at <= due // tick):
                note = "late in a run within one tick"
            if note:
                behind.append(f"# {note}: {name}, {up(late or 0)} ms after its deadline")
            elif job.end is not None and (ends_at is None or job.end // tick > ends_at):
                lines.append(f"# ends: {name} {job.end // tick}")
    head = [HEAD[:-1], f"# time unit {tick // 1000} us, speed unit 1000 kHz, work unit 1 cycles"]
    return "\n".join([*head, *lines, "ticks 1", *runs, *behind, f"# {len(lines)} jobs written, none left out", ""])


class Drawn(Frames):
    def test_nothing_is_invented_and_nothing_hidden(self) -> None:
        """Each run is at its place; who is told to be late is so; and who is late by a tick looks so, or is told."""
        told_late = 0
        for seed in range(CASES):
            pick = random.Random(seed)
            tick, last = pick.choice([10_000, 1_000]), pick.randrange(50, 300) * 1_000_000 + pick.randrange(2) * 333
            jobs = drawn_jobs(pick, last)
            behind = [job for job in jobs if job.begin >= 0]
            firsts = {task: sum(job.begin < 0 and job.task == task for job in jobs) for task in "rs"}
            unit, dues, lines = pick.choice([10_000, 1_000_000]), {}, []
            for job in behind:
                name = f"{job.task}.{job.number - firsts[job.task]}"
                release = job.begin // unit
                dues[name] = release + pick.randrange(1, 25_000_000) // unit + 1
                if job.end is not None and job.end // unit > release and pick.random() < 0.3:
                    dues[name] = job.end // unit
                lines.append(f"job {name} {release} {dues[name]} {pick.randrange(9)}")
            length = pick.choice([1_000_000, 7_500_000, 40_000_000])
            trace = trace_of(jobs, tick, length, last)
            called = self.called("\n".join(lines) + "\n", trace, f"--us={unit // 1000}", "--khz=1000")
            if called.status:
                self.assertRegex(
                    called.err, "no job line|no job of the trace has a line|is the first at or after time 0"
                )
                self.assertFalse([job for job in behind if not job.lost and job.end is not None], (seed, called.err))
                continue
            self.look(
                called.out.splitlines(),
                Drawing(seed, behind, firsts, {name: due * unit for name, due in dues.items()}, tick, last, length),
            )
            told_late += "after its deadline" in called.out
        self.assertGreater(told_late, CASES // 10)

    def look(self, out: List[str], drawing: "Drawing") -> None:
        runs: Dict[str, List[Tuple[int, int]]] = {}
        told: Dict[str, str] = {}
        for line in out:
            fields = line.split()
            if fields[0] == "run":
                runs.setdefault(fields[1], []).append((int(fields[2]), int(fields[3])))
            elif line.startswith("# ") and ": " in line and not line.startswith(("# ends: ", "# left out: 1 ")):
                told[line.split(": ", 1)[1].split()[0].rstrip(",")] = line
        number = len(drawing.dues)
        self.assertEqual(out[-1].split(" written")[0], f"# {number} job{'s' if number > 1 else ''}")
        unsure = any("in the tick of" in line for line in out)
        for job in drawing.jobs:
            name = f"{job.task}.{job.number - drawing.firsts[job.task]}"
            self.look_at(job, runs.get(name, []), told.get(name, ""), drawing, name, unsure)

    def look_at(  # type: ignore[no-untyped-def]
        self, job: Truth, runs, told: str, drawing: "Drawing", name: str, unsure: bool
    ) -> None:
        which, tick, last = (drawing.seed, name, told), drawing.tick, drawing.last
        shown = [
            (a // tick, min(b, last) // tick) for a, b in job.runs if a < last and a // tick < min(b, last) // tick
        ]
        due = drawing.dues[name]
        until = last if job.end is None else job.end
        is_told_late = "after its deadline" in told
        if is_told_late:
            amount = told.split(" ms after")[0].split()[-1].replace(".", "")
            self.assertLess((int(amount) - 1) * 1000, until - due, which)
            self.assertGreater((int(amount) + 1) * 1000, until - due - tick - 1000, which)
            self.assertEqual("not ended" in told, job.end is None, which)
        if job.lost or job.end is None:
            known = until > job.begin + drawing.length
            if until >= due + 2 * tick + 1000:
                self.assertEqual(is_told_late, known, which)
            self.assertIn(told.split(": ")[0], ("# late, without its runs", "# left out", "# not ended"), which)
            self.assertEqual(runs, shown if told.startswith("# not ended") else [], which)
            return
        self.assertEqual(runs, shown, which)
        looks_late = bool(runs) and runs[-1][1] * tick > due
        if until >= due + tick:
            self.assertTrue(looks_late or is_told_late or (unsure and until < due + 2 * tick + 1000), which)
        elif until > due:
            self.assertTrue(looks_late or is_told_late or unsure, which)
        self.assertFalse(looks_late and is_told_late, which)


class Drawing(NamedTuple):
    """What was drawn: jobs from time 0 on, the number of each task's first, the frames' deadlines, and the trace's."""

    seed: int
    jobs: List[Truth]
    firsts: Dict[str, int]
    dues: Dict[str, int]
    tick: int
    last: int
    length: int


if __name__ == "__main__":
    unittest.main()
