"""executions.py: simulates executions whose truth is known, and holds against it what a trace of them is told as.

    python3 robustness/executions.py [--count N] [--seed S]      2,000 executions of seed 1 without these

A thread is woken, runs, and sleeps, by what a kernel does and writes: it is preempted, waits for a disk, is stopped, has
a signal pending while it goes to sleep, is woken while it goes to sleep, moves, is over, or starves. Wake-ups are
recorded by their first half, by their second, or by both; a trace may begin late, lose events with a mark or without one
(a coming of the thread, or a leaving), be silent of a processor at its end, or be asked for from a time on; and frames
that are due by a period may fall behind. A job is from a wake-up to the next sleep. What second.py reads of the trace is
compared with the truth:

- hidden: a job was late by a unit of time or more, none is told late, and no comment says that anything isn't known;
- invented: a job is told late, and no job was open so long.

What can't be known is counted apart: a thread's first wake-up in the trace may end a wait within a job that began before
it; where wake-ups are recorded by their first half alone, one that comes while its thread goes to sleep may have been
taken up before that, if the thread isn't seen again; where the thread's last leaving is missing, it seems to have its
processor up to the end; and where a processor is silent, the thread's wake-ups and leavings are missing, too, which isn't
told of one that was left idle.

The last line is 'N passed, M failed'; the status is 1 where M isn't 0.
"""

import argparse
import random
import sys
from collections import Counter
from pathlib import Path
from typing import Dict, List, NamedTuple, Optional, Tuple

sys.path.insert(0, str(Path(__file__).resolve().parent))
import second  # noqa: E402

PID, NAME = 100, "decode"
UNIT = 10_000
"""Nanoseconds in a unit of time."""
SLACK = 9_000
"""A wake-up's second half comes less than so long behind its first: a job that is told by it alone begins so much later."""
UNKNOWN = ("not ended", "events lost", "a switch is missing", "its begin isn't in the trace", "due before it begins")
KINDS = ("whole", "starving", "front", "from", "loss", "coming", "leaving", "period", "silent")


class Real(NamedTuple):
    """A job as it was: when it began, and until when it was open."""

    begin: int
    end: int


class Line(NamedTuple):
    """A line of the trace: when, on which processor, and its text."""

    time: int
    processor: int
    text: str


class Machine:
    """A few processors, the thread that is looked at, and others; times are nanoseconds."""

    def __init__(self, draw: random.Random) -> None:
        self.draw = draw
        self.processors = draw.randint(1, 3)
        self.has: List[Tuple[str, int]] = [("swapper/0", 0)] * self.processors
        self.lines: List[Line] = []
        self.jobs: List[Real] = []
        self.halves = draw.choice(("first", "first", "both", "second"))
        self.now = 100 * 10**9 + draw.randrange(10**9)
        self.seen: Counter = Counter()

    def wait(self, least: int, most: int) -> int:
        """Time goes on."""
        self.now += self.draw.randint(least, most)
        return self.now

    def write(self, text: str, processor: int) -> None:
        """A line at this time."""
        self.lines.append(Line(self.now, processor, text))

    def half(self, first: bool) -> None:
        """Half of a wake-up, if it is recorded."""
        if self.halves in ("both", "first" if first else "second"):
            name = "sched_waking" if first else "sched_wakeup"
            self.write(f"{name}: comm={NAME} pid={PID} prio=120 target_cpu=000", self.draw.randrange(self.processors))

    def wake(self) -> int:
        """The thread is woken: when that starts."""
        begin = self.now
        self.half(True)
        self.wait(500, SLACK // 2)
        self.half(False)
        return begin

    def switch(self, processor: int, state: str, name: str, pid: int) -> None:
        """A processor switches."""
        before, number = self.has[processor]
        self.write(
            f"sched_switch: prev_comm={before} prev_pid={number} prev_prio=120 prev_state={state} ==>"
            f" next_comm={name} next_pid={pid} next_prio=120",
            processor,
        )
        self.has[processor] = (name, pid)

    def other(self) -> Tuple[str, int]:
        """Whoever comes next: another thread, or the idle one."""
        return self.draw.choice((("swapper/0", 0), ("hog", 7), ("kworker/0:1", 8)))

    def noise(self, free_of: Optional[int]) -> None:
        """Other threads switch on a processor."""
        for processor in range(self.processors):
            if processor != free_of and self.draw.random() < 0.4:
                self.switch(processor, self.draw.choice("RS"), *self.other())

    def come(self) -> int:
        """The thread comes to a processor."""
        processor = self.draw.randrange(self.processors)
        self.switch(processor, "R", NAME, PID)
        return processor

    def leave(self, processor: int, state: str) -> None:
        """It leaves it."""
        self.switch(processor, state, *self.other())

    def stretch(self, processor: int) -> int:
        """It runs, and something comes between; it runs on afterwards."""
        self.wait(20_000, 400_000)
        what = self.draw.choice(("preempted", "preempted", "moved", "disk", "stopped", "signal"))
        self.seen[what] += 1
        self.leave(processor, {"preempted": "R", "moved": "R+", "disk": "D", "stopped": self.draw.choice("Tt"), "signal": "S"}[what])
        self.wait(1_000, 20_000 if what == "signal" else self.draw.choice((50_000, 500_000, 5_000_000)))
        self.noise(None)
        if what in ("disk", "stopped"):
            self.wake()
        self.wait(1_000, 30_000)
        return self.come()

    def run(self, starving: bool) -> None:
        """A job after another: each from a wake-up to the next sleep."""
        count = self.draw.randint(3, 9)
        begin = self.wake()
        for number in range(count):
            self.wait(2_000, 4_000_000 if self.draw.random() < 0.2 else 60_000)
            if starving and number == count - 1:
                self.wait(20_000_000, 60_000_000)
                self.noise(None)
                self.jobs.append(Real(begin, self.now))
                return
            processor, signalled = self.come(), False
            for _ in range(self.draw.choice((0, 0, 1, 1, 2, 3))):
                before = self.seen["signal"]
                if not signalled:
                    processor = self.stretch(processor)
                signalled = signalled or self.seen["signal"] > before
            self.wait(20_000, 6_000_000 if self.draw.random() < 0.2 else 900_000)
            begin = self.sleep(processor, begin, number == count - 1)

    def frames(self) -> int:
        """Frames that are due by a period: each begins when that is, or shortly behind the one before, if that fell behind. Gives the period."""
        period = self.draw.choice((2_000_000, 5_000_000, 16_666_667))
        first = self.now
        for number in range(self.draw.randint(4, 12)):
            due_from = first + number * period
            self.now = max(self.now + self.draw.randint(20_000, 90_000), due_from)
            self.wait(0, 3_000)
            self.wake()
            self.wait(2_000, 40_000)
            processor = self.come()
            if self.draw.random() < 0.3:
                processor = self.stretch(processor)
            self.wait(20_000, period * self.draw.choice((1, 1, 1, 2, 3)) // 2)
            self.leave(processor, "S")
            self.jobs.append(Real(due_from, self.now))
            self.seen["behind"] += self.now > due_from + period
            self.noise(None)
        self.wait(50_000, 900_000)
        self.noise(None)
        return period

    def sleep(self, processor: int, begin: int, last: bool) -> int:
        """It goes to sleep, and is woken: when the next job begins."""
        if last and self.draw.random() < 0.3:
            self.seen["over"] += 1
            self.leave(processor, self.draw.choice("XZ"))
            self.jobs.append(Real(begin, self.now))
            self.wait(100_000, 900_000)
            self.noise(None)
            return begin
        raced = not last and self.draw.random() < 0.25
        if raced:
            self.seen["raced"] += 1
            woken = self.now
            self.half(True)
            self.wait(300, SLACK // 3)
        self.leave(processor, self.draw.choice(("S", "S", "S", "I")))
        self.jobs.append(Real(begin, self.now))
        if raced:
            self.wait(300, SLACK // 3)
            self.half(False)
            return woken
        self.wait(50_000, 9_000_000)
        self.noise(None)
        return begin if last else self.wake()


class Tried(NamedTuple):
    """A trace, the words for it, its first time, from when to when it is asked for and shows what happens, and the thread's lines that are missing
    though nothing says so."""

    text: bytes
    words: List[str]
    first: int
    begin: int
    end: int
    gone: List[Line]


def text_of(lines: List[Line], lost: Dict[int, int]) -> bytes:
    """The lines as the kernel writes them; before some, by their places, that events of their processor were lost."""
    told: List[str] = []
    for place, line in enumerate(lines):
        if place in lost:
            told.append(f"CPU:{line.processor} [LOST {lost[place]} EVENTS]")
        told.append(f"          x-1     [{line.processor:03d}] d..2. {line.time // 10**9}.{line.time % 10**9:09d}: {line.text}")
    return ("\n".join(told) + "\n").encode()


def without(lines: List[Line], mark: str, draw: random.Random) -> List[Line]:
    """The lines but for one of the thread's switches, in which this mark stands."""
    own = [place for place, line in enumerate(lines) if mark in line.text]
    gone = draw.choice(own) if own else -1
    return lines[:gone] + lines[gone + 1 :] if own else lines


def silenced(machine: Machine, draw: random.Random) -> List[Line]:
    """The lines, but that a processor tells nothing from one of them on, while another goes on for a while."""
    lines = list(machine.lines)
    if machine.processors > 1:
        at = draw.randrange(len(lines) // 3, len(lines))
        quiet = draw.randrange(machine.processors)
        lines = lines[:at] + [line for line in lines[at:] if line.processor != quiet]
        machine.wait(100_000, draw.choice((900_000, 3_000_000_000)))
        lines.append(Line(machine.now, (quiet + 1) % machine.processors, "irq_handler_entry: irq=1 name=x"))
    return lines


def tried(kind: str, machine: Machine, draw: random.Random, period: int) -> Tried:
    """What is recorded, and asked for."""
    deadline = draw.choice((1, 2, 5, 16))
    behind = f"::{period // 10**6}.{period % 10**6:06d}" if period else ""
    words = ["--tasks", f"{NAME}:{deadline}{behind}", "--start", "1000000", "--cpu", "0", "--us", "10", "--khz", "100000"]
    lines = list(machine.lines)
    lost: Dict[int, int] = {}
    begin: Optional[int] = None
    if kind == "coming":
        lines = without(lines, f"next_pid={PID} ", draw)
    if kind == "leaving":
        lines = without(lines, f"prev_pid={PID} ", draw)
    if kind in ("coming", "leaving") and draw.random() < 0.5:
        words += ["--lost", "cut"]
    if kind == "silent":
        lines = silenced(machine, draw)
    if kind == "front":
        lines = lines[draw.randrange(len(lines) // 2) :]
    if kind == "from":
        begin = draw.randrange(lines[0].time, lines[-1].time)
        words += ["--from", f"{begin // 10**9}.{begin % 10**9:09d}"]
    if kind == "loss":
        processor = draw.randrange(machine.processors)
        own = [place for place, line in enumerate(lines) if line.processor == processor]
        if len(own) > 4:
            first = draw.randrange(1, len(own) - 2)
            gone = own[first : first + draw.randint(1, min(6, len(own) - 1 - first))]
            behind = own[own.index(gone[-1]) + 1]
            kept = [place for place in range(len(lines)) if place not in gone]
            lost = {kept.index(behind): len(gone)}
            lines = [lines[place] for place in kept]
        words += ["--lost", "cut"]
    gone = [line for line in machine.lines if NAME in line.text and line not in lines] if kind in ("coming", "leaving", "silent") else []
    return Tried(text_of(lines, lost), words, lines[0].time, begin if begin is not None else lines[0].time, lines[-1].time, gone)


def is_plain(document: second.Document) -> bool:
    """Whether nothing says that anything isn't known."""
    left = any(one.reason in UNKNOWN for one in document.judged)
    lacks = document.tally.losses or document.tally.missing or document.tally.silent > 10**9
    return not (left or lacks or any(one.job.exited for one in document.judged))


def hidden(document: second.Document, jobs: List[Real], case: Tried, deadline: int) -> Optional[Real]:
    """A job that was late by a unit or more, where none is told late and nothing says that anything isn't known."""
    if any(one.late is not None and one.late >= UNIT for one in document.judged) or not is_plain(document):
        return None
    for job in jobs:
        due, end = job.begin + deadline, min(job.end, case.end)
        if job.end > case.begin and due + UNIT + SLACK <= end and due <= case.end:
            return job
    return None


def limit_of(job: Real, kind: str, machine: Machine, case: Tried) -> str:
    """Why it can't be known of a hidden job that it was late, if it can't."""
    if job.begin < case.first:
        return "a wait's end taken for a begin"
    if kind == "silent" and case.gone:
        return "a processor that was left idle is silent, and its lines of it"
    before = [other for other in machine.jobs if other.begin < job.begin]
    raced = bool(before) and before[-1].end > job.begin
    return "woken as it went to sleep, and not seen again" if raced and machine.halves == "first" and job == machine.jobs[-1] else ""


def limit_of_late(kind: str, machine: Machine, case: Tried) -> str:
    """Why it can't be known of a job that is told late that none was, if it can't."""
    own = [line for line in machine.lines if f"_pid={PID} " in line.text]
    if kind == "leaving" and case.gone == own[-1:]:
        return "its last leaving is missing"
    return "a silent processor's lines of it" if kind == "silent" and case.gone else ""


def invented(document: second.Document, jobs: List[Real]) -> Optional[second.Judged]:
    """A job that is told late, though no job was open so long."""
    for one in document.judged:
        if one.late is not None:
            shown = one.due + one.late
            if not any(job.begin <= one.job.begin + SLACK and shown <= job.end + SLACK for job in jobs):
                return one
    return None


def main(words: List[str]) -> int:
    """Simulates so many executions. Gives the status."""
    parser = argparse.ArgumentParser(description=(__doc__ or "").split("\n", maxsplit=1)[0])
    parser.add_argument("--count", type=int, default=2000)
    parser.add_argument("--seed", type=int, default=1)
    options = parser.parse_args(words)
    counts: Counter = Counter()
    failed = 0
    for number in range(options.count):
        draw = random.Random(f"{options.seed} {number}")
        kind = KINDS[number % len(KINDS)]
        machine = Machine(draw)
        period = machine.frames() if kind == "period" else 0
        if kind != "period":
            machine.run(kind == "starving")
        case = tried(kind, machine, draw, period)
        asked = second.asked_by(case.words)
        counts[kind] += 1
        counts.update({f"with {what}": 1 for what in machine.seen})
        try:
            document = second.whole_document(case.text, asked)
            document.check_jobs()
        except second.Wrong as wrong:
            counts[f"{kind}: refused ({wrong.kind})"] += 1
            continue
        late = any(one.late is not None and one.late >= UNIT for one in document.judged)
        counts[f"{kind}: {'late' if late else 'plain' if is_plain(document) else 'as far as is known'}"] += 1
        deadline = asked.tasks[0].deadline
        lost, made = hidden(document, machine.jobs, case, deadline), invented(document, machine.jobs)
        limit = "" if lost is None else limit_of(lost, kind, machine, case)
        if limit:
            counts[f"can't be known: {limit}"] += 1
            lost = None
        limit = "" if made is None else limit_of_late(kind, machine, case)
        if limit:
            counts[f"can't be known, told late: {limit}"] += 1
            made = None
        if lost is not None or made is not None:
            failed += 1
            if failed <= 5:
                print(f"execution {number} of seed {options.seed} ({kind}, {machine.halves}): hidden {lost}, invented {made}")
                print(" ".join(case.words), case.text.decode(), sep="\n")
    for what, many in sorted(counts.items()):
        print(f"{many:7} {what}")
    print(f"{options.count - failed} passed, {failed} failed")
    return int(failed > 0)


if __name__ == "__main__":
    sys.exit(main(sys.argv[1:]))
