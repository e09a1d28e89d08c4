"""long.py: draws long traces of a kernel with the word --parts, and holds all that yds_trace writes against the second reading parted.py.

    python3 robustness/long.py [SEED] [TRACES] [YDS_TRACE] [YDS_CLI]
    python3 robustness/long.py one SEED NUMBER         writes the trace of this number, and its words to standard error

It draws TRACES traces (50) of some 1,000 to 60,000 lines: periodic threads with deadlines that are shorter than their
periods, equal or longer, jobs that are preempted, overrun, wait, sleep within a period or move. Each trace shows one
thing more, which goes round by its number (SHOWN): a thread that hangs or starves, losses and threads that reach back
behind a part that was written, faults of lines and of documents in a later part, thousands of stretches, thousands of
spans of other threads, `--from` and `--to`. Half of them ask for shares of jobs that moved, and half for who else had the
processor. In half of them events stand some lines behind their places in order of time. What is held of each:

- the text and the status of yds_trace are those of the second reading, byte for byte;
- the jobs and runs of the parts, their shifts added, are those that the whole trace shows at its end;
- `yds_cli audit` reads each part, and refuses a text that ends with `failed`.

Before the last line it tells how many traces had each thing. The status is 1 where something differs, and also where of
400 traces or more fewer than 4 had a thing of WANTED. YDS_TRACE and YDS_CLI are the built programs (build/yds_trace and
build/yds_cli).
"""

import heapq
import os
import random
import re
import subprocess
import sys
from collections import Counter
from pathlib import Path
from typing import Callable, Dict, Iterator, List, NamedTuple, Optional, Tuple

from exchanged import strewn
from machine import KHZ, Machine, STRANGERS, Task
from parted import FULL, Parts, SMALL, told_in_parts
from second import Document, Job, Told, as_bytes, asked_by, judge_jobs, ordered

class Drawing:
    """A machine with its words, and how long its trace is: `scale` times shorter than the program's limits need it."""

    def __init__(self, draw: random.Random, scale: int = 1) -> None:
        self.draw, self.scale = draw, scale
        self.limits = FULL if scale == 1 else SMALL
        base = draw.choice([300_000, 1_000_000, 2_000_000])
        self.rests = draw.random() < 0.85
        many = draw.choice([[1, 5], [1, 7], [1, 2, 5]] if self.rests else [[1], [1, 1], [1, 2], [2, 3], [1, 2, 3]])
        factor = draw.choice([0.5, 0.5, 1.0] if self.rests else [0.5, 1.0, 1.0, 1.5])
        share = draw.choice([0.2, 0.5, 0.9]) / len(many)
        self.tasks = [Task(number, base * times, share, factor) for number, times in enumerate(many)]
        self.it = Machine(draw, self.tasks)
        self.it.odds = {"jitter": 0.2, "rewoken": 0.05, "overrun": 0.01, "short": 0.05, "speed": 0.05, "sleep": 0.02, "move": 0.002, "noise": 0.05}
        self.size = self.some(9_000, 24_000)
        self.options: Dict[str, Optional[str]] = {"--parts": None, "--lost": "cut"}
        self.set_apart(base)
        self.edits: List[Callable[[List[bytes]], None]] = []
        if draw.random() < 0.3:
            self.options["--us"] = draw.choice(["1", "5", "50"])
            self.options["--khz"] = "100000"
        elif draw.random() < 0.2:
            self.options["--khz"] = draw.choice(["20000", "100000"])
        if draw.random() < 0.3:
            self.options["--begin"] = "run"
        if draw.random() < 0.5:
            self.options["--moved"] = "parts"
            self.it.odds["move"] = draw.choice([0.002, 0.02])
        if draw.random() < 0.5:
            self.options["--others"] = "spans"
            self.it.odds["others"] = draw.choice([0.01, 0.1])
        self.paced = draw.random() < 0.3

    def some(self, least: int, most: int) -> int:
        """So many lines, or so many that are `scale` times fewer."""
        return self.draw.randrange(least // self.scale, most // self.scale)

    def set_apart(self, base: int) -> None:
        """APART of each task. Where a trace rests, that of the slowest is nearly its period, and some of its jobs sleep within it and go on:
        for most of the time its last job has ended and isn't settled, while jobs of the others come and go."""
        slowest = self.tasks[-1]
        if self.rests:
            slowest.apart = self.draw.choice([9, 9, 8, 6]) * slowest.period // 10
            slowest.busy, slowest.deadline = slowest.period // 30, slowest.period // 5
            self.it.odds["nap"] = self.draw.choice([0.02, 0.1, 0.2])
        else:
            apart = self.draw.choice([0, 0, 0, 50_000, 9 * base // 10, 5 * base // 2])
            for task in self.tasks:
                task.apart = apart

    def words(self) -> List[str]:
        """The words."""
        found = ["--tasks", ",".join(self.task_text(task) for task in self.tasks)]
        for name, value in self.options.items():
            found += [name] if value is None else [name, value]
        return found

    def task_text(self, task: Task) -> str:
        """A task as `--tasks` takes it."""
        apart = f"{task.apart / 10**6:.6f}" if task.apart else ""
        behind = f":{apart}:{task.period / 10**6:.6f}" if self.paced else f":{apart}" if apart else ""
        return f"{task.name}:{task.deadline / 10**6:.6f}{behind}"

    def seconds(self, time: int) -> str:
        """A time as `--from` and `--to` take it."""
        return f"{time // 10**9}.{time % 10**9:09d}".rstrip("0").rstrip(".")

    def stamp(self, line: bytes) -> int:
        """The time of a line."""
        mark = re.search(rb" ([0-9]+)\.([0-9]{9}): ", line)
        return int(mark[1] + mark[2]) if mark else 0

    def trace(self, strews: random.Random) -> bytes:
        """The trace's text. Of each second one some lines are out of order."""
        self.it.run(self.size)
        for edit in self.edits:
            edit(self.it.lines)
        lines = strewn(strews, self.it.lines) if strews.random() < 0.5 else self.it.lines
        return b"\n".join(lines) + b"\n"


# # What a trace shows


def plain(it: Drawing) -> None:
    """Periodic threads, and what chance gives them."""
    it.size = it.some(12_000, 30_000)


def calm(it: Drawing) -> None:
    """Nothing but the threads: each window is over when its next job begins."""
    it.it.odds = {}
    for task in it.tasks:
        task.deadline = task.period // 2
    it.options.pop("--begin", None)


def opened(it: Drawing) -> None:
    """A window is always open: deadlines are later than the next jobs' begins, and none overruns."""
    it.it.odds.update(overrun=0.0, jitter=0.0, missing=0.0)
    for task in it.tasks:
        task.deadline = int(task.period * it.draw.choice([1.1, 1.5, 3.0]))
        task.busy = task.period // 10


def at_run(it: Drawing) -> None:
    """Jobs begin at their first run, and no wake-up is told."""
    it.options["--begin"] = "run"
    it.it.wakes = False


def hangs(it: Drawing) -> None:
    """A thread hangs from some line on: before all others, or behind them."""
    first = it.draw.randrange(500 // it.scale, it.size)
    it.size = first + it.draw.choice([500, 4_000, 30_000, 30_000]) // it.scale
    task = it.draw.choice(it.tasks)
    is_behind = len(it.tasks) > 1 and it.draw.random() < 0.9
    it.it.odds["noise"] = 0.0

    def run(lines: int, before: Callable[[int], None] = it.it.run) -> None:
        before(first)
        while task.left == 0:
            it.it.step()
        task.hangs = True
        task.due = 10**18 if is_behind else task.due
        before(max(lines, len(it.it.lines)))

    it.it.run = run  # type: ignore[method-assign]


def starves(it: Drawing) -> None:
    """A thread is woken and gets no processor, from some line on."""
    first = it.draw.randrange(500 // it.scale, it.size)
    it.size = first + it.draw.choice([500, 4_000, 24_000]) // it.scale
    task = it.draw.choice(it.tasks)
    it.options.pop("--begin", None)

    def run(lines: int, before: Callable[[int], None] = it.it.run) -> None:
        before(first)
        task.starves = True
        before(lines)

    it.it.run = run  # type: ignore[method-assign]


def loses(it: Drawing) -> None:
    """Events were lost, since a time that may be long ago."""
    it.it.odds["noise"] = it.draw.choice([0.0, 0.001, 0.05])

    def edit(lines: List[bytes]) -> None:
        at = it.draw.randrange(len(lines) // 3, len(lines))
        told = it.draw.choice(["CPU:%d [LOST 12 EVENTS]", "CPU:%d [3 EVENTS DROPPED]", "##### CPU %d buffer started ####"])
        lines.insert(at, (told % it.draw.choice([0, 0, 0, 1, 2, 5])).encode())
        lines.insert(1, lines[0].replace(b"[000]", b"[001]").replace(b"cpu_id=0", b"cpu_id=1"))

    it.edits.append(edit if it.draw.random() < 0.6 else lambda lines: lose_behind(it, lines))
    if it.draw.random() < 0.15:
        it.options.pop("--lost")


def lose_behind(it: Drawing, lines: List[bytes]) -> None:
    """Just behind a part a processor tells that it lost events since its last line, which came shortly before the part was written."""
    _, parts = told_in_parts(b"\n".join(lines) + b"\n", asked_by(it.words()), it.limits)
    at = it.draw.choice(parts.behind or [len(lines) // 2])
    since = max(1, at - it.draw.choice([1, 2, 5, 20, 60]))
    time = it.stamp(lines[since])
    lines.insert(at, b"CPU:6 [LOST 12 EVENTS]")
    lines.insert(since, f" w-5 [006] d..2. {time // 10**9}.{time % 10**9:09d}: irq_handler_entry: irq=1 name=x".encode())


def was_there(it: Drawing) -> None:
    """A thread leaves a processor that hasn't switched yet: it was there all the time."""

    def edit(lines: List[bytes]) -> None:
        at = it.draw.randrange(100 // it.scale + 2, len(lines))
        task = it.draw.choice(it.tasks)
        stamp = re.search(rb" [0-9]+\.[0-9]{9}: ", lines[at])
        assert stamp is not None
        text = f"prev_comm={task.name} prev_pid={task.pid} prev_prio=120 prev_state=R ==> next_comm=swapper/7 next_pid=0 next_prio=120"
        lines.insert(at, b" w-5 [007] d..2." + stamp[0] + b"sched_switch: " + text.encode())

    it.edits.append(edit)


def faulty(it: Drawing) -> None:
    """A line that is refused, behind parts or before them."""

    def edit(lines: List[bytes]) -> None:
        at = it.draw.randrange(len(lines) // 4, len(lines))
        way = it.draw.choice([0, 1, 2, 2, 2, 3, 4, 5])
        if way == 0:
            lines[at] = re.sub(rb" [0-9]+\.", b" 1.", lines[at], count=1)
        elif way == 1:
            lines[at] = re.sub(rb"\[00[0-9]\]", b"[9000]", lines[at], count=1)
        elif way == 2:
            lines[at] = lines[at].replace(b" prev_prio=", b" prev_pri=").replace(b" prio=", b" pri=")
        elif way == 3:
            lines[at] = re.sub(rb"prev_state=\w", b"prev_state=q", lines[at])
        elif way == 4:
            lines[at] = re.sub(rb"(decode \w*pid=)10", rb"\g<1>99", lines[at])
        else:
            lines[at:] = [line.replace(b"=decode ", b"=decoder ") for line in lines[at:]]

    it.edits.append(edit)


def limited(it: Drawing) -> None:
    """A job that passes a limit of documents: its work, or its speed."""
    khz = it.draw.choice([2_000_000_000, 2_000_000_000, 1_234])

    def edit(lines: List[bytes]) -> None:
        at = it.draw.randrange(len(lines) // 4, len(lines))
        time = it.stamp(lines[at])
        lines.insert(at, f" w-5 [000] d..2. {time // 10**9}.{time % 10**9:09d}: cpu_frequency: state={khz} cpu_id=0".encode())

    it.it.odds["speed"] = 0.0
    it.edits.append(edit)


def strict(it: Drawing) -> None:
    """No job may be missed, and perhaps one is."""
    it.it.odds.update(missing=0.0001, move=0.0001)
    it.options["--strict"] = None
    it.options.pop("--begin", None)


def missing(it: Drawing) -> None:
    """Some switches aren't there, of a thousand one or more."""
    it.it.odds["missing"] = it.draw.choice([0.001, 0.03, 0.1])
    if it.draw.random() < 0.6:
        it.options.pop("--lost")


def windowed(it: Drawing) -> None:
    """Between two times of the trace."""

    def edit(lines: List[bytes]) -> None:
        times = sorted(it.stamp(it.draw.choice(lines)) for _ in range(2))
        if it.draw.random() < 0.7:
            it.options["--from"] = it.seconds(times[0])
        if it.draw.random() < 0.7 and times[0] < times[1]:
            it.options["--to"] = it.seconds(times[1] + it.draw.choice([0, 1, 10**6]))

    it.edits.append(edit)
    it.size = it.some(12_000, 30_000)


def stretched(it: Drawing) -> None:
    """Many changes of speed: thousands of stretches in few jobs."""
    it.it.odds.update(overrun=0.0, speed=0.0, noise=0.0)
    for task in it.tasks:
        task.period, task.busy, task.deadline = 40 * task.period, 39 * task.period // len(it.tasks), 40 * task.deadline
    rate = it.draw.choice([200, 2_000, 60_000])
    size = it.draw.choice([35_000, 60_000]) // it.scale
    it.options.update({"--us": "50", "--khz": "100000"})
    it.size = 800 // it.scale

    def edit(lines: List[bytes]) -> None:
        found: List[bytes] = []
        for before, behind in zip(lines, lines[1:]):
            found.append(before)
            time, until = it.stamp(before), it.stamp(behind)
            many = min(rate, (until - time) // 1_000)
            for number in range(many):
                at = time + (until - time) * (number + 1) // (many + 1)
                found.append(b" w-5 [000] d..2. %d.%09d: cpu_frequency: state=%d cpu_id=0" % (at // 10**9, at % 10**9, KHZ[number % 3]))
            if len(found) > size:
                break
        lines[:] = found[:size]

    it.edits.append(edit)


def shoved(it: Drawing) -> None:
    """Thousands of other threads take the processor from few jobs, and each is told."""
    it.options["--others"] = "spans"
    it.it.odds.update(others=it.draw.choice([0.3, 0.6]), overrun=0.0, noise=0.0, missing=0.0, nap=0.0)
    it.it.burst = it.draw.choice([300, 2_000, 9_000]) // it.scale
    for task in it.tasks:
        task.period, task.deadline, task.busy = 60 * task.period, 60 * task.deadline, 20 * task.busy
    it.options["--us"] = it.draw.choice(["1", "10", "50"])
    it.options["--khz"] = "100000"
    it.size = it.draw.choice([40_000, 60_000]) // it.scale


def ended_behind(it: Drawing) -> None:
    """The trace ends just behind a line where a part is written, or some lines later."""

    def edit(lines: List[bytes]) -> None:
        _, parts = told_in_parts(b"\n".join(lines) + b"\n", asked_by(it.words()), it.limits)
        places = parts.behind or [len(lines) // it.limits.look * it.limits.look]
        del lines[it.draw.choice(places) + it.draw.choice([0, 0, 1, 2, 3]) :]

    it.edits.append(edit)


def elsewhere(it: Drawing) -> None:
    """The jobs run on another processor than that which is asked for: they are left out, but for those that are late."""
    it.options["--cpu"] = "1"
    it.it.odds["overrun"] = it.draw.choice([0.0, 0.002, 0.02])


def visited(it: Drawing) -> None:
    """The jobs run on another processor than that which is asked for, and other threads come and go on it."""
    elsewhere(it)
    it.options["--others"] = "spans"
    it.it.odds.update(others=0.05, missing=0.0, overrun=0.05)
    for number in range(len(it.tasks), 4):
        it.tasks.append(Task(number, it.tasks[0].period * it.draw.choice([1, 2, 3]), 0.1, 1.0))
        heapq.heappush(it.it.events, (it.it.time + 10_000 * (number + 1), number, True))
    for task in it.tasks:
        task.busy, task.apart, task.deadline = 8 * task.period // (10 * len(it.tasks)), 0, int(task.period * it.draw.choice([0.3, 1.0]))

    def edit(lines: List[bytes]) -> None:
        before, at = ("swapper/1", 0), 1
        while at < len(lines):
            time, after = it.stamp(lines[at - 1]), it.draw.choice([*STRANGERS, ("swapper/1", 0)])
            told = (f" w-5 [001] d..2. {time // 10**9}.{time % 10**9:09d}: sched_switch: prev_comm={before[0]} prev_pid={before[1]} prev_prio=120"
                    f" prev_state=R ==> next_comm={after[0]} next_pid={after[1]} next_prio=120")
            lines.insert(at, told.encode())
            before, at = after, at + it.draw.choice([2, 2, 5, 20])

    it.edits.append(edit)


def unwoken(it: Drawing) -> None:
    """No wake-up is told, where jobs begin at one; or there is one late."""
    it.it.wakes = False
    it.options.pop("--begin", None)
    it.size = it.draw.choice([3_000, 24_000]) // it.scale
    if it.draw.random() < 0.3:
        late = it.draw.randrange(it.size)

        def run(lines: int, before: Callable[[int], None] = it.it.run) -> None:
            before(min(late, lines))
            it.it.wakes = True
            before(lines)

        it.it.run = run  # type: ignore[method-assign]


def unseen(it: Drawing) -> None:
    """A task that no line names: it is told at the end."""
    it.it.tasks = list(it.tasks)
    it.tasks.append(Task(2, 10**6, 0.5, 1.0))
    it.tasks[-1].name, it.tasks[-1].pid = "nobody", 99


def raced(it: Drawing) -> None:
    """Threads are woken as they go to sleep, are stopped, and leave for a signal. Of wake-ups one half is told, or both."""
    it.it.odds.update(race=it.draw.choice([0.02, 0.2]), halves=it.draw.choice([0.0, 0.5, 1.0]), stop=0.02)
    it.it.odds.update({"second half": it.draw.choice([0.0, 0.5, 1.0]), "signal": it.draw.choice([0.0, 0.002])})
    it.options.pop("--begin", None)


def came_back(it: Drawing) -> None:
    """Some threads come without a wake-up behind the ends of their jobs, perhaps behind a part."""
    often = min(it.scale, 8)
    it.it.odds.update(unwoken=it.draw.choice([0.0005, 0.005]) * often, signal=it.draw.choice([0.0, 0.03]) * often, halves=it.draw.choice([0.0, 1.0]))
    it.options.pop("--begin", None)
    if it.draw.random() < 0.6:
        it.options.pop("--lost")


def exited(it: Drawing) -> None:
    """A thread is over, and now and then its number is that of another one then."""
    it.it.odds.update({"exit": it.draw.choice([0.001, 0.01]) * min(it.scale, 20), "again": it.draw.choice([0.0, 1.0])})


def silences(it: Drawing) -> None:
    """A processor tells one line, and nothing then, and the clock jumps there."""

    def edit(lines: List[bytes]) -> None:
        at = it.draw.randrange(len(lines) // 4, len(lines) // 2)
        time, more = it.stamp(lines[at]), it.draw.choice([10**9 - 10**6, 2 * 10**9])
        for place in range(at, len(lines)):
            later = it.stamp(lines[place]) + more
            lines[place] = re.sub(rb" [0-9]+\.[0-9]{9}: ", b" %d.%09d: " % (later // 10**9, later % 10**9), lines[place], count=1)
        lines.insert(at, f" w-5 [005] d..2. {time // 10**9}.{time % 10**9:09d}: irq_handler_entry: irq=1 name=x".encode())

    it.edits.append(edit)


SHOWN: List[Callable[[Drawing], None]] = [
    plain, hangs, loses, windowed, calm, was_there, faulty, limited, starves, missing, at_run, ended_behind, stretched, opened, elsewhere, missing,
    loses, windowed, unwoken, unseen, faulty, limited, loses, opened, hangs, missing, strict, ended_behind, unwoken, hangs, faulty, strict, shoved, shoved,
    visited, visited, raced, came_back, exited, came_back, silences,
]


class Drawn(NamedTuple):
    """A drawn trace, what it shows, and words for it."""

    shows: str
    words: List[str]
    trace: bytes


def drawn(seed: int, number: int, scale: int = 1) -> Drawn:
    """The trace of this number."""
    it = Drawing(random.Random(f"long {seed} {number}"), scale)
    show = SHOWN[number % len(SHOWN)]
    show(it)
    trace = it.trace(random.Random(f"strewn {seed} {number}"))
    return Drawn(show.__name__, it.words(), trace)


# # What was in the traces

WANTED = [
    "parts: 1", "parts: 2", "parts: 3 or more", "a part with windows open", "a part without windows open", "a last part without a job", "no place",
    "no place, known to be late", "line: part written", "form behind a part", "line behind a part", "part document: work", "part document: coarse speed",
    "part document: strict", "line: missing", "a switch is missing, gone on", "whole: a task unseen", "a late job in a part", "a late job without its runs", "a job left out",
    "option --from", "option --to", "option --begin", "option --us", "option APART", "option PERIOD", "a job due by the one before", "a processor is silent", "more than 25000 stretches", "a whole trace in parts",
    "option --moved", "option --others", "a share, in time", "a share, late", "another thread in a part", "another thread up to the end of a part",
    "more than 12500 spans", "line: not woken", "line: exited", "a thread that is back behind a part", "a job with which its thread was over",
    "a job that goes on behind a sleep without a wake-up", "a job that begins as its thread goes to sleep, and one half tells",
    "a job that begins as its thread goes to sleep, and both halves tell", "lines out of order", "lines out of order at the end of a part",
]
LEAST, OF = 4, 400


def in_parts(said: Told, words: List[str]) -> Iterator[str]:
    """What is in a text of parts."""
    heads = re.findall(r"^# part (\d+): jobs (\d+) to (\d+), from \d+ to \d+, shift \d+(, windows open)?(, the last)?$", said.text, re.M)
    yield f"parts: {len(heads)}" if len(heads) < 3 else "parts: 3 or more"
    for number, first, last, is_open, is_last in heads:
        if int(number) > 1:
            yield f"a part {'with' if is_open else 'without'} windows open"
        if is_last and int(last) < int(first):
            yield "a last part without a job"
    if said.status == 0 and len(heads) > 1:
        yield "a whole trace in parts"
    yield from (f"option {word}" for word in words if word.startswith("--"))
    if re.search(r":[0-9.]+:[0-9.]+(:|,|$)", words[1]):
        yield "option APART"
    if re.search(r":[0-9.]+:[0-9.]*:[0-9.]+(,|$)", words[1]):
        yield "option PERIOD"


def in_fault(said: Told) -> Iterator[str]:
    """What the fault is, and whether a part stands before it."""
    if said.kind:
        yield said.kind
        if said.parts and said.kind.startswith(("form", "line")):
            yield f"{said.kind.partition(':')[0]} behind a part"
        if said.kind == "no place" and "known to be late by" in said.text:
            yield "no place, known to be late"


def in_sleeps(job: Job) -> Iterator[str]:
    """How a job's thread went to sleep before it, and within it, and whether it was over then."""
    if job.exited:
        yield "a job with which its thread was over"
    if job.slept is not None:
        yield "a job that goes on behind a sleep without a wake-up"
    if job.raced.startswith("and"):
        yield f"a job that begins as its thread goes to sleep, {job.raced}"


def back(said: Told, parts: Parts) -> Iterator[str]:
    """Whether a line is refused for a thread that is back behind the end of a job that was written."""
    if said.kind == "line: part written" and parts.is_back:
        yield "a thread that is back behind a part"


def in_documents(said: Told) -> Iterator[str]:
    """What the jobs of the parts show."""
    for document in said.parts:
        for one in document.judged:
            if one.late is not None:
                yield "a late job without its runs" if one.reason else "a late job in a part"
            elif one.reason:
                yield "a job left out"
            if one.part is not None:
                yield "a share, in time" if one.late is None else "a share, late"
            if one.job.due_from < one.job.begin:
                yield "a job due by the one before"
            yield from in_sleeps(one.job)
        if document.tally.silent > 10**9:
            yield "a processor is silent"
        if document.others:
            yield "another thread in a part"
        if len(document.others) > 12_500:
            yield "more than 12500 spans"
        if sum(len(one.job.ran) for one in document.judged) > 25_000:
            yield "more than 25000 stretches"


def gone_on(trace: bytes, said: Told) -> Iterator[str]:
    """Whether a switch is missing, and it went on."""
    if any(document.tally.losses for document in said.parts) and not re.search(rb"LOST|DROPPED|buffer started", trace):
        yield "a switch is missing, gone on"


def out_of_order(trace: bytes, parts: Parts) -> Iterator[str]:
    """Whether events stand behind their places in order of time, and over the end of a part."""
    numbers = [one.number for one in ordered(trace).placed]
    if numbers != sorted(numbers):
        yield "lines out of order"
    ends = [numbers.index(number) + 1 for number in parts.behind]
    if any(max(numbers[:end]) > min(numbers[end:]) for end in ends if end < len(numbers)):
        yield "lines out of order at the end of a part"


def between_parts(said: Told) -> Iterator[str]:
    """Whether a span of another thread goes on from a part into the next one."""
    for one, other in zip(said.parts, said.parts[1:]):
        if one.others and other.others and one.others[-1].end == other.others[0].begin and one.others[-1].pid == other.others[0].pid:
            yield "another thread up to the end of a part"


# # What is held

Row = Tuple[str, Optional[int], int, int]
Run = Tuple[str, int, int, int]


def put_together(text: str) -> Tuple[List[Row], List[Run]]:
    """The jobs and runs of the parts of a text, with their shifts added."""
    jobs: List[Row] = []
    runs: List[Run] = []
    shift = 0
    for line in text.split("\n"):
        word = line.split(" ")
        if word[:2] == ["#", "part"]:
            mark = re.search(r", shift (\d+)", line)
            shift = int(mark[1]) if mark else 0
        elif word[0] == "job":
            jobs.append((word[1], shift + int(word[2]), shift + int(word[3]), int(word[4])))
        elif word[0] == "run":
            runs.append((word[1], shift + int(word[2]), shift + int(word[3]), int(word[4])))
    return jobs, runs


def of_the_whole(parts: Parts) -> Tuple[List[Row], List[Run]]:
    """The jobs and runs that the whole trace shows at its end. Where a begin isn't known, a release tells nothing."""
    asked, shown = parts.asked, parts.shown()
    by_task = [judge_jobs(number, parts.jobs(follower), shown, asked) for number, follower in enumerate(parts.followers)]
    document = Document(by_task, asked.begin if asked.begin is not None else parts.lines.first or 0, asked)
    jobs: List[Row] = [(one.called, release if one.job.known else None, due, work) for one, release, due, work in document.rows]
    placed = [(one.called, *run) for one, _, _, _ in document.rows if not one.reason for run in one.runs]
    return jobs, [(name, begin, end, speed) for name, begin, end, speed in sorted(placed, key=lambda run: run[1])]


def same_whole(text: str, parts: Parts) -> bool:
    """Whether the parts of a text are the whole."""
    jobs, runs = put_together(text)
    whole_jobs, whole_runs = of_the_whole(parts)
    known = {name for name, release, _, _ in whole_jobs if release is not None}
    return [(name, release if name in known else None, due if name in known else 0, work) for name, release, due, work in jobs] == \
        [(name, release, due if name in known else 0, work) for name, release, due, work in whole_jobs] and runs == whole_runs


def documents(text: str) -> List[str]:
    """The parts of a text, each as a document."""
    return [part for part in re.split(r"^(?=# part )", text, flags=re.M) if part]


def audit(program: str, document: str) -> bytes:
    """What `yds_cli audit` says of a document."""
    return subprocess.run([program, "audit"], input=as_bytes(document), capture_output=True, check=False).stdout


class Programs(NamedTuple):
    """The built programs."""

    tracer: str
    auditor: str


def faults_of(programs: Programs, it: Drawn, said: Told, parts: Parts) -> Iterator[str]:
    """What isn't as it should be."""
    yield from faults_of_text(programs, it, said)
    if said.status == 0 and not same_whole(said.text, parts):
        yield "the parts aren't the whole"


def faults_of_text(programs: Programs, it: Drawn, said: Told) -> Iterator[str]:
    """What isn't as it should be of the text, and of each part as yds_cli reads it."""
    done = subprocess.run([programs.tracer, *it.words], input=it.trace, capture_output=True, check=False)
    if (done.stdout, done.returncode) != (as_bytes(said.text), said.status):
        yield f"the readings differ: status {done.returncode}, and {said.status}"
    found = documents(said.text)
    if said.status and (len(found) > len(said.parts) or not said.parts):
        found = found[:-1]
    elif said.status:
        found[-1] = re.sub(r"# [^\n]*\nfailed\n\Z", "", found[-1])
    for number, part in enumerate(found, 1):
        if audit(programs.auditor, part).startswith(b"refused"):
            yield f"yds_cli refuses part {number}"
    is_many = len(found) > 1 or said.status
    if is_many and not audit(programs.auditor, said.text).startswith(b"refused"):
        yield "yds_cli takes a text of several parts, or one that failed, for a document"


def main(words: List[str]) -> int:
    """Draws the traces, reads them twice, and tells what was in them."""
    if words[:1] == ["one"]:
        it = drawn(int(words[1]), int(words[2]))
        print(" ".join(it.words), file=sys.stderr)
        sys.stdout.buffer.write(it.trace)
        return 0
    seed = int(words[0]) if words else 1
    many = int(words[1]) if len(words) > 1 else 50
    programs = Programs(words[2] if len(words) > 2 else "build/yds_trace", words[3] if len(words) > 3 else "build/yds_cli")
    counts: "Counter[str]" = Counter()
    passed = failed = 0
    for number in range(many):
        it = drawn(seed, number)
        counts[f"shows {it.shows}"] += 1
        said, parts = told_in_parts(it.trace, asked_by(it.words))
        counts.update({f"status {said.status}", *in_parts(said, it.words), *in_fault(said), *in_documents(said), *between_parts(said), *back(said, parts),
                       *out_of_order(it.trace, parts), *gone_on(it.trace, said)})
        faults = list(faults_of(programs, it, said, parts))
        passed, failed = passed + int(not faults), failed + int(bool(faults))
        for fault in faults:
            print(f"FAILED: trace {number} of seed {seed} ({it.shows}): {fault}", flush=True)
    print(", ".join(f"{count} {word}" for word, count in sorted(counts.items())))
    few = [name for name in WANTED if counts[name] < LEAST] if many >= OF else []
    if few:
        print(f"too few: {', '.join(f'{counts[name]} {name}' for name in few)}")
    print(f"{passed} passed, {failed} failed")
    return int(failed > 0 or bool(few))


if __name__ == "__main__":
    here = [os.path.abspath(word) if place > 1 and "/" in word else word for place, word in enumerate(sys.argv[1:])]
    os.chdir(Path(__file__).resolve().parent.parent)
    sys.exit(main(here))
