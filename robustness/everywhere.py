"""everywhere.py: draws traces of several processors with the words --cpu all, and holds all that yds_trace writes against the second reading.

    python3 robustness/everywhere.py [SEED] [TRACES] [YDS_TRACE] [YDS_CLI]
    python3 robustness/everywhere.py --short [SEED] [TRACES]       short traces, by a program with smaller limits of parts
    python3 robustness/everywhere.py --alone [SEED] [TRACES]       the second reading of short traces alone
    python3 robustness/everywhere.py one SEED NUMBER [--short]     writes the trace of this number, and its words to standard error

It draws TRACES traces (50) of some 9,000 to 30,000 lines: periodic threads at home on one to four processors, of which
some move. Half of them ask for shares of jobs that moved. In half of them events stand some lines behind their places in
order of time. Each trace shows one thing more, which goes round by its number (SHOWN): threads that starve or hang, a
processor that comes late or has no listed thread, losses and threads that reach back behind a part of another
processor, faults of lines and documents in a later part, `--from` and `--to`. What is held of each:

- the text and the status of yds_trace are those of the second reading (parted.py), byte for byte;
- of each processor, the jobs and runs of its parts, their shifts added, are those that the words `--cpu N --parts` give,
  but for the jobs that belong to other processors;
- `yds_cli audit` reads each part, and refuses a text of several, or one that ends with `failed`.

With `--short` the traces are 32 times shorter, and the crates are built unproved by `rt try` with smaller limits of parts:
so some hundred traces with several parts take a minute. The second reading alone is held to the second promise.

Before the last line it tells how many traces had each thing. The status is 1 where something differs, and also where of
400 traces or more fewer than 4 had a thing of WANTED.
"""

import os
import random
import re
import sys
import tempfile
from collections import Counter
from dataclasses import replace
from pathlib import Path
from typing import Callable, Dict, Iterator, List, Set, Tuple

import long
from long import Drawn, Programs, Row, Run, documents, put_together
from machine import Machine, Task
from parted import IDLE, Parts, SMALL, told_in_parts
from second import Asked, Judged, Told, asked_by, judge_jobs
from trace import Case, lay_out, shorten, try_laid_out

SCALE = 32


class Drawing(long.Drawing):
    """A machine of several processors, asked for all of them."""

    def __init__(self, draw: random.Random, scale: int = 1) -> None:
        super().__init__(draw, scale)
        base = draw.choice([300_000, 1_000_000, 2_000_000])
        self.processors = draw.choice([1, 2, 2, 2, 3, 4])
        periods = draw.choice([[1, 1], [1, 1, 5], [1, 2, 3], [1, 1, 2, 7], [1, 2, 2, 3, 5]])
        share = draw.choice([0.2, 0.4, 0.8])
        factor = draw.choice([0.5, 0.5, 1.0, 1.5])
        homes = [number % self.processors for number in range(len(periods))]
        draw.shuffle(homes)
        self.tasks = [Task(number, base * times, share / (1 + homes.count(homes[number])), factor, homes[number])
                      for number, times in enumerate(periods)]
        odds = self.it.odds
        self.it = Machine(draw, self.tasks, self.processors)
        self.it.odds = {**odds, "move": draw.choice([0.0, 0.002, 0.02]), "roam": draw.choice([0.0, 0.002, 0.02])}
        self.it.noisy = list(range(self.processors))
        self.set_apart(base)
        self.options.pop("--parts")
        self.options.pop("--others", None)
        self.options["--cpu"] = "all"
        if draw.random() < 0.15:
            self.options["--parts"] = None

    def later(self, then: Callable[[], None]) -> None:
        """Something changes at some line."""
        first = self.draw.randrange(self.size // 4, 3 * self.size // 4)
        before = self.it.run

        def run(lines: int) -> None:
            before(min(first, lines))
            then()
            before(lines)

        self.it.run = run  # type: ignore[method-assign]


# # What a trace shows, beside what long.py draws


def plain(it: Drawing) -> None:
    """Threads at home, and what chance gives them."""


def moves(it: Drawing) -> None:
    """Many jobs move, in time or late."""
    it.it.odds.update(move=0.2, roam=it.draw.choice([0.0, 0.3]), overrun=it.draw.choice([0.01, 0.1]))


def roams(it: Drawing) -> None:
    """Each job has a processor of its own, and none is moved within it."""
    it.it.odds.update(move=0.0, roam=0.9)


def comes_late(it: Drawing) -> None:
    """A thread goes to a processor of which no line told before; or such a line comes alone, perhaps far behind the others."""
    new = it.processors + it.draw.choice([0, 0, 1, 5, 300])
    is_run = new < it.processors + 2 and it.draw.random() < 0.7

    def then() -> None:
        it.it.on += [None] * (new + 1 - len(it.it.on)) if is_run else []
        if is_run:
            it.draw.choice(it.tasks).home = new
        else:
            it.it.write(new, "irq_handler_entry", "irq=1 name=x")

    it.later(then)


def stands_idle(it: Drawing) -> None:
    """A processor has lines, and no listed thread."""
    it.it.noisy.append(it.processors + it.draw.choice([0, 0, 2]))
    it.it.odds["noise"] = 0.05
    for task in it.tasks:
        task.home = 0 if it.draw.random() < 0.5 else task.home


def starves_nowhere(it: Drawing) -> None:
    """Some jobs get no processor for some time, and go on after it; the last one may never."""
    it.options.pop("--begin", None)
    task = it.draw.choice(it.tasks)
    first, last = sorted(it.draw.randrange(it.size // 4, it.size) for _ in range(2))
    last = min(last, first + it.some(500, 4_000)) if it.draw.random() < 0.7 else it.size
    it.size = min(it.size, first + it.some(1_000, 9_000)) if last == it.size else it.size
    before = it.it.run

    def run(lines: int) -> None:
        before(min(first, lines))
        task.starves = True
        before(min(last, lines))
        task.starves = False
        it.it.dispatch(task.place)
        before(lines)

    it.it.run = run  # type: ignore[method-assign]


def crowded(it: Drawing) -> None:
    """On one processor a job has always run and isn't over, and so it has no place; the others have."""
    one = it.tasks[0]
    for task in it.tasks[1:] if it.processors > 1 else []:
        task.home = task.place = it.draw.randrange(1, it.processors)
    slow = Task(len(it.tasks), one.period, 0.9, 1.0, one.home)
    it.tasks.append(slow)
    it.it.events.append((it.it.events[0][0] + one.period // 2, len(it.tasks) - 1, True))
    one.busy = 6 * one.period // 10
    slow.busy = 6 * one.period // 10
    it.it.odds.update(move=0.0, roam=0.0)
    it.size = it.draw.choice([it.size, it.some(6_000, 9_000)])


def loses(it: Drawing) -> None:
    """Events were lost on a processor, since its last line, which is often before a part of another one."""
    it.it.odds["noise"] = it.draw.choice([0.0, 0.01, 0.3])
    lost = it.draw.randrange(it.processors + 1)

    def edit(lines: List[bytes]) -> None:
        lines.insert(it.draw.randrange(len(lines) // 3, len(lines)), loss_of(it, lost))

    it.edits.append(edit)


def loses_behind(it: Drawing) -> None:
    """Events were lost on a processor since a line shortly before one at which others were cut, and it wasn't. Perhaps nothing was written."""

    def edit(lines: List[bytes]) -> None:
        _, parts = told_in_parts(b"\n".join(lines) + b"\n", asked_by(it.words()), it.limits)
        found = [(at, processor) for at, moved in parts.moved.items() for processor in parts.cuts
                 if processor not in moved and b"[%03d]" % processor not in lines[at - 1]]
        silent = [(at, processor) for at, processor in found if at not in parts.behind]
        alone = [(at, processor) for at, processor in silent if parts.moved[at] == {IDLE}]
        at, processor = it.draw.choice(it.draw.choice([found, silent, alone]) or alone or silent or found or [(len(lines) // 2, 0)])
        lines.insert(at, f"CPU:{processor} [LOST 12 EVENTS]".encode())

    it.it.odds["noise"] = it.draw.choice([0.05, 0.3])
    it.edits.append(edit)


def loss_of(it: Drawing, processor: int) -> bytes:
    """A line that tells of a loss."""
    told = it.draw.choice(["CPU:%d [LOST 12 EVENTS]", "CPU:%d [3 EVENTS DROPPED]", "CPU:%d [LOST EVENTS]", "CPU:%d [LOST EVENTS]", "##### CPU %d buffer started ####"])
    return (told % processor).encode()


def loses_alone(it: Drawing) -> None:
    """A processor that has a line now and then loses events since the last of them."""
    other = it.processors + it.draw.choice([0, 1])

    def edit(lines: List[bytes]) -> None:
        at = it.draw.randrange(len(lines) // 3, len(lines))
        since = max(1, at - it.draw.choice([1, 2, 5, 20, 400, 3_000]) // (it.scale if it.draw.random() < 0.5 else 1))
        time = it.stamp(lines[since])
        line = f" w-5 [{other:03d}] d..2. {time // 10**9}.{time % 10**9:09d}: irq_handler_entry: irq=1 name=x"
        lines.insert(at, f"CPU:{other} [LOST 12 EVENTS]".encode())
        lines.insert(since + 1, line.encode())

    it.edits.append(edit)


def no_job(it: Drawing) -> None:
    """Each job moves, and none is late: no document has one."""
    for task in it.tasks:
        task.deadline, task.apart, task.home, task.busy = 10**12, 0, 0, task.period // 10
    it.it.odds.update(overrun=0.0, missing=0.0, nap=0.0, move=0.0, short=0.0, sleep=0.0)
    before = it.it.end

    def end(processor: int) -> None:
        task = it.it.on[processor]
        if task is not None and processor == task.home:
            task.left = 5_000
            it.it.move(processor, task)
        else:
            before(processor)

    it.it.end = end  # type: ignore[method-assign]


def strict(it: Drawing) -> None:
    """No job may be missed, and perhaps one is."""
    long.strict(it)
    it.it.odds.update(move=it.draw.choice([0.0, 0.0001, 0.001]), roam=it.draw.choice([0.0, 0.3]))


SHOWN: List[Callable[[Drawing], None]] = [
    plain, moves, comes_late, loses, stands_idle, starves_nowhere, crowded, loses_alone, roams, long.was_there, loses_behind, moves, long.limited,
    comes_late, strict, long.windowed, long.hangs, loses_behind, long.faulty, starves_nowhere, long.opened, loses_alone, long.at_run, long.unwoken, moves, long.unseen,
    comes_late, long.missing, crowded, no_job, long.raced, long.came_back, long.exited, long.came_back, long.faulty, long.unwoken, long.exited, no_job,
    long.silences, long.missing,
]


def drawn(seed: int, number: int, scale: int = 1) -> Drawn:
    """The trace of this number."""
    it = Drawing(random.Random(f"everywhere {seed} {number}"), scale)
    show_it = SHOWN[number % len(SHOWN)]
    show_it(it)
    trace = it.trace(random.Random(f"strewn {seed} {number}"))
    return Drawn(show_it.__name__, it.words(), trace)


# # What was in the traces

WANTED = [
    "processors: 1", "processors: 2", "processors: 3 or more", "parts: 1", "parts: 2", "parts: 3 or more", "a part with windows open",
    "a part without windows open", "a part without a job in the midst", "a last part without a job", "parts of several processors behind a line",
    "a line with silent cuts alone", "a job of two processors, in time", "a job of two processors, late", "a job that has run nowhere", "a processor without a job",
    "a processor that comes behind a part", "no place", "line: part written", "line: part written, of another processor", "form behind a part",
    "line behind a part", "part document: work", "part document: no job", "part document: no job, behind a part", "part document: strict",
    "line: missing", "a switch is missing, gone on", "whole: a task unseen", "a late job in a part", "a late job without its runs", "a job left out",
    "option --from", "option --to", "option --begin", "option --us", "option --parts", "option APART", "option PERIOD", "a job due by the one before", "a processor is silent", "a whole trace in parts",
    "option --moved", "a share, in time", "a share, late", "lines out of order", "lines out of order at the end of a part",
    "line: not woken", "line: exited", "a thread that is back behind a part", "a job with which its thread was over",
    "a job that goes on behind a sleep without a wake-up", "a job that begins as its thread goes to sleep, and one half tells",
    "a job that begins as its thread goes to sleep, and both halves tell",
]
LEAST, OF = 4, 400
HEAD = re.compile(r"^# part (\d+): jobs (\d+) to (\d+), from \d+ to \d+, shift \d+, cpu (\d+)(, windows open)?(, the last)?$", re.M)


def in_parts(said: Told, parts: Parts, words: List[str]) -> Iterator[str]:
    """What is in a text of parts of several processors."""
    heads = HEAD.findall(said.text)
    many: "Counter[str]" = Counter(processor for _, _, _, processor, _, _ in heads)
    yield f"processors: {len(many)}" if len(many) < 3 else "processors: 3 or more"
    yield from (f"parts: {count}" if count < 3 else "parts: 3 or more" for count in many.values())
    for number, first, last, _, is_open, is_last in heads:
        if int(number) > 1:
            yield f"a part {'with' if is_open else 'without'} windows open"
        if int(last) < int(first):
            yield "a last part without a job" if is_last else "a part without a job in the midst"
    places = [processor for _, _, _, processor, _, is_last in heads if not is_last]
    if len(places) > len(parts.behind):
        yield "parts of several processors behind a line"
    if set(parts.moved) - set(parts.behind):
        yield "a line with silent cuts alone"
    if said.status == 0 and len(heads) > len(many):
        yield "a whole trace in parts"
    if any(f"# part 1: jobs 1 to 0, from 0 to 0, shift 0, cpu {processor}, the last" in said.text for processor in many):
        yield "a processor without a job"
    yield from (f"option {word}" for word in words if word.startswith("--"))
    if re.search(r":[0-9.]+:[0-9.]+(:|,|$)", words[1]):
        yield "option APART"
    if re.search(r":[0-9.]+:[0-9.]*:[0-9.]+(,|$)", words[1]):
        yield "option PERIOD"


def in_jobs(said: Told) -> Iterator[str]:
    """What the jobs of the parts show."""
    for document in said.parts:
        for one in document.judged:
            if len({ran.processor for ran in one.job.ran}) > 1:
                yield "a job of two processors, in time" if one.late is None else "a job of two processors, late"
            if one.part is not None:
                yield "a share, in time" if one.late is None else "a share, late"
            if not one.job.ran:
                yield "a job that has run nowhere"
            yield from long.in_sleeps(one.job)


def in_fault(said: Told, parts: Parts, trace: bytes) -> Iterator[str]:
    """What the fault is, and of which processor's part."""
    yield from long.in_fault(said)
    yield from long.back(said, parts)
    if said.kind == "part document: no job" and said.parts:
        yield "part document: no job, behind a part"
    if said.kind == "line: part written":
        line = trace.split(b"\n")[parts.in_text - 1]
        mark = re.search(rb"CPU[: ]([0-9]+)|\[([0-9]{3,})\] d", line)
        if mark and parts.cut_of(int(mark[1] or mark[2])).parts == 0:
            yield "line: part written, of another processor"


def in_order_of_lines(trace: bytes, parts: Parts) -> Iterator[str]:
    """Whether a processor comes first behind a line at which a part is written."""
    lines = trace.split(b"\n")
    if parts.behind:
        before = greatest_of(lines[: parts.behind[0]])
        if greatest_of(lines[: parts.in_text]) > before:
            yield "a processor that comes behind a part"


def greatest_of(lines: List[bytes]) -> int:
    """The greatest processor of these lines."""
    return max((int(mark[1]) for line in lines for mark in [re.search(rb"\[([0-9]+)\] d", line)] if mark), default=0)


# # What is held


def asked_of(asked: Asked, processor: int) -> Asked:
    """What the words `--cpu N --parts` ask for, with all else as it is."""
    return replace(asked, processor=processor, everywhere=False, in_parts=True)


def of_processor(text: str, processor: int) -> str:
    """The parts of a processor, of a text of several."""
    heads = [(HEAD.match(part), part) for part in documents(text)]
    return "".join(part for head, part in heads if head is not None and int(head[4]) == processor)


def belonging(parts: Parts, processor: int) -> Dict[str, bool]:
    """The jobs of the whole trace that belong to a processor, as its documents call them, and whether their begins are known. Each that has
    run there does, and those that have run nowhere belong to processor 0."""
    judged: List[Judged] = []
    for number, follower in enumerate(parts.followers):
        judged += judge_jobs(number, parts.jobs(follower), parts.shown(), parts.on(processor))
    places = {one.called: {ran.processor for ran in one.job.ran} or {0} for one in judged}
    return {one.called: one.job.known for one in judged if processor in places[one.called]}


def rows_of(text: str, mine: Dict[str, bool]) -> Tuple[List[Row], List[Run], List[str]]:
    """These jobs of a text of parts, with their runs, and those that are told to be late. Where a begin isn't known, a release tells nothing."""
    jobs, runs = put_together(text)
    late = re.findall(r"^# (?:late|not ended)[^:]*: ([^ ,]+)", text, re.M)
    known = [(name, release, due, work) if mine[name] else (name, None, 0, work) for name, release, due, work in jobs if name in mine]
    return known, [run for run in runs if run[0] in mine], [name for name in late if name in mine]


def of_one(trace: bytes, parts: Parts, said: Told) -> Iterator[str]:
    """What isn't the same where each processor is asked for by itself. Where that has a fault, nothing is held of it."""
    for processor in parts.processors():
        alone, _ = told_in_parts(trace, asked_of(parts.asked, processor), parts.limits)
        if alone.status == 0:
            mine = belonging(parts, processor)
            text = of_processor(said.text, processor)
            written = {name for name, _, _, _ in put_together(text)[0]}
            if not written <= set(mine) or rows_of(text, mine) != rows_of(alone.text, mine):
                yield f"the parts of processor {processor} aren't those of --cpu {processor} --parts, but for the jobs that belong to others"
            yield ""


def held_alone(it: Drawn, said: Told, parts: Parts, counts: "Counter[str]") -> List[str]:
    """What isn't as it should be in the second reading."""
    if said.status:
        return []
    found = list(of_one(it.trace, parts, said))
    counts["processors held against --cpu N"] += found.count("")
    return [fault for fault in found if fault]


def tell(counts: "Counter[str]", many: int, passed: int, failed: int) -> int:
    """Tells what was in the traces. Gives the status."""
    print(", ".join(f"{count} {word}" for word, count in sorted(counts.items())))
    few = [name for name in WANTED if counts[name] < LEAST] if many >= OF else []
    if few:
        print(f"too few: {', '.join(f'{counts[name]} {name}' for name in few)}")
    print(f"{passed} passed, {failed} failed")
    return int(failed > 0 or bool(few))


def counted(it: Drawn, said: Told, parts: Parts) -> Set[str]:
    """What is in a trace, and what is said of it."""
    return {f"status {said.status}", *in_parts(said, parts, it.words), *in_fault(said, parts, it.trace), *in_jobs(said),
            *long.in_documents(said), *in_order_of_lines(it.trace, parts), *long.out_of_order(it.trace, parts), *long.gone_on(it.trace, said)}


def alone(seed: int, many: int) -> int:
    """Holds the second reading of short traces against itself."""
    counts: "Counter[str]" = Counter()
    failed = 0
    for number in range(many):
        it = drawn(seed, number, SCALE)
        said, parts = told_in_parts(it.trace, asked_by(it.words), SMALL)
        counts.update(counted(it, said, parts))
        faults = held_alone(it, said, parts, counts)
        failed += int(bool(faults))
        for fault in faults:
            print(f"FAILED: trace {number} of seed {seed} ({it.shows}): {fault}", flush=True)
    return tell(counts, many, many - failed, failed)


def built(seed: int, many: int, programs: Programs) -> int:
    """Holds what the built programs write against the second reading."""
    counts: "Counter[str]" = Counter()
    failed = 0
    for number in range(many):
        it = drawn(seed, number)
        said, parts = told_in_parts(it.trace, asked_by(it.words))
        counts.update(counted(it, said, parts))
        faults = [*long.faults_of_text(programs, it, said), *held_alone(it, said, parts, counts)]
        failed += int(bool(faults))
        for fault in faults:
            print(f"FAILED: trace {number} of seed {seed} ({it.shows}): {fault}", flush=True)
    return tell(counts, many, many - failed, failed)


def short_case(it: Drawn, said: Told) -> Case:
    """A short trace with what is said of it."""
    return Case(it.words, it.trace, said.text, said.status)


def short(seed: int, many: int) -> int:
    """Holds what a program with smaller limits writes against the second reading."""
    counts: "Counter[str]" = Counter()
    cases: List[Case] = []
    for number in range(many):
        it = drawn(seed, number, SCALE)
        said, parts = told_in_parts(it.trace, asked_by(it.words), SMALL)
        counts.update(counted(it, said, parts))
        cases.append(short_case(it, said))
    with tempfile.TemporaryDirectory() as folder:
        crate = lay_out(Path(folder))
        shorten(Path(folder))
        wrong, text = try_laid_out(crate, cases)
    for at in wrong:
        print(f"FAILED: trace {at} of seed {seed}: the readings differ", flush=True)
    if len(wrong) == len(cases):
        print(text[-3000:])
    return tell(counts, many, many - len(wrong), len(wrong))


def main(words: List[str]) -> int:
    """Draws the traces, reads them twice, and tells what was in them."""
    options = {word for word in words if word.startswith("--")}
    words = [word for word in words if word not in options]
    if words[:1] == ["one"]:
        it = drawn(int(words[1]), int(words[2]), SCALE if "--short" in options else 1)
        print(" ".join(it.words), file=sys.stderr)
        sys.stdout.buffer.write(it.trace)
        return 0
    seed = int(words[0]) if words else 1
    many = int(words[1]) if len(words) > 1 else 50
    if "--alone" in options:
        return alone(seed, many)
    if "--short" in options:
        return short(seed, many)
    return built(seed, many, Programs(words[2] if len(words) > 2 else "build/yds_trace", words[3] if len(words) > 3 else "build/yds_cli"))


if __name__ == "__main__":
    here = [os.path.abspath(word) if place > 1 and "/" in word else word for place, word in enumerate(sys.argv[1:])]
    os.chdir(Path(__file__).resolve().parent.parent)
    sys.exit(main(here))
