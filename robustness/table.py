"""table.py: draws traces of a kernel, and holds the program's table of their threads against a second reading.

    python3 robustness/table.py [SEED] [TRACES] PROGRAM

The traces are those of drawn.py, TRACES of them (1,000), and each third has a line that is broken. The second reading is
below, from docs/definitions.md. It takes the lines apart by lines.py, keeps the whole trace, and shares no code with the
crates. PROGRAM is a built yds_trace; it runs with the words `--tasks ?`. The last lines tell what was in the traces, and
whether the readings agree. The status is 1 where one differs, and also where of 1,000 traces or more something was in
less than one in fifty.
"""

import random
import subprocess
import sys
from collections import Counter
from typing import Dict, List, NamedTuple, Optional, Tuple

from drawn import drawn
from second import MOST_PROCESSOR, MOST_TIME, Line, Thread, Wrong, is_stamped, line_fault, ordered

MOST_ROWS = 32_768
MOST_NAME = 64
WANTED = ["a table", "a switch is missing", "events lost", "two wake-ups in one", "a name that changes", "still there at the end",
          "equal times", "a line is refused", "a time goes back", "lines out of order", "no thread at all", "a task on two processors"]


class Row:
    """What a thread did: nanoseconds that it ran, wake-ups, how often it came, where, and its last name."""

    def __init__(self) -> None:
        self.ran, self.wakes, self.came = 0, 0, 0
        self.name, self.woken = b"", False
        self.on: "Counter[int]" = Counter()


class Held(NamedTuple):
    """Who has a processor, and since when."""

    pid: int
    since: int


class Table:
    """The threads of a trace, in the order in which it tells of them first."""

    def __init__(self) -> None:
        self.rows: Dict[int, Row] = {}
        self.held: Dict[int, Held] = {}
        self.last = 0
        self.found: "Counter[str]" = Counter()

    def row(self, thread: Thread) -> Row:
        """The row of a thread, which has this name now."""
        row = self.rows.setdefault(thread.pid, Row())
        self.found["a name that changes"] += row.name not in (b"", thread.name[:MOST_NAME])
        row.name = thread.name[:MOST_NAME]
        return row

    def leave(self, thread: Thread, line: Line) -> None:
        """A thread leaves a processor: it ran there since it came, if it was seen to come."""
        held = self.held.get(line.processor)
        seen = held is not None and held.pid == thread.pid
        self.found["a switch is missing"] += held is not None and not seen
        if thread.pid:
            row = self.row(thread)
            row.ran += line.time - held.since if held is not None and seen else 0
            row.woken = False

    def come(self, thread: Thread, line: Line) -> None:
        """A thread comes to a processor."""
        self.held[line.processor] = Held(thread.pid, line.time)
        if thread.pid:
            row = self.row(thread)
            row.came, row.woken = row.came + 1, False
            row.on[line.processor] += 1

    def wake(self, thread: Thread) -> None:
        """A thread is woken: twice without a switch between is once."""
        if thread.pid:
            row = self.row(thread)
            self.found["two wake-ups in one"] += row.woken
            row.wakes, row.woken = row.wakes + (not row.woken), True

    def take(self, line: Line) -> None:
        """One line more."""
        if line.kind in ("loss", "lost", "begin"):
            self.found["events lost"] += 1
            self.held.pop(line.processor, None)
        if is_stamped(line):
            self.last = line.time
        if line.kind == "switch":
            self.leave(line.threads[0], line)
            self.come(line.threads[1], line)
        elif line.kind == "wake":
            self.wake(line.threads[0])

    def end(self) -> None:
        """Who still has a processor has had it until now."""
        for held in self.held.values():
            if held.pid:
                self.found["still there at the end"] += 1
                self.rows[held.pid].ran += self.last - held.since
        self.found["a task on two processors"] += any(len(row.on) > 1 for row in self.rows.values())

    def text(self) -> str:
        """The rows, who ran longest first."""
        rows = sorted(list(self.rows.items())[:MOST_ROWS], key=lambda it: (-it[1].ran, it[0]))
        times = Counter(row.ran for _, row in rows)
        self.found["equal times"] += any(count > 1 for count in times.values())
        self.found["no thread at all"] += not rows
        more = len(self.rows) - len(rows)
        return "".join([f"threads {len(rows)}\n# pid\tran_ms\twake_ups\tswitches\tname\n", *(told_row(pid, row) for pid, row in rows),
                        f"# and {more} more threads\n" if more else ""])


def told_row(pid: int, row: Row) -> str:
    """One row."""
    name = "".join(chr(byte) if 32 <= byte < 127 else "?" for byte in row.name)
    return f"{pid}\t{row.ran // 1_000_000}.{row.ran % 1_000_000:06}\t{row.wakes}\t{row.came}\t{name}\n"


def cause_of(line: Line, last: int) -> Optional[str]:
    """What a line is refused for, where this was the time before it."""
    told = is_stamped(line) or line.kind in ("lost", "begin")
    if told and (line.processor > MOST_PROCESSOR or (line.kind == "speed" and line.of > MOST_PROCESSOR)):
        return "processor"
    if is_stamped(line) and line.time > MOST_TIME:
        return "time"
    return "back" if is_stamped(line) and line.time < last else None


def table_of(trace: bytes, found: "Counter[str]") -> str:
    """The table of a trace's threads, by its lines."""
    table, stamped, order = Table(), False, ordered(trace)
    for one in order.placed:
        cause = cause_of(one.line, table.last)
        if cause is not None:
            raise line_fault(one.number, cause)
        stamped = stamped or is_stamped(one.line)
        table.take(one.line)
    if order.refused is not None:
        raise order.refused
    if not stamped:
        raise line_fault(order.number_at(len(order.placed)), "none", "whole")
    numbers = [one.number for one in order.placed]
    found["lines out of order"] += numbers != sorted(numbers)
    table.end()
    text = table.text()
    found.update(name for name, count in table.found.items() if count)
    found["a table"] += 1
    return text


def told(trace: bytes, found: "Counter[str]") -> Tuple[str, int]:
    """What the program is to write, and its status."""
    try:
        return table_of(trace, found), 0
    except Wrong as wrong:
        found["a line is refused"] += 1
        found["a time goes back"] += "before that of an earlier line" in wrong.text
        return f"# {wrong.text}\nfailed\n", wrong.status


def switch(time: int, before: int, after: int) -> bytes:
    """A line of a switch, at so many microseconds."""
    return (f"  x-1 [000] d..2. 7.{time:06}: sched_switch: prev_comm=t{before} prev_pid={before} prev_prio=120 prev_state=S ==> "
            f"next_comm=t{after} next_pid={after} next_prio=120\n").encode()


def alike(draw: random.Random) -> bytes:
    """Threads that ran equally long, or none but the idle one."""
    pids = draw.sample(range(1, 90), draw.choice([0, 2, 5])) or [0, 0]
    turns = [switch(place * 100, before, after) for place, (before, after) in enumerate(zip([0, *pids], pids))]
    return b"".join(turns) + switch(len(turns) * 100, pids[-1], 0)


def changed(trace: bytes, seed: int, number: int) -> bytes:
    """The trace, with two lines exchanged or a byte changed in one trace of three; or threads that are alike."""
    draw = random.Random(f"table {seed} {number}")
    if number % 12 == 5:
        return alike(draw)
    lines = trace.split(b"\n")
    if number % 6 == 1 and len(lines) > 3:
        at = draw.randrange(len(lines) - 2)
        lines[at], lines[at + 1] = lines[at + 1], lines[at]
    elif number % 6 == 4 and trace:
        at = draw.randrange(len(lines))
        place = draw.randrange(len(lines[at]) + 1)
        lines[at] = lines[at][:place] + bytes([draw.choice(b"0 9:[]=x")]) + lines[at][place + 1 :]
    return b"\n".join(lines)


def main(words: List[str]) -> int:
    """Draws the traces, reads them twice, and tells what was in them."""
    program = words.pop() if words else "build/yds_trace"
    seed, many = (int(word) for word in (words + ["1", "1000"][len(words) :])[:2])
    found: "Counter[str]" = Counter()
    differ = 0
    for number in range(many):
        trace = changed(drawn(seed, number).trace, seed, number)
        text, status = told(trace, found)
        done = subprocess.run([program, "--tasks", "?"], input=trace, capture_output=True, check=False)
        if (done.stdout, done.returncode) != (text.encode(), status):
            differ += 1
            print(f"the readings of trace {number} of seed {seed} differ")
            sys.stdout.flush()
            sys.stdout.buffer.write(b"\n".join([trace, b"-- the program", done.stdout, b"-- the second reading", text.encode(), b"--\n"]))
    print(", ".join(f"{count} {word}" for word, count in sorted(found.items())))
    few = [word for word in WANTED if found[word] * 50 < many] if many >= 1000 else []
    if few:
        print("too few: " + ", ".join(few))
    print(f"{many} traces of seed {seed}: {'the readings differ' if differ else 'the readings agree'}")
    return 1 if differ or few else 0


if __name__ == "__main__":
    sys.exit(main(sys.argv[1:]))
