"""record.py: records some seconds of this machine's kernel, and holds what yds_trace says of it against the second reading.

    python3 robustness/record.py [--seconds S] [--keep FILE] [--trace FILE] [YDS_TRACE]

rt-app runs three threads with periods of 16.667, 10 and 5 ms for S seconds (3), on all processors, while an instance of
tracefs of its own records their switches and wake-ups and those of all other threads; nothing else of the machine's
tracing is touched. The text of the trace, or FILE's, is read by yds_trace as a whole, for each processor. As a whole in
parts, for each processor, and in pieces of 1,000 lines, with several words, it is read by yds_trace and by the second
reading (second.py and parted.py): the two have to write the same text, byte for byte, and end with the same status.

It needs root, a kernel that lets it mount tracefs and make an instance there, and rt-app (Debian: rt-app). Where one of
them isn't there, it says so and ends with status 77. Status 1: the readings differ. Status 0: they agree. YDS_TRACE is
the built program (build/yds_trace).
"""

import argparse
import contextlib
import json
import os
import re
import shutil
import subprocess
import sys
import tempfile
import time
from collections import Counter
from pathlib import Path
from typing import Dict, Iterator, List, Sequence

from second import as_bytes
from trace import told

EVENTS = ("sched/sched_switch", "sched/sched_waking", "sched/sched_wakeup", "sched/sched_wakeup_new", "power/cpu_frequency")
PERIODS = {"decode": 16_667, "audio": 10_000, "ui": 5_000}
DEADLINES = {"decode": "16.667", "audio": "10", "ui": "5"}
PIECE = 1_000
CANNOT = 77


class Cannot(Exception):
    """Why nothing can be recorded here."""


@contextlib.contextmanager
def tracefs() -> Iterator[Path]:
    """The kernel's tracefs, mounted for as long as it is needed."""
    with tempfile.TemporaryDirectory() as folder:
        done = subprocess.run(["mount", "-t", "tracefs", "nodev", folder], check=False, capture_output=True, text=True)
        if done.returncode:
            raise Cannot(f"tracefs can't be mounted: {done.stderr.strip()}")
        try:
            yield Path(folder)
        finally:
            subprocess.run(["umount", folder], check=False)


@contextlib.contextmanager
def instance() -> Iterator[Path]:
    """An instance of tracefs of its own."""
    with tracefs() as top:
        own = top / "instances" / f"yds-{os.getpid()}"
        try:
            own.mkdir()
        except OSError as error:
            raise Cannot(f"no instance of tracefs can be made: {error.strerror}") from error
        try:
            yield own
        finally:
            (own / "tracing_on").write_text("0", encoding="ascii")
            for _ in range(20):
                with contextlib.suppress(OSError):
                    own.rmdir()
                    break
                time.sleep(0.1)


def load(seconds: int) -> Dict[str, object]:
    """What rt-app runs: a third of each period, and the longest job takes two of the shortest periods."""
    tasks = {name: {"loop": -1, "run": period // 3, "timer": {"ref": name, "period": period}} for name, period in PERIODS.items()}
    return {"global": {"duration": seconds, "calibration": 100, "default_policy": "SCHED_OTHER"}, "tasks": tasks}


def record(seconds: int) -> bytes:
    """The text of a recording."""
    if os.geteuid() != 0:
        raise Cannot("only root may record")
    if shutil.which("rt-app") is None:
        raise Cannot("the command 'rt-app' isn't here; on Debian: apt-get install rt-app")
    with instance() as own, tempfile.TemporaryDirectory() as folder:
        (own / "buffer_size_kb").write_text("16384", encoding="ascii")
        for event in EVENTS:
            switch = own / "events" / event / "enable"
            if switch.exists():
                switch.write_text("1", encoding="ascii")
        file = Path(folder) / "load.json"
        file.write_text(json.dumps(load(seconds)), encoding="utf-8")
        subprocess.run(["rt-app", str(file)], cwd=folder, check=False, capture_output=True, timeout=60 + 10 * seconds)
        (own / "tracing_on").write_text("0", encoding="ascii")
        return (own / "trace").read_bytes()


def listed(trace: bytes, behind: str = "") -> str:
    """The tasks that stand in a trace, as `--tasks` takes them."""
    names = [name for name in DEADLINES if b"comm=%s " % name.encode() in trace]
    return ",".join(f"{name}:{DEADLINES[name]}{behind}" for name in names or DEADLINES)


def words_for(number: int, piece: bytes) -> List[str]:
    """Words for a piece of the trace."""
    stamp = re.search(rb" ([0-9]+\.[0-9]+): ", piece)
    first = float(stamp[1]) if stamp else 0.0
    more: List[List[str]] = [
        [], ["--us", "1", "--khz", "100000"], ["--lost", "cut"], ["--begin", "run"], ["--from", f"{first + 0.05:.6f}", "--lost", "cut"],
        ["--to", f"{first + 0.15:.6f}"], ["--strict"], ["--parts", "--lost", "cut"], ["--from", "+0.05", "--to", "+0.15", "--lost", "cut"],
        ["--moved", "parts", "--lost", "cut"], ["--others", "spans", "--lost", "cut"], ["--parts", "--others", "spans", "--moved", "parts", "--lost", "cut"],
    ]
    chosen = more[number % len(more)]
    tasks = listed(piece, ":3" if number % 3 == 0 else "")
    return ["--tasks", tasks, "--cpu", str(number % max(1, os.cpu_count() or 1)), "--start", "1000000", *chosen]


def answer(program: str, words: Sequence[str], trace: bytes) -> "subprocess.CompletedProcess[bytes]":
    """A run of yds_trace."""
    return subprocess.run([program, *words], input=trace, check=False, capture_output=True)


def compare(program: str, trace: bytes) -> bool:
    """Whether the readings agree on each piece of the trace."""
    lines = trace.splitlines(keepends=True)
    counts: "Counter[str]" = Counter()
    same = True
    for number, at in enumerate(range(0, len(lines), PIECE)):
        piece = b"".join(lines[at : at + PIECE])
        words = words_for(number, piece)
        done, said = answer(program, words, piece), told(words, piece)
        counts[f"status {said.status}" + (f", {said.kind}" if said.kind else "")] += 1
        counts["jobs written"] += len(said.document.rows) if said.document else 0
        counts["late jobs"] += sum(one.late is not None for one in said.document.judged) if said.document else 0
        if (done.stdout, done.returncode) != (as_bytes(said.text), said.status):
            same = False
            print(f"the readings of lines {at + 1} to {at + PIECE} differ, with the words {' '.join(words)}")
            print("-- the program", done.stdout.decode(errors="replace"), "-- the second reading", said.text, "--", sep="\n")
    print(f"{len(lines)} lines in pieces of {PIECE}: " + ", ".join(f"{count} {word}" for word, count in sorted(counts.items())))
    return same


def compare_parts(program: str, trace: bytes) -> bool:
    """Whether the readings agree on the whole recording in parts, for each processor."""
    same = True
    for processor in range(os.cpu_count() or 1):
        words = ["--tasks", listed(trace), "--cpu", str(processor), "--start", "1000000", "--lost", "cut", "--parts", "--moved", "parts", "--others", "spans"]
        done, said = answer(program, words, trace), told(words, trace)
        jobs = sum(len(part.rows) for part in said.parts)
        late = sum(one.late is not None for part in said.parts for one in part.judged)
        print(f"processor {processor} in parts: status {said.status}, {len(said.parts)} parts, {jobs} jobs written, {late} late jobs")
        if (done.stdout, done.returncode) != (as_bytes(said.text), said.status):
            same = False
            print(f"the readings of processor {processor} in parts differ")
    return same


def tell_whole(program: str, trace: bytes) -> None:
    """What yds_trace says of the whole recording, for each processor."""
    for processor in range(os.cpu_count() or 1):
        done = answer(program, ["--tasks", listed(trace), "--cpu", str(processor), "--start", "1000000", "--lost", "cut"], trace)
        last = [line for line in done.stdout.decode(errors="replace").splitlines() if line.startswith("#")][-1:]
        print(f"processor {processor}: status {done.returncode}, {''.join(last).lstrip('# ')}")


def main(words: Sequence[str]) -> int:
    """Records and compares. Gives the exit status."""
    parser = argparse.ArgumentParser(prog="record.py", allow_abbrev=False)
    parser.add_argument("program", nargs="?", default="build/yds_trace")
    parser.add_argument("--seconds", type=int, default=3)
    parser.add_argument("--keep")
    parser.add_argument("--trace")
    options = parser.parse_args(words)
    program = os.path.abspath(options.program)
    try:
        trace = Path(options.trace).read_bytes() if options.trace else record(options.seconds)
    except Cannot as cannot:
        print(f"record.py: {cannot}; nothing was recorded")
        return CANNOT
    if options.keep:
        Path(options.keep).write_bytes(trace)
    tell_whole(program, trace)
    same = compare(program, trace)
    same = compare_parts(program, trace) and same
    print("the readings agree" if same else "the readings differ")
    return 0 if same else 1


if __name__ == "__main__":
    sys.exit(main(sys.argv[1:]))
