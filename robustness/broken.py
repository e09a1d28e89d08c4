"""broken.py: breaks drawn traces of a kernel, and looks that yds_trace never says yes of what it said no of.

    python3 robustness/broken.py [SEED] [TRACES] [YDS_TRACE] [YDS_CLI]

It draws TRACES traces (1,000) by drawn.py, in five formats, many with late jobs, every third with the word --parts; and
of each 100 one by long.py, of several parts. Of each, bytes of one or two lines are replaced by bytes that no trace has
there, or a line feed is lost, three times. A yes is a document that `yds_cli audit` finds feasible and of which no job is
left out; in parts each of them. What is held:

- a broken trace has a yes only where the unbroken one has. So a line that can't be read never hides a late job without a
  word. (Bytes that turn one number or name into another make another trace, which no reader can tell.)
- what is written is what the second reading of trace.py says of the broken bytes, with its status.
- a status that isn't 0 comes with the line `failed`, and `yds_cli audit` refuses what was written.
- the same is written of the broken bytes in several files, cut at ends of lines, one of them perhaps standard input, with
  the other words among them. Where a file that another one follows is cut within a line, the status is 4, the comment
  names that file, and before it stands nothing, or in parts a front of what is written of all.

YDS_TRACE and YDS_CLI are the built programs (build/yds_trace and build/yds_cli). The last line is 'N passed, M failed';
the exit status is 1 where M isn't 0.
"""

import os
import random
import re
import subprocess
import sys
import tempfile
from collections import Counter
from pathlib import Path
from typing import List, Tuple

import long
from drawn import plain
from second import Told, as_bytes
from trace import told

GARBAGE = b"\x00\x01\x07\x1b\x7f\x80\xff~^"
BREAKS = 3


def garbled(draw: random.Random, lines: List[bytes]) -> List[bytes]:
    """One or two lines in which bytes are replaced by others that stand nowhere in a trace."""
    lines = list(lines)
    for _ in range(draw.choice([1, 1, 2])):
        at = draw.randrange(len(lines))
        line = bytearray(lines[at])
        begin = draw.randrange(len(line))
        for place in range(begin, min(len(line), begin + draw.choice([1, 1, 2, 5, 40, 400]))):
            line[place] = draw.choice(GARBAGE)
        lines[at] = bytes(line)
    return lines


def merged(draw: random.Random, lines: List[bytes]) -> List[bytes]:
    """Two lines without the line feed between them."""
    at = draw.randrange(len(lines) - 1)
    return lines[:at] + [lines[at] + lines[at + 1]] + lines[at + 2 :]


def broken(draw: random.Random, trace: bytes) -> bytes:
    """A broken trace."""
    lines = trace.split(b"\n")[:-1]
    way = draw.choice([garbled, garbled, garbled, merged])
    return b"\n".join(way(draw, lines)) + b"\n"


def cut(draw: random.Random, trace: bytes, within: bool) -> List[bytes]:
    """The trace in two to four pieces, cut at ends of lines, or the first one within a line."""
    ends = [place + 1 for place, byte in enumerate(trace) if byte == 10]
    places = sorted(draw.choice([0, *ends]) for _ in range(draw.choice([1, 1, 2, 3])))
    if within:
        places = [draw.choice([place for place in range(1, len(trace)) if trace[place - 1] != 10]), len(trace)]
    return [trace[begin:end] for begin, end in zip([0, *places], [*places, len(trace)])]


class Programs:
    """The two programs, and a folder for files."""

    def __init__(self, tracer: str, program: str, folder: str) -> None:
        self.tracer, self.program, self.folder = tracer, program, folder

    def read(self, words: List[str], trace: bytes) -> Tuple[bytes, int]:
        """What yds_trace writes, and its status."""
        done = subprocess.run([self.tracer, *words], input=trace, capture_output=True, check=False)
        return done.stdout, done.returncode

    def read_files(self, draw: random.Random, words: List[str], pieces: List[bytes]) -> Tuple[bytes, int, List[str]]:
        """The same of a trace in pieces, each a file, and one of them perhaps standard input; and the names of these."""
        names, given = [], b""
        for number, piece in enumerate(pieces):
            names.append(f"{self.folder}/{number}")
            Path(names[-1]).write_bytes(piece)
        if draw.random() < 0.3:
            at = draw.randrange(len(pieces))
            names[at], given = "-", pieces[at]
        behind = draw.randrange(len(names) + 1)
        command = [self.tracer, *names[:behind], *words, *names[behind:]]
        done = subprocess.run(command, input=given, capture_output=True, check=False)
        return done.stdout, done.returncode, names

    def audit(self, document: bytes) -> bytes:
        """What `yds_cli audit` says of it."""
        return subprocess.run([self.program, "audit"], input=document, capture_output=True, check=False).stdout

    def is_yes(self, written: bytes, status: int) -> bool:
        """Whether it is a document that is feasible, or parts that are, and no job is left out."""
        if status or b"\n# left out:" in written:
            return False
        parts = re.split(rb"^(?=# part )", written, flags=re.M) if written.startswith(b"# part ") else [written]
        return all(self.audit(part) == b"feasible\n" for part in parts if part)


def fault_of(programs: Programs, words: List[str], trace: bytes, said: Told, was_yes: bool) -> str:
    """What isn't as it should be with the answer to a broken trace, of which the second reading says this; nothing where all is."""
    written, status = programs.read(words, trace)
    if (written, status) != (as_bytes(said.text), said.status):
        return "the second reading differs"
    if status and not written.endswith(b"\nfailed\n"):
        return "a status without the line 'failed'"
    if status and not programs.audit(written).startswith(b"refused"):
        return "a fault that yds_cli takes for a document"
    if not was_yes and programs.is_yes(written, status):
        return "a yes that the unbroken trace doesn't have"
    return ""


def fault_in_files(programs: Programs, draw: random.Random, words: List[str], trace: bytes, said: Told) -> str:
    """The same of the trace in files, of all bytes of which the second reading says this."""
    if "--help" in words or "--version" in words or said.status == 2:
        return ""
    written, status, _ = programs.read_files(draw, words, cut(draw, trace, False))
    if (written, status) != (as_bytes(said.text), said.status):
        return "another answer in files"
    written, status, names = programs.read_files(draw, words, cut(draw, trace, True))
    cause = "it ends within a line, and another file stands behind it; give whole files"
    comment = f"# file 1 ({names[0][:64]}): {cause}\nfailed\n".encode()
    if said.status == 3 and (written, status) == (as_bytes(said.text), said.status):
        return ""  # A line before the cut is refused.
    if status != 4 or not written.endswith(comment):
        return "a file that ends within a line isn't told"
    before = written[: -len(comment)]
    if before and not (b"# part " in before and as_bytes(said.text).startswith(before)):
        return "another front before the comment on a file"
    return ""


def unbroken(seed: int, number: int) -> Tuple[str, List[str], bytes]:
    """The trace of this number: what it is, its words and its text."""
    if number % 100 == 99:
        long_one = long.drawn(seed, number // 100)
        return f"long {long_one.shows}", long_one.words, long_one.trace
    it = plain(seed, number)
    return f"format {it.form}", [*it.words, "--parts"] if number % 3 == 1 else it.words, it.trace


def main(given: List[str]) -> int:
    """Breaks the traces. Gives the exit status."""
    seed = int(given[0]) if given else 1
    many = int(given[1]) if len(given) > 1 else 1_000
    tracer, program = given[2] if len(given) > 2 else "build/yds_trace", given[3] if len(given) > 3 else "build/yds_cli"
    with tempfile.TemporaryDirectory(prefix="broken-") as folder:
        return tried(Programs(tracer, program, folder), seed, many)


def tried(programs: Programs, seed: int, many: int) -> int:
    """Breaks as many traces. Gives the exit status."""
    counts: "Counter[str]" = Counter()
    passed = failed = 0
    for number in range(many):
        shown, words, whole = unbroken(seed, number)
        draw = random.Random(f"broken {seed} {number}")
        written, status = programs.read(words, whole)
        was_yes = programs.is_yes(written, status)
        counts[shown] += 1
        counts["unbroken with a yes" if was_yes else "unbroken without one"] += 1
        for _ in range(BREAKS):
            trace = broken(draw, whole)
            said = told(words, trace)
            fault = fault_of(programs, words, trace, said, was_yes) or fault_in_files(programs, draw, words, trace, said)
            counts[f"broken, status {said.status}"] += 1
            passed, failed = passed + int(not fault), failed + int(bool(fault))
            if fault:
                print(f"FAILED: {fault}: trace {number} of seed {seed}, words {words!r}")
                sys.stdout.flush()
                sys.stdout.buffer.write(b"-- unbroken\n" + whole + b"-- broken\n" + trace + b"--\n")
    print(", ".join(f"{count} {word}" for word, count in sorted(counts.items())))
    print(f"{passed} passed, {failed} failed")
    return int(failed > 0)


if __name__ == "__main__":
    here = [os.path.abspath(word) if place > 1 else word for place, word in enumerate(sys.argv[1:])]
    os.chdir(Path(__file__).resolve().parent.parent)
    sys.exit(main(here))
