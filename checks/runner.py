"""runner.py: runs commands whose last line is 'N passed, M failed', and sums what they count.

It is one failure more where a command ends without such a line, or with a status that isn't 0 though nothing failed by
its counts. Commands run one behind the other, with all that they write passed through as it comes; or side by side, and
then what each has written is told whole when it ends.
"""

import os
import re
import select
import subprocess
import sys
import threading
import time
from collections.abc import Callable, Iterable, Sequence
from concurrent.futures import Future, ThreadPoolExecutor, wait
from pathlib import Path
from typing import NamedTuple

ROOT = Path(__file__).resolve().parent.parent

Command = Sequence[str]
Sink = Callable[[bytes], None]

COUNTS = re.compile(rb"(\d+) passed, (\d+) failed\s*")

SILENCE = 30
"""After so many seconds in which no command ended, those that run are named."""


class Result(NamedTuple):
    """How a command ended, or several of them."""

    passed: int
    failed: int
    status: int

    def and_then(self, later: "Result") -> "Result":
        """Both together: the status is that of the first that failed."""
        return Result(self.passed + later.passed, self.failed + later.failed, self.status or later.status)

    def line(self) -> str:
        """The counts, as each command's last line has them."""
        return f"{self.passed} passed, {self.failed} failed"


NOTHING = Result(0, 0, 0)


class Timed(NamedTuple):
    """How a command ended, and after how many seconds."""

    name: str
    result: Result
    seconds: float


def processors() -> int:
    """How many processors this process may run on."""
    return len(os.sched_getaffinity(0))


def lanes(gigabytes: float) -> int:
    """How many commands run side by side that take so much memory each: one a processor, and no more than memory holds."""
    try:
        memory = os.sysconf("SC_PAGE_SIZE") * os.sysconf("SC_PHYS_PAGES")
    except (OSError, ValueError):
        return processors()
    return max(1, min(processors(), int(memory / (gigabytes * 1e9))))


def name_of(command: Command) -> str:
    """A command as one would type it."""
    return " ".join("python3" if word == sys.executable else word for word in command)


def in_words(seconds: float) -> str:
    """A time, as 7 s or 12 min."""
    return f"{seconds:.0f} s" if seconds < 100 else f"{seconds / 60:.0f} min"


def write_through(told: bytes) -> None:
    """Writes what a command wrote to standard output, at once."""
    sys.stdout.buffer.write(told)
    sys.stdout.buffer.flush()


def follow(process: "subprocess.Popen[bytes]", sink: Sink) -> bytes:
    """Hands what a command writes to the sink as it comes, and gives the end of it.

    What a command that was killed leaves behind may hold the pipe open. So a second of silence is its end, too.
    """
    assert process.stdout is not None
    pipe, end = process.stdout.fileno(), b""
    while True:
        if select.select([pipe], [], [], 1)[0]:
            told = os.read(pipe, 65536)
            if not told:
                return end
            sink(told)
            end = (end + told)[-4096:]
        elif process.poll() is not None:
            return end


def judged(line: bytes, status: int, fault: Callable[[str], None]) -> Result:
    """The counts of a command's last line, and its status as a shell tells it. What is wrong beside them is a fault."""
    counts = COUNTS.fullmatch(line)
    if counts is None:
        fault(f"ended with status {status} and without its counts")
        return Result(0, 1, status or 1)
    passed, failed = int(counts.group(1)), int(counts.group(2))
    if status and not failed:
        fault(f"ended with status {status}, though nothing failed by its counts")
        return Result(passed, 1, status)
    return Result(passed, failed, status or int(failed > 0))


def run(command: Command, sink: Sink = write_through, kept_together: bool = False) -> Result:
    """Runs a command at the top of the repository, and hands what it writes to the sink: with its errors, if kept together."""

    def fault(text: str) -> None:
        sink(f"{name_of(command)}: {text}\n".encode())

    try:
        process = subprocess.Popen(
            command, cwd=ROOT, stdin=subprocess.DEVNULL, stdout=subprocess.PIPE,
            stderr=subprocess.STDOUT if kept_together else None,
        )
    except OSError as error:
        fault(f"can't be run: {error.strerror}")
        return Result(0, 1, 127)
    lines = follow(process, sink).splitlines()
    status = process.wait()
    return judged(lines[-1] if lines else b"", status if status >= 0 else 128 - status, fault)


def run_all(commands: Iterable[Command]) -> int:
    """Runs commands one behind the other, whether or not one fails, and tells the sums. Gives the status."""
    result = NOTHING
    for command in commands:
        result = result.and_then(run(command))
    print(result.line(), flush=True)
    return result.status


class Beside:
    """Commands that run side by side."""

    def __init__(self, commands: Sequence[Command]) -> None:
        self.commands = commands
        self.printing = threading.Lock()
        self.begun: dict[str, float] = {}
        self.done: list[Timed] = []

    def one(self, command: Command) -> Result:
        """Runs one of them, and then tells what it wrote, how it ended and how many have ended."""
        name, told = name_of(command), [b""]
        self.begun[name] = time.monotonic()
        result = run(command, told.append, kept_together=True)
        seconds = time.monotonic() - self.begun[name]
        text = b"".join(told)
        if COUNTS.fullmatch(text.splitlines()[-1] if text else b""):
            text = b"".join(text.splitlines(keepends=True)[:-1])
        with self.printing:
            del self.begun[name]
            self.done.append(Timed(name, result, seconds))
            write_through(text)
            of = f"{len(self.done)} of {len(self.commands)} done"
            print(f"{name}: {result.line()}, {in_words(seconds)}; {of}", flush=True)
        return result

    def tell_running(self) -> None:
        """Names those that run, with how long they have."""
        with self.printing:
            now = time.monotonic()
            running = ", ".join(f"{name} ({in_words(now - since)})" for name, since in self.begun.items())
            print(f"running: {running}", flush=True)

    def run(self, lanes: int) -> Result:
        """Runs them, so many at a time, in their order. Gives the sums, and the status of the first in this order that failed."""
        result = NOTHING
        with ThreadPoolExecutor(lanes) as pool:
            futures = [pool.submit(self.one, command) for command in self.commands]
            left: set[Future[Result]] = set(futures)
            while left:
                ended, left = wait(left, SILENCE, "FIRST_COMPLETED")
                if not ended:
                    self.tell_running()
        for future in futures:
            result = result.and_then(future.result())
        return result
