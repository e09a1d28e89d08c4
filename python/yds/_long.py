"""A long document, read once: its jobs and runs go into two files, and a few numbers of each stay in memory.

Of each job there stay 64 bits of a keyed hash of its name, the places of its first and last run, how many runs and
bytes it has, and whether a window is open before it; of each run its job's number. That is some 30 bytes a job.
"""

from __future__ import annotations

import io
import re
import tempfile
from array import array
from collections import deque
from typing import IO, Deque, Dict, Iterable, Iterator, List, NamedTuple, Optional, Tuple, Union

from yds._heads import CUT_SHORT, MOST_BYTES, MOST_TIME, OfTrace, PartsError, Unclosed, read_head
from yds._lacking import Lacking

_NUMBER = rb"(0|[1-9][0-9]{0,29})"
_UNREAD = rb"(?:0|[1-9][0-9]{0,29})"
_JOBS = re.compile(rb"^job ([!-~]{1,64}) %b %b %b\n" % ((_NUMBER,) * 3), re.M).findall
_RUNS = re.compile(rb"^run ([!-~]{1,64}) %b %b %b\n" % (_NUMBER, _NUMBER, _UNREAD), re.M).findall
_NAMES = re.compile(rb"^job ([^ ]+) ([0-9]+) ", re.M).findall
_WHOLE = re.compile(_NUMBER).fullmatch
_FRACTION = re.compile(rb"%b(\+%b/%b)?" % ((_NUMBER,) * 3)).fullmatch
_UNIT = re.compile(rb"(time|speed|power) unit ([0-9.]+) (us|kHz|uW)")
_ODD_BYTE = re.compile(rb"[^ -~\t]").search

GREATEST_SHIFTED = 2**53 - 1
"""Times that are shifted are at most this."""
NEAR = 8000
"""At least so many jobs, those released last, are at hand when a run is read."""
BLOCK = 1 << 16
"""So many bytes of lines are read at once, and room is made for so many jobs."""
WAITING = 50_000
"""So many runs of other jobs wait before their names are looked up in the file."""
BUCKETS = 64
"""The hashes are kept in so many arrays, so that each is looked through by itself."""
NO_RUN = 0xFFFFFFFF

_UNIT_HINTS = {
    b"time": "give both the same --us",
    b"speed": "give points and trace the same --khz",
    b"power": "give the points of one --uw",
}


Batch = List[bytes]
"""Lines, each with its line feed; the last one of all may have none."""


def batches(lines: Iterable[bytes]) -> Iterator[Batch]:
    """The lines, some at once; those of a file in blocks, where a line that is longer than a document is a fault."""
    if isinstance(lines, (io.BufferedIOBase, io.RawIOBase)):
        yield from _batches_of_file(lines)
        return
    held: Batch = []
    size = 0
    try:
        for line in lines:
            held.append(line)
            size += len(line)
            if size > BLOCK:
                yield held
                held, size = [], 0
    except PartsError:
        yield held
        raise
    yield held


def _batches_of_file(source: Union[io.BufferedIOBase, io.RawIOBase]) -> Iterator[Batch]:
    number = 0
    rest = b""
    while True:
        block = source.read(BLOCK)
        if not block:
            break
        lines = io.BytesIO(rest + block).readlines()
        if len(lines[0]) > MOST_BYTES:
            raise PartsError(f"a line of more than {MOST_BYTES} bytes", number + 1)
        rest = b"" if lines[-1].endswith(b"\n") else lines.pop()
        number += len(lines)
        yield lines
    yield [rest] if rest else []


class Waiting(NamedTuple):
    """A run whose job isn't at hand."""

    name: bytes
    place: int
    """Its place among the runs."""
    line: int
    jobs: int
    """How many jobs stood before it."""
    size: int
    begin: bytes
    end: bytes
    ticks: int


class Names(NamedTuple):
    """The names of neighbouring jobs, the number of the first, and its release."""

    first: int
    release: int
    names: List[bytes]


class Long:
    """A long document that was read. Its two files go away with it."""

    def __init__(self, folder: Optional[str], shift: bool) -> None:
        """folder: where the files are made; None for the usual folder for temporary files."""
        self.shift = shift
        self._job_file: IO[bytes] = tempfile.TemporaryFile(dir=folder)
        self._run_file: IO[bytes] = tempfile.TemporaryFile(dir=folder)
        self.units: List[bytes] = []
        self.points: List[bytes] = []
        self.kept: List[bytes] = []
        self.ticks: Optional[int] = None
        self.left_out = 0
        self.bytes_before = 0
        self.closed = bytearray()
        self.bytes_of = array("I")
        self.runs_of = array("I")
        self.first_run = array("I")
        self.last_run = array("I")
        self.begins = array("q")
        self.ends = array("q")
        self.job_of = array("I")
        self._hashes = [array("q") for _ in range(BUCKETS)]
        self._line_jobs, self._line_lines = array("I"), array("Q")
        self._next_line = 0
        self._release = self._latest = 0
        self._greatest = GREATEST_SHIFTED if shift else MOST_TIME
        self._near: Dict[bytes, int] = {}
        self._blocks: Deque[Names] = deque()
        self._next_block: Optional[Names] = None
        self._looked = 0
        self._look_at = 0
        self._waiting: List[Waiting] = []
        self._told: Dict[bytes, bytes] = {}
        self._unclosed = Unclosed()
        self.of_trace = OfTrace()
        self.lacking = Lacking()
        """What the trace lacks, which each part has to tell."""

    def __enter__(self) -> Long:
        return self

    def __exit__(self, *_: object) -> None:
        self._job_file.close()
        self._run_file.close()

    @property
    def jobs(self) -> int:
        """How many jobs there are."""
        return len(self.closed)

    @property
    def runs(self) -> int:
        """How many slots and runs there are."""
        return len(self.job_of)

    # --- Lines in.

    def read(self, lines: Iterable[bytes]) -> None:
        """Reads all lines. PartsError is raised where one has a fault."""
        number = 0
        for batch in batches(lines):
            self._take_batch(batch, number + 1)
            number += len(batch)
        if not self.jobs:
            found_none = "no job line; look at what wrote the input"
            raise PartsError(found_none if number else "the input is empty; look at what wrote it")
        if self._unclosed.line:
            raise PartsError(CUT_SHORT, self._unclosed.line)
        self._make_room()
        self._look_up_waiting()
        self._refuse_doubled()

    def _take_batch(self, batch: Batch, number: int) -> None:
        """Takes lines, of which the first has this number: all at once where they are plain lines of one kind."""
        if self._take_plain(batch, number):
            return
        for place, line in enumerate(batch, number):
            if not self._take_plain([line], place):
                self._take_other(line[:-1] if line.endswith(b"\n") else line, place)

    def _take_plain(self, lines: Batch, number: int) -> bool:
        """Takes the lines, if they are plain lines of jobs, or of runs."""
        text = b"".join(lines)
        if not text.endswith(b"\n") or text.count(b"\n") != len(lines):
            return False
        if text.startswith(b"job "):
            jobs = _JOBS(text)
            if len(jobs) == len(lines):
                self._take_jobs(jobs, lines, number)
                return True
        elif text.startswith(b"run ") and self.ticks is not None:
            runs = _RUNS(text)
            if len(runs) == len(lines):
                self._take_runs(runs, lines, number, self.ticks)
                return True
        return False

    def _take_other(self, line: bytes, number: int) -> None:
        line = line[:-1] if line.endswith(b"\r") else line
        fields = line.replace(b"\t", b" ").split(b" ")
        fields = [field for field in fields if field]
        if not fields:
            return
        if fields[0].startswith(b"#"):
            return self._take_comment(line, number)
        if _ODD_BYTE(line):
            raise PartsError("a byte that stands in no line but a comment", number)
        self._take_fields(fields, number)

    def _take_comment(self, line: bytes, number: int) -> None:
        head = read_head(line) if line.startswith(b"# part ") else None
        if head is not None and self.jobs:
            told = f"the head of part {head.number}, so the input is parts already; give --split"
            raise PartsError(told, number)
        self._unclosed.take(line.decode("latin-1"), number)
        self.lacking.take(line.decode("latin-1"))
        if self.of_trace.take(line.decode("latin-1")):
            return
        for kind, amount, unit in _UNIT.findall(line):
            if self._told.setdefault(kind, amount) != amount:
                here, before = (f"{number.decode()} {unit.decode()}" for number in (amount, self._told[kind]))
                hint = _UNIT_HINTS[kind]
                raise PartsError(f"a unit of {kind.decode()} of {here} here and {before} before; {hint}", number)
        if not self.jobs and b"unit" in line and len(self.units) < 20 and len(line) < 200:
            self.units.append(line)
            return
        self._job_file.write(line + b"\n")
        if self.jobs:
            self.bytes_of[-1] = min(self.bytes_of[-1] + len(line) + 1, NO_RUN)
        else:
            self.bytes_before += len(line) + 1

    def _take_fields(self, fields: List[bytes], number: int) -> None:
        kind = fields[0]
        if kind == b"job":
            if len(fields) != 5 or not all(map(_WHOLE, fields[2:])):
                raise PartsError("a job is: job NAME RELEASE DEADLINE WORK, in whole numbers", number)
            self._take_jobs([(fields[1], fields[2], fields[3], fields[4])], [b" ".join(fields) + b"\n"], number)
        elif kind == b"slot":
            if len(fields) != 5 or not all(map(_FRACTION, fields[2:])):
                raise PartsError("a slot is: slot NAME FROM TO WORK, in numbers or fractions W+N/D", number)
            begin, end = (field.split(b"+")[0] for field in fields[2:4])
            self._take_runs([(fields[1], begin, end)], [b" ".join(fields) + b"\n"], number, 1)
        elif kind == b"run":
            if len(fields) != 5 or not all(map(_WHOLE, fields[2:])):
                raise PartsError("a run is: run NAME FROM TO SPEED, in whole numbers", number)
            if self.ticks is None:
                raise PartsError("a run before any line of ticks", number)
            self._take_runs([(fields[1], fields[2], fields[3])], [b" ".join(fields) + b"\n"], number, self.ticks)
        else:
            self._take_single(kind, fields, number)

    def _take_single(self, kind: bytes, fields: List[bytes], number: int) -> None:
        line = b" ".join(fields)
        if kind == b"point":
            if len(fields) != 3 or not all(map(_WHOLE, fields[1:])):
                raise PartsError("a point is: point SPEED POWER, in whole numbers", number)
            if len(self.points) == 64:
                raise PartsError("more than 64 points", number)
            self.points.append(line)
        elif kind == b"ticks":
            if len(fields) != 2 or not _WHOLE(fields[1]) or not 1 <= int(fields[1]) <= MOST_TIME:
                raise PartsError("ticks need one number from 1 to 1000000000", number)
            if self.ticks is not None:
                raise PartsError("a second line of ticks", number)
            self.ticks = int(fields[1])
        elif kind in (b"grid", b"energy"):
            if any(kept.split(b" ")[0] == kind for kept in self.kept):
                raise PartsError(f"a second line of {kind.decode()}", number)
            self.kept.append(line)
        elif kind in (b"level", b"piece", b"member"):
            if len(fields) != (2 if kind == b"member" else 3):
                raise PartsError(f"a {kind.decode()} of {len(fields) - 1} fields", number)
            if kind != b"level" and not self.left_out:
                raise PartsError(f"a {kind.decode()} before any level", number)
            self.left_out += 1
        elif kind in (b"refused", b"failed", b"too-slow", b"usage:"):
            raise PartsError(f"the input is an answer of no: {_printable(line)}", number)
        else:
            raise PartsError(f"{_printable(kind)} is no kind of line", number)

    def _take_jobs(self, jobs: List[Tuple[bytes, bytes, bytes, bytes]], lines: Batch, number: int) -> None:
        """Takes jobs, the names, releases, deadlines and works of these lines."""
        closed, hashes = self.closed, self._hashes
        if number != self._next_line:
            self._line_jobs.append(len(closed))
            self._line_lines.append(number)
        self._next_line = number + len(lines)
        before, latest, greatest = self._release, self._latest, self._greatest
        for place, (name, release, deadline, work) in enumerate(jobs):
            begin, end = int(release), int(deadline)
            if begin < before or begin >= end or end > greatest or len(name) > 64 or int(work) > 1_000_000:
                self._release = before
                self._refuse_job(name.decode(), begin, end, int(work), number + place)
            before = begin
            closed.append(begin >= latest)
            if end > latest:
                latest = end
            hashed = hash(name)
            hashes[hashed % BUCKETS].append(hashed)
            if self.shift:
                self.begins.append(begin)
                self.ends.append(end)
        self._release, self._latest = before, latest
        self.bytes_of.extend(map(len, lines))
        self._job_file.writelines(lines)

    def _refuse_job(self, name: str, begin: int, end: int, work: int, number: int) -> None:
        if len(name) > 64:
            raise PartsError("a name of more than 64 bytes", number)
        if end > self._greatest:
            hint = "" if self.shift else "; shift the times of each part (--shift)"
            raise PartsError(f"a time above {self._greatest}{hint}", number)
        if work > 1_000_000:
            raise PartsError("a work above 1000000", number)
        if begin >= end:
            raise PartsError(f"job {name} has its deadline {end} at or before its release {begin}", number)
        raise PartsError(
            f"job {name} is released at {begin}, and one above it at {self._release}; the jobs need the order of their "
            "releases: (grep '^job' LONG | sort -k3n; grep -v '^job' LONG)",
            number,
        )

    def _take_runs(self, runs: List[Tuple[bytes, bytes, bytes]], lines: Batch, number: int, ticks: int) -> None:
        """Takes runs, the names, begins and ends of these lines, with so many ticks to a unit of time."""
        if len(self.runs_of) < len(self.closed):
            self._make_room()
        near, job_of, first_run, last_run = self._near, self.job_of, self.first_run, self.last_run
        runs_of, bytes_of, shift = self.runs_of, self.bytes_of, self.shift
        first = len(job_of)
        until = self._near_until(ticks)
        for place, ((name, begin, end), line) in enumerate(zip(runs, lines), first):
            if until is not None and int(begin) >= until:
                self._look_on(int(begin) // ticks)
                until = self._near_until(ticks)
            job = near.get(name)
            if job is None:
                job_of.append(NO_RUN)
                at = number + place - first
                self._waiting.append(Waiting(name, place, at, self.jobs, len(line), begin, end, ticks))
                if len(self._waiting) >= WAITING:
                    self._look_up_waiting()
                continue
            job_of.append(job)
            if first_run[job] == NO_RUN:
                first_run[job] = place
            last_run[job] = place
            runs_of[job] += 1
            size = bytes_of[job] + len(line) + 20
            bytes_of[job] = size if size < NO_RUN else NO_RUN
            if shift:
                self._widen(job, int(begin) // ticks, int(end) // ticks + 1)
        self._run_file.writelines(lines)

    def _make_room(self) -> None:
        """Makes room for what is kept of each job's runs."""
        while len(self.runs_of) < len(self.closed):
            more = min(len(self.closed) - len(self.runs_of), BLOCK)
            self.runs_of.extend(array("I", bytes(4 * more)))
            self.first_run.extend(array("I", b"\xff" * (4 * more)))
            self.last_run.extend(array("I", b"\xff" * (4 * more)))

    def _note_run(self, job: int, run: Waiting) -> None:
        """Notes a run that waited: others of its job may have been noted before it."""
        self.job_of[run.place] = job
        if self.first_run[job] == NO_RUN or run.place < self.first_run[job]:
            self.first_run[job] = run.place
        if self.last_run[job] == NO_RUN or run.place > self.last_run[job]:
            self.last_run[job] = run.place
        self.runs_of[job] += 1
        self.bytes_of[job] = min(self.bytes_of[job] + run.size + 20, NO_RUN)
        if self.shift:
            self._widen(job, int(run.begin) // run.ticks, int(run.end) // run.ticks + 1)

    def _widen(self, job: int, begin: int, end: int) -> None:
        """The job and its runs lie between these whole units of time, too."""
        if begin < self.begins[job]:
            self.begins[job] = begin
        if end > self.ends[job]:
            self.ends[job] = end

    # --- Names.

    def _near_until(self, ticks: int) -> Optional[int]:
        """The tick from which on the next jobs have to be at hand; None where there are none."""
        if self._next_block is None:
            self._next_block = self._names_from_here()
        return None if self._next_block is None else self._next_block.release * ticks

    def _look_on(self, begin: int) -> None:
        """Takes the jobs that are released by then to those at hand, some at once."""
        block = self._next_block
        while block is not None and block.release <= begin:
            self._near.update(zip(block.names, range(block.first, block.first + len(block.names))))
            self._blocks.append(block)
            while block.first - self._blocks[0].first - len(self._blocks[0].names) >= NEAR:
                self._let_go(self._blocks.popleft())
            block = self._next_block = self._names_from_here()

    def _let_go(self, block: Names) -> None:
        """Takes the oldest jobs from those at hand."""
        for job, name in enumerate(block.names, block.first):
            if self._near.get(name) == job:
                del self._near[name]

    def _names_from_here(self) -> Optional[Names]:
        """The next jobs that weren't looked at yet; None where there are none. The file is still written, perhaps."""
        while self._looked < self.jobs:
            self._job_file.seek(self._look_at)
            block = self._job_file.read(BLOCK)
            block += b"" if block.endswith(b"\n") else self._job_file.readline()
            self._job_file.seek(0, 2)
            self._look_at += len(block)
            found = _NAMES(block)
            if found:
                names = Names(self._looked, int(found[0][1]), [name for name, _ in found])
                self._looked += len(names.names)
                return names
        return None

    def _look_up_waiting(self) -> None:
        """Finds the jobs of the runs that wait, in the file."""
        if not self._waiting:
            return
        wanted = {one.name for one in self._waiting}
        found: Dict[bytes, int] = {}
        for job, line in enumerate(self.job_lines()):
            name = line.split(b" ", 2)[1]
            if name in wanted:
                found.setdefault(name, job)
        for one in self._waiting:
            if one.name not in found:
                raise PartsError(f"no job of the name {_printable(one.name)}", one.line)
            if found[one.name] >= one.jobs:
                later = self.line_of(found[one.name])
                raise PartsError(f"the line of job {_printable(one.name)} comes after it, as line {later}", one.line)
            self._note_run(found[one.name], one)
        self._waiting = []

    def _refuse_doubled(self) -> None:
        """Names whose hashes are equal are looked up again. PartsError where two are the same."""
        doubled = set()
        while self._hashes:
            bucket = self._hashes.pop()
            if len(set(bucket)) < len(bucket):
                seen = set()
                for hashed in bucket:
                    if hashed in seen:
                        doubled.add(hashed)
                    seen.add(hashed)
        if not doubled:
            return
        known: Dict[bytes, int] = {}
        for job, line in enumerate(self.job_lines()):
            name = line.split(b" ", 2)[1]
            if hash(name) not in doubled:
                continue
            if name in known:
                text = f"a job of the name {_printable(name)} is there already, at line {self.line_of(known[name])}"
                raise PartsError(text, self.line_of(job))
            known[name] = job

    def line_of(self, job: int) -> int:
        """The line of the job of this number, counted from 0."""
        low, high = 0, len(self._line_jobs)
        while high - low > 1:
            middle = (low + high) // 2
            low, high = (middle, high) if self._line_jobs[middle] <= job else (low, middle)
        return self._line_lines[low] + job - self._line_jobs[low]

    # --- Lines out.

    def runs_of_jobs(self) -> array[int]:
        """For each run its job's number. They are given away, and what is known of each job's runs is let go."""
        jobs, self.job_of = self.job_of, array("I")
        self.bytes_of, self.runs_of, self.first_run, self.last_run = (array("I") for _ in range(4))
        return jobs

    def all_lines(self) -> Iterator[bytes]:
        """The lines of the jobs, with the comments between them."""
        return self._lines(self._job_file)

    def job_lines(self) -> Iterator[bytes]:
        """The lines of the jobs alone."""
        return (line for line in self.all_lines() if line.startswith(b"job "))

    def run_lines(self) -> Iterator[bytes]:
        """The lines of the slots and runs."""
        return self._lines(self._run_file)

    @staticmethod
    def _lines(file: IO[bytes]) -> Iterator[bytes]:
        place = 0
        while True:
            file.seek(place)
            block = file.read(1 << 18)
            file.seek(0, 2)
            if not block:
                return
            end = block.rfind(b"\n") + 1
            while not end:
                file.seek(place + len(block))
                block += file.read(1 << 18)
                file.seek(0, 2)
                end = block.rfind(b"\n") + 1
            place += end
            yield from io.BytesIO(block[:end])


def _printable(text: bytes) -> str:
    """At most 60 bytes of it, without what could move a terminal's cursor."""
    shown = re.sub(rb"[^ -~]", b"?", text).decode("ascii")
    return shown if len(shown) <= 60 else shown[:60] + ".."
