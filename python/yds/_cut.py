"""Where a long document is cut, and the texts of its parts."""

from __future__ import annotations

import re
import tempfile
from array import array
from bisect import bisect_right
from itertools import islice
from operator import gt
from typing import Dict, Iterable, Iterator, List, NamedTuple, Optional, Tuple

from yds._heads import MOST_BYTES, MOST_SLOTS, MOST_TIME, Head, Part, PartsError
from yds._long import NO_RUN, Long
from yds._spelled import moved

MOST_PARTS = 99_999
SOME_RUNS = 1 << 16
"""The parts of so many runs are looked up at once."""
HELD_BYTES = 1 << 22
"""So many bytes of runs that are out of order are held before they go to the files of their parts."""

_PERIOD = re.compile(rb"# period ([0-9]+)(?=\s*$)")


class Range(NamedTuple):
    """The jobs of a part, counted from 0: the first, and the one after the last."""

    first: int
    end: int
    windows_open: bool
    """Whether a window is open at the cut before it."""


class PlacedRun(NamedTuple):
    """A run, its place among all, and the line before it there."""

    place: int
    line: bytes
    before: bytes


def quiet_before(long: Long) -> bytearray:
    """For each job, whether all runs of the jobs above it come before all runs of it and of the jobs below it."""
    least_from = array("I", long.first_run)
    following = NO_RUN
    for job in range(long.jobs - 1, -1, -1):
        if least_from[job] > following:
            least_from[job] = following
        following = least_from[job]
    quiet = bytearray(long.jobs)
    latest = -1
    for job, (least, last) in enumerate(zip(least_from, long.last_run)):
        quiet[job] = latest < least
        if latest < last != NO_RUN:
            latest = last
    return quiet


class Limits:
    """What a part holds."""

    def __init__(self, long: Long, jobs: int) -> None:
        self._long = long
        self._jobs = jobs
        lines = [*long.units, *long.points, *long.kept, *long.lacking.comments(), long.of_trace.first(0)]
        self._bytes = MOST_BYTES - 700 - sum(len(line) + 1 for line in lines)

    def furthest(self, first: int) -> Tuple[int, str]:
        """The end of the most jobs from this one on that a part holds, and what the next one would be too much of."""
        long = self._long
        runs = 0
        size = long.bytes_before if first == 0 else 0
        begin, end = (long.begins[first], long.ends[first]) if long.shift else (0, 0)
        for job in range(first, long.jobs):
            runs += long.runs_of[job]
            size += long.bytes_of[job]
            if job - first == self._jobs:
                return job, f"are {job - first + 1}, above {self._jobs}"
            if runs > MOST_SLOTS:
                return job, f"have {runs} slots and runs, above {MOST_SLOTS}"
            if size > self._bytes:
                return job, f"take {size} bytes, above {self._bytes}"
            if long.shift:
                begin, end = min(begin, long.begins[job]), max(end, long.ends[job])
                if end - begin > MOST_TIME:
                    return job, f"and their slots take {end - begin} units of time, above {MOST_TIME}"
        return long.jobs, ""


def ranges(long: Long, jobs: int) -> Iterator[Range]:
    """The parts.

    Each ends at its last quiet instant at which no window is open. Where there is none, it ends at the last instant at
    which no window is open: a run that is late, early or out of order is then put into its job's part. Where there is
    none of these either, it ends at its last quiet instant. Elsewhere PartsError is raised.
    """
    limits = Limits(long, jobs)
    quiet = quiet_before(long)
    closed = long.closed
    first, windows_open = 0, False
    while first < long.jobs:
        end, above = limits.furthest(first)
        if end < long.jobs:
            places = range(end, first, -1)
            found = next((job for job in places if closed[job] and quiet[job]), None)
            found = next((job for job in places if closed[job]), None) if found is None else found
            found = next((job for job in places if quiet[job]), None) if found is None else found
            if found is None:
                raise PartsError(_no_place(long, first, end, above))
            end = found
        yield Range(first, end, windows_open)
        first, windows_open = end, end < long.jobs and not closed[end]


def _no_place(long: Long, first: int, end: int, above: str) -> str:
    """What is told where there is no place to cut: from which job to which, and whose runs reach furthest."""
    jobs = range(first, max(end, first + 1))
    names = [line.split()[1].decode() for line in islice(long.job_lines(), jobs.start, jobs.stop)]
    if end == first:
        return f"a part can't hold job {names[0]} by itself: its lines {above}"
    reach = max(jobs, key=lambda job: -1 if long.last_run[job] == NO_RUN else long.last_run[job])
    return (
        f"there is no place to cut from job {names[0]} to job {names[-1]}: a window is always open, and a job always "
        f"has runs on both sides. With the next one these jobs {above}. The one whose runs reach furthest is "
        f"{names[reach - first]}; take it out, or let it be a job for each piece"
    )


class Runs:
    """The slots and runs of the parts, in the order of the document."""

    def __init__(self, long: Long, parts: List[Range], folder: Optional[str]) -> None:
        self._long = long
        self._part_of = self._parts_of(parts)
        self._place = 0
        self._lines = long.run_lines()
        self._before = b""
        if any(map(gt, self._part_of, islice(self._part_of, 1, None))):
            self._store = tempfile.TemporaryFile(dir=folder)
            self._pieces: Optional[Dict[int, List[Tuple[int, int]]]] = {}
            self._sort()
        else:
            self._pieces = None

    def _parts_of(self, parts: List[Range]) -> array[int]:
        """The number of each run's part, in the place of its job's number."""
        of_job = array("I")
        for number, part in enumerate(parts):
            of_job.extend(array("I", [number]) * (part.end - part.first))
        of_run = self._long.runs_of_jobs()
        for start in range(0, len(of_run), SOME_RUNS):
            some = slice(start, start + SOME_RUNS)
            of_run[some] = array("I", map(of_job.__getitem__, of_run[some]))
        return of_run

    def _sort(self) -> None:
        """Puts each run behind those of its part, in pieces of one file."""
        held: Dict[int, List[bytes]] = {}
        size = 0
        before = b""
        for place, line in enumerate(self._lines):
            held.setdefault(self._part_of[place], []).append(b"%d %b\n%b" % (place, before, line))
            size += len(line) + 60
            before = _told(line)
            if size > HELD_BYTES:
                self._put(held)
                held, size = {}, 0
        self._put(held)

    def _put(self, held: Dict[int, List[bytes]]) -> None:
        assert self._pieces is not None
        for part, lines in held.items():
            text = b"".join(lines)
            self._pieces.setdefault(part, []).append((self._store.tell(), len(text)))
            self._store.write(text)

    def close(self) -> None:
        """Takes the file away."""
        if self._pieces is not None:
            self._store.close()

    def lines(self, part: int) -> List[bytes]:
        """The lines of the next part's. One that isn't the next of all has a comment with its number before it."""
        if self._pieces is not None:
            return list(_numbered(part, self._of(part)))
        start, before = self._place, self._before
        self._place = bisect_right(self._part_of, part, start)
        lines = list(islice(self._lines, self._place - start))
        if lines:
            self._before = lines[-1]
            lines[:1] = _numbered(part, [PlacedRun(start, lines[0], before)])
        return lines

    def _of(self, part: int) -> Iterator[PlacedRun]:
        assert self._pieces is not None
        for start, length in self._pieces.get(part, ()):
            self._store.seek(start)
            lines = iter(self._store.read(length).split(b"\n")[:-1])
            for told, line in zip(lines, lines):
                place, before = told.split(b" ", 1)
                yield PlacedRun(int(place), line + b"\n", before)


def _numbered(part: int, runs: Iterable[PlacedRun]) -> Iterator[bytes]:
    """The lines of a part's runs, with comments where their numbers among all aren't in turn."""
    place = 0
    for run in runs:
        if run.place == 0 and part:
            yield b"# slot 1 after no slot\n"
        elif run.place != place:
            kind, _, _, end = run.before.split(b" ")[:4]
            yield b"# slot %d after %b %b\n" % (run.place + 1, kind, end)
        place = run.place + 1
        yield run.line


def _told(line: bytes) -> bytes:
    """What is kept of the line before a run: as much of it as tells its end."""
    return line.rsplit(b" ", 1)[0]


class Writer:
    """The texts of the parts, in their order."""

    def __init__(self, long: Long, parts: List[Range], folder: Optional[str]) -> None:
        self._long = long
        self._parts = parts
        self._runs = Runs(long, parts, folder)
        self._lines = long.all_lines()
        self._next = next(self._lines, None)

    def parts(self) -> Iterator[Part]:
        """Each part, when it is asked for."""
        try:
            for number, part in enumerate(self._parts):
                yield self._part(number, part)
        finally:
            self._runs.close()

    def _part(self, number: int, part: Range) -> Part:
        long = self._long
        lines = self._job_lines(part)
        kept = [line + b"\n" for line in long.kept]
        if len(self._parts) > 1:
            lines, kept = [_of_part(line) for line in lines], [_of_part(line) for line in kept]
        jobs = [line.split() for line in lines if line.startswith(b"job ")]
        start, end = int(jobs[0][2]), max(int(job[3]) for job in jobs)
        shift = min(long.begins[part.first : part.end]) if long.shift else 0
        last = number == len(self._parts) - 1
        head = Head(number + 1, part.first + 1, part.end, start, end, shift, None, part.windows_open, last)
        text = [head.spelled()]
        if long.left_out:
            text.append(b"# left out: levels, pieces and members\n")
        text.append(long.of_trace.first(shift).encode("latin-1"))
        text += [line + b"\n" for line in long.units]
        text += [] if last else [line.encode("latin-1") + b"\n" for line in long.lacking.comments()]
        text += [_shifted_job(line, shift) for line in lines] if shift else lines
        text += [line + b"\n" for line in long.points]
        text += kept if number == 0 else []
        text += [] if long.ticks is None else [b"ticks %d\n" % long.ticks]
        ticks = long.ticks or 1
        runs = self._runs.lines(number)
        text += [_shifted_run(line, shift, ticks) for line in runs] if shift else runs
        text.append(long.of_trace.last(head.jobs, long.jobs, last).encode("latin-1"))
        whole = b"".join(text)
        if len(whole) > MOST_BYTES:
            raise PartsError(f"part {head.number} takes {len(whole)} bytes, above {MOST_BYTES}; give each part fewer jobs")
        return Part(head, whole, long.left_out)

    def _job_lines(self, part: Range) -> List[bytes]:
        """The part's lines of jobs, and the comments between them."""
        wanted = part.end - part.first
        lines: List[bytes] = []
        while self._next is not None:
            if self._next.startswith(b"job "):
                if not wanted:
                    break
                wanted -= 1
            lines.append(self._next)
            self._next = next(self._lines, None)
        return lines


def _of_part(line: bytes) -> bytes:
    """A line of the document in a part of it: what repeats after the period is the whole."""
    return _PERIOD.sub(rb"# no period: a part of what repeats after \1", line) if line.startswith(b"# period ") else line


def _shifted_job(line: bytes, shift: int) -> bytes:
    if not line.startswith(b"job "):
        return line
    _, name, release, deadline, work = line.split()
    return b"job %b %d %d %b\n" % (name, int(release) - shift, int(deadline) - shift, work)


def _shifted_run(line: bytes, shift: int, ticks: int) -> bytes:
    if line.startswith(b"#"):
        return line
    kind, name, begin, end, work = line.split()
    shift *= ticks if kind == b"run" else 1
    return b"%b %b %b %b %b\n" % (kind, name, moved(begin, -shift), moved(end, -shift), work)
