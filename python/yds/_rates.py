"""Where a run of Average Rate of all jobs rounds up, although the runs of the parts don't.

The run serves each job its even share of each stretch between two event points, rounded up to a unit of the grid. Where
windows are open at a cut, the jobs of one part have event points of another in their windows.
"""

from __future__ import annotations

from math import gcd
from typing import Iterator, List, NamedTuple, Optional, Sequence, Tuple

from yds._heads import PartsError, Text, lines_of, read_head


class Shared(NamedTuple):
    """A job whose share of some time isn't a whole number of units: it is one at each so many units of time."""

    name: bytes
    release: int
    deadline: int
    each: int

    def rounds_at(self, time: int) -> bool:
        """Whether the time is in the window, and the share until then isn't whole."""
        return self.release < time < self.deadline and (time - self.release) % self.each != 0


class _Part(NamedTuple):
    start: int
    shared: List[Shared]
    times: List[int]
    """Its event points, some perhaps more than once."""


def first_rounded(parts: Sequence[Text], grid: int) -> Optional[Tuple[bytes, int]]:
    """A job of one part, and an event point of another in its window until which its share isn't whole.

    None where there is none: where the parts' runs don't round on this grid, that of all jobs doesn't either.
    """
    open_jobs: List[Shared] = []
    later: List[int] = []
    for part in _parts(parts, grid):
        open_jobs = [job for job in open_jobs if job.deadline > part.start]
        later = [time for time in later if time > part.start]
        for jobs, times in ((open_jobs, part.times), (part.shared, later)):
            found = next(((job.name, time) for job in jobs for time in times if job.rounds_at(time)), None)
            if found is not None:
                return found
        open_jobs += part.shared
        later = list(set(later + part.times))
    return None


def _parts(parts: Sequence[Text], grid: int) -> Iterator[_Part]:
    """The parts' jobs and event points, in the times of the whole."""
    for number, text in enumerate(parts, 1):
        lines = lines_of(text)
        head = read_head(next(lines, b""))
        if head is None:
            raise PartsError(f"part {number} has no head line")
        part = _Part(head.start, [], [])
        for line in lines:
            if line.startswith(b"job "):
                _, name, release, deadline, work = line.split()
                begin, end = int(release) + head.shift, int(deadline) + head.shift
                part.times.extend((begin, end))
                each = (end - begin) // gcd(grid * int(work), end - begin)
                if each > 1:
                    part.shared.append(Shared(name, begin, end, each))
        yield part
