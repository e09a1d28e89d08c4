"""Jobs that are drawn as `yds_cli trial` draws them, so that a seed has the same jobs on each machine."""

from __future__ import annotations

from typing import Iterator, NamedTuple, Optional

from yds.rows import Job

LAST_TIME = 1_000_000_000
MOST_SEED = 2**32 - 1
MOST_JOBS = 4000
MOST_WORK = 1_000_000


class Sizes(NamedTuple):
    """How great the numbers of a drawn job may be; None where they are trial's own."""

    release: Optional[int] = None
    """Releases are below it (units of time)."""
    window: Optional[int] = None
    """Windows are at most so long (units of time)."""
    work: Optional[int] = None
    """Works are at most so great (units of work)."""

    @property
    def last(self) -> int:
        """No deadline is after it, where both are given."""
        return (self.release or 0) + (self.window or 0)


def jobs(seed: int, count: int, sizes: Sizes) -> Iterator[Job]:
    """So many jobs, each of three draws."""
    numbers = draws(seed)
    for place in range(count):
        start = _drawn(next(numbers), sizes.release, 10)
        end = start + 1 + _drawn(next(numbers), sizes.window, 1)
        yield Job(f"j{place}", start, end, 1 + _drawn(next(numbers), sizes.work, 1))


def draws(seed: int) -> Iterator[int]:
    """The draws from a seed, each below 65536."""
    while True:
        seed = (1664525 * seed + 1013904223) % 2**32
        yield seed // 65536


def _drawn(draw: int, limit: Optional[int], scale: int) -> int:
    """A number below the limit; without one the draw itself, so many times."""
    return scale * draw if limit is None else limit * draw // 65536
