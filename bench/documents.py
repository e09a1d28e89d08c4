"""documents.py: writes JOBS jobs of a KIND, the same each time. `bench.sh` says what the kinds are.

    python3 documents.py KIND JOBS
"""

import sys
from typing import Callable, Dict, Iterator, Sequence, Tuple

Job = Tuple[int, int, int]
"""Release, deadline and work."""


class Draws:
    """The generator of `yds_cli trial`."""

    def __init__(self) -> None:
        """Starts from the seed 0."""
        self.seed = 0

    def draw(self) -> int:
        """A number below 65,536."""
        self.seed = (1664525 * self.seed + 1013904223) % 2**32
        return self.seed // 65536

    def below(self, end: int) -> int:
        """A number below END, made of two draws."""
        high = self.draw()
        return (65536 * high + self.draw()) % end

    def window(self, releases: int, deadlines: int) -> Tuple[int, int]:
        """A time below RELEASES and another one below DEADLINES, the earlier one first."""
        first = second = self.below(releases)
        while first == second:
            second = self.below(deadlines)
        return min(first, second), max(first, second)


def drawn(draws: Draws, number: int, jobs: int) -> Job:
    """A job as `trial` draws it."""
    release, length, work = draws.draw(), draws.draw(), draws.draw()
    return 10 * release, 10 * release + 1 + length, 1 + work


def short(draws: Draws, number: int, jobs: int) -> Job:
    """A window of at most a tenth of the time."""
    release = draws.below(900000000)
    return release, release + 1 + draws.below(100000000), 1 + draws.below(1000000)


def long(draws: Draws, number: int, jobs: int) -> Job:
    """A window of any length."""
    release, deadline = draws.window(1000000000, 1000000001)
    return release, deadline, 1 + draws.below(1000000)


def nested(draws: Draws, number: int, jobs: int) -> Job:
    """A window in that of the job before."""
    return number, 2 * jobs - number, number + 1


def rising(draws: Draws, number: int, jobs: int) -> Job:
    """A release and a deadline after those of the job before."""
    return 1000 * number, 1000 * number + 40000 + draws.below(1000), 1 + draws.below(1000000)


def together(draws: Draws, number: int, jobs: int) -> Job:
    """A job that is released at 0, as all of them."""
    return 0, 1 + draws.below(1000000000), 1 + draws.below(1000000)


def coarse(draws: Draws, number: int, jobs: int) -> Job:
    """A window of times from 0 to 20."""
    release, deadline = draws.window(21, 21)
    return release, deadline, 1 + draws.below(9)


def cut(draws: Draws, number: int, jobs: int) -> Job:
    """The first job is as long as all of them; each of the others cuts it."""
    if number == 0:
        return 0, 250000 * jobs, 1000000
    return 250000 * number, 250000 * number + 125000, 1 + number % 1000


KINDS: Dict[str, Callable[[Draws, int, int], Job]] = {
    kind.__name__: kind for kind in (drawn, short, long, nested, rising, together, coarse, cut)
}


def document(kind: str, jobs: int) -> Iterator[str]:
    """The lines of the jobs."""
    draws = Draws()
    for number in range(jobs):
        release, deadline, work = KINDS[kind](draws, number, jobs)
        yield f"job j{number} {release} {deadline} {work}\n"


def main(words: Sequence[str]) -> int:
    """Writes the document. Gives the status."""
    if len(words) != 2 or not words[1].isdecimal():
        print("usage: python3 documents.py KIND JOBS", file=sys.stderr)
        return 2
    kind, jobs = words
    if kind not in KINDS:
        print(f"documents.py: no kind {kind}", file=sys.stderr)
        return 1
    sys.stdout.writelines(document(kind, int(jobs)))
    return 0


if __name__ == "__main__":
    sys.exit(main(sys.argv[1:]))
