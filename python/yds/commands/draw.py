"""yds-draw: random jobs, as `yds_cli trial` draws them, as a document."""

from __future__ import annotations

import re
import sys
from typing import Callable, Optional, Sequence

from yds._draws import LAST_TIME, MOST_JOBS, MOST_SEED, MOST_WORK, Sizes, jobs
from yds._words import DONE, Command, Files, Given, Option, WordsError, run

COMMAND = Command(
    "yds-draw",
    "random jobs, as `yds_cli trial` draws them, as a document",
    """
    yds-draw --seed 7 --jobs 20 --release 200 --window 150 --work 400 > drawn.txt

The generator is trial's, so a seed draws the same jobs on each machine: a state below 2^32, at first the seed; a draw
replaces the state s by the rest of 1664525 * s + 1013904223 by 2^32 and gives x = s / 65536, rounded down. Each job
takes three draws x, y and z. Its release is 10 * x, its deadline 1 + y later, its work 1 + z. With the options
--release R, --window L and --work W it is R * x / 65536, 1 + L * y / 65536 later, and 1 + W * z / 65536, each rounded
down: below R, and up to L and W.

Output: a comment with the options, and the job lines. In units of your choice.
""",
    [
        Option("seed", "a whole number up to 4294967295 (0)", "N"),
        Option("jobs", "how many, up to 4000 (20)", "N"),
        Option("release", "releases are below it; up to 999999999 (without it trial's own)", "R"),
        Option("window", "windows are at most so long; up to 1000000000 (without it trial's own)", "L"),
        Option("work", "works are at most so great; up to 1000000 (without it trial's own)", "W"),
    ],
    Files("", 0, 0),
    "0 done; 2 a fault of the words (then `failed` is written, which yds_cli refuses).",
    writes_document=True,
)


def main(words: Sequence[str]) -> int:
    """Writes the drawn jobs."""
    return run(COMMAND, words, tell)


def tell(given: Given, write: Callable[[str], None]) -> int:
    """Writes the comment, and the jobs."""
    seed, count = number(given, "seed", 0, MOST_SEED), number(given, "jobs", 0, MOST_JOBS)
    release, window = number(given, "release", 1, LAST_TIME - 1), number(given, "window", 1, LAST_TIME)
    sizes = Sizes(release, window, number(given, "work", 1, MOST_WORK))
    if sizes.last > LAST_TIME:
        raise WordsError(f"--release and --window together are above {LAST_TIME}, the last time of a document")
    told = f"# drawn with seed {seed or 0}"
    told += "" if release is None else f", releases below {release}"
    told += "" if window is None else f", windows up to {window}"
    write(told + ("" if sizes.work is None else f", work up to {sizes.work}"))
    for job in jobs(seed or 0, 20 if count is None else count, sizes):
        write(f"job {job.name} {job.release} {job.deadline} {job.work}")
    return DONE


def number(given: Given, name: str, least: int, most: int) -> Optional[int]:
    """The value of an option that is a whole number."""
    text = getattr(given, name)
    if text is None:
        return None
    if not re.fullmatch(r"0|[1-9][0-9]{0,19}", text) or not least <= int(text) <= most:
        limits = f"up to {most}" if not least else f"from {least} to {most}"
        raise WordsError(f"--{name} {text} is no whole number {limits}")
    return int(text)


if __name__ == "__main__":
    sys.exit(main(sys.argv[1:]))
