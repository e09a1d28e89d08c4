"""yds-parts: a document with any number of jobs in parts that yds_cli reads."""

from __future__ import annotations

import os
import re
import sys
from contextlib import contextmanager
from typing import Callable, Iterable, Iterator, Optional, Sequence

from yds import parts
from yds._heads import MOST_JOBS
from yds._progress import beside
from yds._words import DONE, Command, Files, Given, Option, WordsError, run

COMMAND = Command(
    "yds-parts",
    "a document with any number of jobs in parts that yds_cli reads",
    """
Input: a document with any number of jobs, slots and runs; the jobs stand in order of release. Output:
DIR/part-00001.txt and so on, each within the program's limits: at most 4,000 jobs, 100,000 slots and runs, 8,388,608
bytes. Answers go beside the parts, as DIR/part-00001.plan, and yds-whole puts them together.

    yds-parts --folder parts long.txt
    yds-parts --split --folder parts parts.txt

Each part is cut at an instant at which each job has all of its runs before it or behind it, and no window is open if
there is such an instant within the limits; else the first line of the part behind says ', windows open'. Levels, pieces
and members are left out, and said so. Of a trace's document each part has a first and a last line of its own, and what
the trace lacks.

With --split the input is the parts themselves, one behind the other, as yds_trace --parts writes them. Each goes to its
file, with the points and comments that stand before the first one. Those of several processors, as yds_trace --cpu all
writes them, go to DIR/cpu0-part-00001.txt and so on, each processor's counted by themselves.
""",
    [
        Option("folder", "where the parts go; those of an earlier cut, and their answers, are taken away", "DIR"),
        Option("jobs", "at most so many jobs in a part, up to 4000 (4000)", "N"),
        Option("shift", "times begin at 0 in each part, and those of the document may be above 1000000000"),
        Option("split", "the input is parts already, as yds_trace --parts or --cpu all writes them"),
    ],
    Files("DOCUMENT", 0, 1),
    "0 done; 1 a fault in the input, or no place to cut: then DIR/part-00001.txt has the one line `failed`, which "
    "yds_cli refuses; 2 a fault of the words.",
)


def main(words: Sequence[str]) -> int:
    """Cuts the document of the file, or of standard input."""
    return run(COMMAND, words, cut)


def cut(given: Given, write: Callable[[str], None]) -> int:
    """Writes the parts; where that fails, a part that the program refuses."""
    if given.folder is None:
        raise WordsError("no --folder DIR is given")
    if given.split and (given.jobs is not None or given.shift):
        raise WordsError("--split takes the parts as they are; leave --jobs and --shift out")
    jobs = most_jobs(given.jobs)
    try:
        os.makedirs(given.folder, exist_ok=True)
        take_away_old(given.folder)
        file = given.files[0] if given.files else "-"
        with sys.stdin.buffer if file == "-" else open(file, "rb") as source, lines_of(file):
            found = parts.split(source) if given.split else parts.cut(source, jobs, given.shift, given.folder)
            left_out = write_parts(given.folder, found)
    except BaseException:
        if os.path.isdir(given.folder):
            take_away_old(given.folder)
            with open(place_of(given.folder, 1, None), "wb") as target:
                target.write(b"failed\n")
        raise
    if left_out:
        text = "lines of levels, pieces and members are left out; a part has no answer of check"
        beside(f"yds-parts: {left_out} {text}\n")
    return DONE


@contextmanager
def lines_of(file: str) -> Iterator[None]:
    """A fault of a line tells the file, too, where it has a name."""
    try:
        yield
    except parts.PartsError as fault:
        if file == "-" or fault.line is None:
            raise
        raise parts.PartsError(f"{file}, {fault}") from fault


def most_jobs(word: Optional[str]) -> int:
    """The word of --jobs."""
    if word is None:
        return MOST_JOBS
    if re.fullmatch("[1-9][0-9]{0,3}", word) is None or int(word) > MOST_JOBS:
        raise WordsError(f"--jobs {word} is no number from 1 to {MOST_JOBS}")
    return int(word)


def write_parts(folder: str, found: Iterable[parts.Part]) -> int:
    """Writes the parts to their files, and tells how many lines of levels were left out."""
    left_out = 0
    for part in found:
        left_out = part.left_out
        with open(place_of(folder, part.head.number, part.head.cpu), "wb") as target:
            target.write(part.text)
    return left_out


def place_of(folder: str, number: int, cpu: Optional[int]) -> str:
    """The file of a part, with its processor where there are documents of several."""
    return os.path.join(folder, f"{'' if cpu is None else f'cpu{cpu}-'}part-{number:05d}.txt")


def take_away_old(folder: str) -> None:
    """Takes away parts and answers of an earlier cut."""
    for name in os.listdir(folder):
        if re.fullmatch(r"(cpu[0-9]+-)?part-[0-9]{5}\..*", name):
            os.remove(os.path.join(folder, name))


if __name__ == "__main__":
    sys.exit(main(sys.argv[1:]))
