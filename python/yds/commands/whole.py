"""yds-whole: the answers of yds_cli to the parts of yds-parts as one answer."""

from __future__ import annotations

import re
import sys
from pathlib import Path
from typing import Callable, List, Optional, Sequence

from yds import parts
from yds._lacking import of_parts
from yds._program import of_environment
from yds._progress import beside
from yds._words import DONE, NO, OPEN, Command, Files, Given, Option, WordsError, run

COMMAND = Command(
    "yds-whole",
    "the answers of yds_cli to the parts of yds-parts as one answer",
    """
Input: one answer for each part, all to the same command, beside the parts: DIR/part-00001.plan answers
DIR/part-00001.txt. Output: what the program would answer to the long document.

    yds-whole parts/part-*.audit
    yds-whole --cpu 3 parts/cpu*-part-*.audit

The parts are of one processor. Of several ones, as yds_trace --cpu all writes them, --cpu takes those of one.

Answers of audit, yds-misses and yds-energy can be put together wherever the parts were cut, and those of plan, round,
avr, oa, check and report where no window is open at a cut. Where windows are open, the lines of compare become lower
bounds: of the least energy, and of Average Rate's where its run of all jobs rounds nowhere, for which --grid is needed.

Parts of a trace tell where events were lost, and of a time of which no line tells. Each tells it of the trace up to its
own end, so what the last one tells holds: it stands in comments above the verdict of audit and above the last line of
yds-misses, and behind energies. Jobs of which it isn't known whether they were in time are those of all parts: a
comment above the last line of yds-misses tells them.

    yds-whole --bounds --spent energies.txt parts/part-*.txt

Then the files are the parts, and the output tells between which energies the least lies, and how much more is spent by
each side whose energy energies.txt tells. Where the environment's YDS names the program, it answers for the groups of
jobs, else the library.
""",
    [
        Option("folder", "where the parts are, if the answers stand elsewhere", "DIR"),
        Option("cpu", "of the files, those of this processor", "N"),
        Option("grid", "the grid that compare was given", "G"),
        Option("bounds", "the files are the parts: between which energies the least lies"),
        Option("spent", "with --bounds: a file with lines `SIDE energy E` for the whole", "ENERGIES"),
    ],
    Files("FILE", 1),
    "0 done; 1 a verdict of no, too slow, deadlines missed, or a part without an answer; 2 a fault of the words; 8 of "
    "yds-misses, every deadline is met as far as the trace shows. Where a part has no answer, the last line is "
    "`failed`.",
    writes_document=True,
    streams=True,
)


def main(words: Sequence[str]) -> int:
    """Puts the answers together, or tells both bounds."""
    return run(COMMAND, words, whole)


def whole(given: Given, write: Callable[[str], None]) -> int:
    """Writes the answer, or the bounds."""
    files = [Path(name) for name in given.files]
    if given.cpu is not None:
        files = of_processor(files, cpu_of(given.cpu), given.folder, bool(given.bounds))
    if given.bounds:
        return bound(files, given.spent, write)
    if given.spent is not None:
        raise WordsError("--spent stands with --bounds")
    grid = grid_of(given.grid)
    try:
        told = parts.whole([part_of(file, given.folder) for file in files], files, grid)
    except parts.PartsError as fault:
        *others, last = str(fault).split("\n")
        beside("".join(f"yds-whole: {text}\n" for text in others))
        raise parts.PartsError(last) from fault
    for text in told.told:
        beside(f"yds-whole: {text}\n")
    for line in told.lines:
        write(line.decode("latin-1")[:-1])
    return OPEN if told.is_open else DONE if told.yes else NO


def bound(files: Sequence[Path], spent: Optional[str], write: Callable[[str], None]) -> int:
    """Writes both bounds, and what the sides spend above them."""
    sides = [] if spent is None else parts.read_spent(Path(spent))
    found = parts.bounds(files, answer=of_environment())
    for line in [*found.lines(), *(found.waste(side) for side in sides)]:
        write(line.decode("latin-1")[:-1])
    for text in of_parts(files).whole().beside_energy():
        write(text)
    return NO if found.lower is None else DONE


def cpu_of(word: str) -> int:
    """The word of --cpu."""
    if re.fullmatch("0|[1-9][0-9]{0,3}", word) is None:
        raise WordsError(f"--cpu {word} is no number of a processor")
    return int(word)


def of_processor(files: Sequence[Path], cpu: int, folder: Optional[str], are_parts: bool) -> List[Path]:
    """The files of this processor: parts, or answers to parts. One without a part is left for the message on it."""
    heads = [head_of(file if are_parts else part_of(file, folder)) for file in files]
    found = [file for file, head in zip(files, heads) if head is None or head.cpu == cpu]
    if not any(head is not None and head.cpu == cpu for head in heads):
        raise parts.PartsError(f"no part of processor {cpu} is among those of the files")
    return found


def head_of(part: Path) -> Optional[parts.Head]:
    """The head of a part; None where there is none."""
    try:
        with part.open("rb") as source:
            return parts.read_head(source.readline(1000))
    except OSError:
        return None


def grid_of(word: Optional[str]) -> Optional[int]:
    """The word of --grid."""
    if word is not None and re.fullmatch("[1-9][0-9]{0,18}", word) is None:
        raise WordsError(f"--grid {word} is no whole number of 1 or more")
    return None if word is None else int(word)


def part_of(answer: Path, folder: Optional[str]) -> Path:
    """The part that the answer is to."""
    part = answer.with_suffix(".txt")
    return Path(folder) / part.name if folder else part


if __name__ == "__main__":
    sys.exit(main(sys.argv[1:]))
