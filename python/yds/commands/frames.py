"""yds-frames: the document of a trace with the job lines of an application in the place of its own."""

from __future__ import annotations

import re
import sys
from fractions import Fraction
from typing import Callable, Dict, Optional, Sequence

from yds._frames import Frames, Trace, document, read_frames, read_trace
from yds._text import Fault, lines
from yds._words import DONE, Command, Files, Given, Option, WordsError, run

COMMAND = Command(
    "yds-frames",
    "the document of a trace with the job lines of an application in the place of its own",
    """
    yds_trace --khz 1000 --from 5123.400623456 --tasks decode:16.667,audio:10 < report.txt > trace.txt
    yds-frames --jobs frames.txt --us 1000 --khz 1000 trace.txt > document.txt

An application may know its frames: when each is released, when it is due, and how much work it has. FILE has a line
`job NAME.K RELEASE DEADLINE WORK` for each, in units of its own: where no comment of it tells them, as `# time unit
1000 us, speed unit 1000 kHz`, give --us and --khz. The trace's document may be in finer units of time, and has to be in
the same unit of speed.

Input: the document of a trace, as yds_trace writes it, with its comments. Output: the lines of FILE; the runs of the
trace, of which those of a task's k-th job from time 0 on, counted from 0, are NAME.k's, or NAME's where FILE has no
NAME.k; and comments. The deadlines that yds_trace was given count no more: what its comments tell of ends is told anew,
by FILE's deadlines. A time by which a job is late is then a least one, since the trace's times are rounded.

  # left out: decode.7 (events lost); window 117 134        its runs aren't here
  # left out: 3 jobs of audio (not in frames.txt), ..       these neither: FILE has no line for them
  # 2 jobs of frames.txt have no run here, ..               unless their work is 0, `audit` says so
  # 1 job begins outside of its window, ..                  the runs may be another's: look at time 0
  # 1 job ends in the tick of its deadline, ..              whether it is late by less than a tick isn't known

Which job of a task is the first at or after time 0 has to be known. Where the comments leave it open, as where jobs
before it were lost, that is a fault, and --first says it.
""",
    [
        Option("jobs", "the file of the application's job lines", "FILE"),
        Option("zero", "FILE's time 0 in seconds of the trace's clock; the trace's own time 0 without it", "SECONDS"),
        Option("us", "microseconds in FILE's unit of time", "N"),
        Option("khz", "kilohertz in FILE's unit of speed: its works are in units of N(us) * N(khz) / 1000 cycles", "N"),
        Option("first", "the first job of a task at or after time 0, as decode.3; several parted by commas", "NAME.K"),
    ],
    Files("TRACE", 0, 1),
    "0 done; 1 a fault in the input; 2 a fault of the words. After both faults `failed` is written, which yds_cli refuses.",
    writes_document=True,
)


def main(words: Sequence[str]) -> int:
    """Writes the document of the file's trace, or of standard input's."""
    return run(COMMAND, words, tell)


def tell(given: Given, write: Callable[[str], None]) -> int:
    """Writes its lines."""
    if given.jobs is None:
        raise WordsError("no --jobs FILE is given")
    firsts = asked(given.first)
    frames = read_frames(lines([given.jobs]), given.jobs)
    us = unit(frames.us, given.us, "us", "time")
    khz = unit(frames.khz, given.khz, "khz", "speed")
    trace = read_trace(lines(given.files))
    if khz != trace.khz:
        raise Fault(
            f"a unit of speed of {khz} kHz in {given.jobs} and of {trace.khz} kHz in the trace; give both the same"
        )
    for line in document(trace, frames, us, time_0(given.zero, trace), firsts):
        write(line)
    return DONE


def asked(words: Optional[str]) -> Dict[str, int]:
    """The numbers of --first."""
    found = {}
    for word in words.split(",") if words else []:
        task, _, number = word.rpartition(".")
        if not task or not re.fullmatch("[0-9]{1,9}", number):
            raise WordsError(f"--first {word} is no name and number, as decode.3")
        found[task] = int(number)
    return found


def unit(told: Optional[Fraction], word: Optional[str], name: str, kind: str) -> Fraction:
    """The unit that a comment tells, or the word does."""
    if word is None:
        if told is None:
            raise WordsError(f"no comment of the jobs tells their unit of {kind}; give --{name}")
        return told
    if not re.fullmatch("[1-9][0-9]{0,11}", word):
        raise WordsError(f"--{name} {word} is no whole number of 1 or more")
    if told is not None and told != int(word):
        raise WordsError(f"--{name} {word}, and the jobs' own unit of {kind} is {told}; leave the option out")
    return Fraction(word)


def time_0(word: Optional[str], trace: Trace) -> Fraction:
    """The time 0 of the jobs in units of the trace's time."""
    if word is None:
        return Fraction(0)
    if not re.fullmatch(r"[0-9]{1,12}(\.[0-9]{1,9})?", word):
        raise WordsError(f"--zero {word} is no number of seconds, with at most nine decimals")
    seconds, nano = trace.clock.zero or (0, 0)
    return (Fraction(word) * 10**9 - seconds * 10**9 - nano) / 1000 / (trace.clock.unit or 1)


if __name__ == "__main__":
    sys.exit(main(sys.argv[1:]))
