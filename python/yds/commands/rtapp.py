"""yds-rtapp: an rt-app workload as `task` lines for `yds_cli expand`, or as `job` lines."""

from __future__ import annotations

import re
import sys
from fractions import Fraction
from typing import Callable, Optional, Sequence

from yds._released import Scale, job_lines, task_lines
from yds._text import Fault, lines
from yds._words import DONE, Command, Files, Given, Option, WordsError, run
from yds._workload import instances, number, parsed

COMMAND = Command(
    "yds-rtapp",
    "an rt-app workload as `task` lines for `yds_cli expand`, or with -j as `job` lines",
    """
    yds-rtapp -m 1416 -c 0 workload.json > tasks.txt

Input: the JSON of rt-app, with its comments and commas before closing brackets. `run` is in microseconds at the
frequency to which rt-app was calibrated: give it as -m.

Output: a `horizon` line and a `task` line for each instance of each task: offset (`delay`), period (of the timer),
deadline (`dl-deadline`, else `dl-period`, else the period) and work (run * MHz, rounded up). Time in units of -u
microseconds, work in units of u * k / 1000 cycles. With -j the phases, loops and ends are followed and each period is a
job; times are rounded down. Jobs that begin within the duration and are due after it are left out, as a comment tells:
`# not due by 100000: audio, 1 of 100 jobs, work 12036`. In tasks it is yds-tasks that tells them.
""",
    [
        Option("mhz", "the frequency to which rt-app was calibrated; it has to be given", "MHZ", "-m"),
        Option("us", "the unit of time, in microseconds (10)", "US", "-u"),
        Option("khz", "the unit of speed, in kilohertz (10000)", "KHZ", "-k"),
        Option("cpu", "only the tasks whose `cpus` is just this one", "CPU", "-c"),
        Option("seconds", "in place of the workload's duration", "SECONDS", "-H"),
        Option("jobs", "jobs in place of tasks", "", "-j"),
    ],
    Files("FILE", 0, 1),
    "0 done; 1 a fault in the workload; 2 a fault of the words. After both faults `failed` is written, which yds_cli "
    "refuses.",
    writes_document=True,
)


def main(words: Sequence[str]) -> int:
    """Writes the tasks or jobs of the file's workload, or of standard input's."""
    return run(COMMAND, words, tell)


def tell(given: Given, write: Callable[[str], None]) -> int:
    """Writes the comment, and the lines."""
    if given.mhz is None:
        raise WordsError("no -m MHZ, the frequency to which rt-app was calibrated")
    scale = Scale(whole(given.mhz), whole(given.us or "10"), whole(given.khz or "10000"))
    if given.cpu is not None and not re.fullmatch(r"[0-9]{1,9}", given.cpu):
        raise WordsError(f"-c {given.cpu} is no number of a CPU")
    if given.seconds is not None and not re.fullmatch(r"[0-9]{1,12}(\.[0-9]{0,12})?|\.[0-9]{1,12}", given.seconds):
        raise WordsError(f"-H {given.seconds} is no number of seconds")
    text = "\n".join(line.text for line in lines(given.files)) + "\n"
    workload = parsed(text.encode("latin-1").decode("utf-8", "replace"))
    found = instances(workload, None if given.cpu is None else int(given.cpu))
    seconds = Fraction(given.seconds) if given.seconds is not None else duration(workload)
    if not seconds:
        raise Fault("no duration; give -H SECONDS")
    horizon = seconds * 1_000_000
    shown = f"{float(seconds):.15g}"
    told = job_lines(found, scale, horizon, shown) if given.jobs else task_lines(found, scale, horizon)
    units = f"time unit {scale.us} us, speed unit {scale.khz} kHz, work unit {scale.us * scale.khz // 1000} cycles"
    written = list(told)
    write(f"# rt-app workload: {units}, run at {scale.mhz} MHz")
    for line in written:
        write(line)
    return DONE


def whole(text: str) -> int:
    """The value of a whole number above 0."""
    if not re.fullmatch(r"[1-9][0-9]{0,11}", text):
        raise WordsError(f"'{text}' is no whole number above 0")
    return int(text)


def duration(workload: "dict[str, object]") -> Optional[Fraction]:
    """The seconds that the workload says; None where it says none."""
    settings = workload.get("global")
    found = settings.get("duration") if isinstance(settings, dict) else None
    return None if found is None or (isinstance(found, Fraction) and found <= 0) else number(found, "the duration")


if __name__ == "__main__":
    sys.exit(main(sys.argv[1:]))
