"""yds-misses: all missed deadlines of a document."""

from __future__ import annotations

import sys
from typing import Callable, Sequence

from yds._comments import workless
from yds._lacking import AS_FAR
from yds._program import of_environment
from yds._text import Fault, counted, lines
from yds._words import DONE, NO, OPEN, Command, Files, Given, run
from yds.jobs import misses

COMMAND = Command(
    "yds-misses",
    "all missed deadlines of a document, where `yds_cli audit` tells the first",
    """
Input: a document with jobs and slots or runs, as yds_trace writes it, of any length.

    yds-misses trace.txt

A job has missed its deadline where a slot ends after it (`late slot ..`, the verdict of audit); where its work isn't
done (`work NAME given .. wanted ..`, the verdict of audit; yds_trace writes jobs so that never ended); or where a
comment of yds_trace tells it: jobs that are there without their runs, of which the comment says by how much they were
late, and jobs that were late by less than a unit of time.

Each job is told once, in one line. A late job's line has its last slot and that slot's end: `late slot I JOB END
deadline D, by X` says that the job was done at END, X after its deadline. `by at least X: given .. wanted ..` says that
it wasn't done even then. Where a comment of yds_trace tells a job's end, the line ends with it: `15.004 ms after its
deadline`, or `not ended 13.000 ms after its deadline`, where the trace or its cut ends. END may be from such a comment,
too: of a job whose last run was shorter than a tick.

The last line is the number of missed deadlines, or `feasible`, or the verdict on another fault of the slots. Above it a
comment tells how many jobs have no work, as where all runs of a job are shorter than a unit: these need nothing and are
in time. Numbers are in the document's units. Where its comments tell the trace's clock, `# due at` is the deadline on
it.

Some documents don't show enough for a yes: jobs were left out since their begins or their ends aren't known, a thread
was over with its job, perhaps before its work was, events were lost, or for more than a second no line tells anything,
so that whole jobs may have been there. Comments above the last line say so. Where no deadline is known to be missed,
the last line isn't `feasible` then, but `feasible as far as the trace shows`, and the status is 8.

The verdicts are those of the program that the environment's YDS names, or of the library, or of yds_cli.
""",
    files=Files("DOCUMENT", 0, 1),
    statuses="0 every deadline is met, and nothing is left out that could hide a miss; 1 some aren't, the slots have "
    "another fault, the document is refused, there is no job, or a fault in the input; 2 a fault of the words; 8 every "
    "deadline is met as far as the trace shows.",
)


def main(words: Sequence[str]) -> int:
    """Tells the missed deadlines of the file's document, or of standard input's."""
    return run(COMMAND, words, tell)


def tell(given: Given, write: Callable[[str], None]) -> int:
    """Writes a line for each, and the verdict."""
    found = misses(lines(given.files), of_environment())
    if not found.jobs and found.status == DONE:
        name = given.files[0] if given.files else "standard input"
        raise Fault(f"{name} has no job, so no deadline was met; look at what wrote it")
    for miss in found.missed:
        write(miss.text)
    if found.workless:
        write(workless(len(found.workless), found.workless[0]))
    for text in [*found.unknown.beside_verdict(), *found.lacking.beside_verdict()]:
        write(text)
    if found.status != DONE:
        write(found.verdict or f"audit has no answer, and ended with the status {found.status}")
        return NO
    missed = len(found.missed)
    met = found.verdict + (AS_FAR if found.may_hide else "")
    write(counted(missed, "missed deadline", "missed deadlines") if missed else met)
    return NO if missed else OPEN if found.may_hide else DONE


if __name__ == "__main__":
    sys.exit(main(sys.argv[1:]))
