"""yds-jobs: the table of a document's jobs."""

from __future__ import annotations

import re
import sys
from fractions import Fraction
from math import inf
from typing import Callable, List, Optional, Sequence, Tuple

from yds._comments import workless
from yds._priced import decimal
from yds._text import Fault, Rows, counted, lines
from yds._words import DONE, Command, Files, Given, Option, WordsError, run
from yds.jobs import JobRow, Jobs, Moved, Number, late_moved, table

COMMAND = Command(
    "yds-jobs",
    "the table of a document's jobs: when each was released and due, when it began and ended, how late it was",
    """
Input: a document with jobs and slots or runs, as of yds_trace, or of yds_cli plan, round, avr or oa; with points for
the energies.

    yds-jobs trace.txt
    yds-jobs --zero trace --form csv points.txt trace.txt > jobs.csv

Output, a row for each job in the document's order: release, deadline; begin and end of its slots; response, the time
from release to end; slack, the time from end to deadline, below 0 where the job is late; late, by how much; energy of
its slots. Idle time belongs to no job. A slot at a point's speed draws that point's power; another draws that of the
neighbours on the points' lower hull, by time. All in the document's units, fractions as decimals with at most six
places; what isn't 0 is never rounded to 0.

A job whose slots give less than its work hasn't ended: its end is `never` (in CSV inf), its response and its lateness
inf. Where the first or last run is too short to be in the document, begin and end are those that a comment of yds_trace
tells. A late job that yds_trace has without its runs has the end and the lateness that the comment below its line
tells. Jobs that yds_trace left out, and that admit refused, follow where their comments stand, with the reason in
brackets after the name and what is known of them.

What isn't known, and the energy without points, is `-`, in CSV nothing. A job of no work needs no slot: it ends at its
release. Comments above the table tell of jobs without work, of places where events were lost, and of a time of which no
line of the trace tells: whole jobs may have been there.

Where one job couldn't have met its deadline at any speed, `too-slow` is the answer to the whole document. With
--late-moved the document itself is written, so that plans have as long for a late job as it took:

    yds-jobs --late-moved points.txt late.txt > moved.txt

  job decode.2 3483 5319 256000          it ended at 5319, rounded up to a unit; its deadline was 5150
  # deadline moved: decode.2 by 169
  # 1 deadline is moved to where the job ended, the first that of decode.2        the last line

A job that hadn't ended where the trace ends has that as its deadline. `audit` knows nothing of what was moved.
yds-misses and yds-jobs read the comments: to them the job is as late as it was. yds-energy says beside each energy that
deadlines were moved.
""",
    [
        Option(
            "form", "csv: commas between the columns job,release,deadline,begin,end,response,slack,late,energy", "csv"
        ),
        Option(
            "zero",
            "trace: release, deadline, begin and end in seconds of the trace's clock, from the comments of yds_trace, and "
            "response, slack and late in milliseconds; seconds: the same where there are no comments, time 0 is then",
            "trace|SECONDS",
        ),
        Option("us", "microseconds in a unit of time, where no comment tells them", "N"),
        Option("late-moved", "not the table: the document, with each late job's deadline moved to where it ended"),
    ],
    Files("DOCUMENT", 0, None),
)
_MOVED = re.compile(r"# (?:no|[0-9]+) deadlines? (?:is|are) moved").match
COLUMNS = ["job", "release", "deadline", "begin", "end", "response", "slack", "late", "energy"]


def main(words: Sequence[str]) -> int:
    """Writes the table of the files' jobs, or of standard input's."""
    return run(COMMAND._replace(writes_document="--late-moved" in words), words, tell)


def tell(given: Given, write: Callable[[str], None]) -> int:
    """Writes the table."""
    if given.form not in (None, "text", "csv"):
        raise WordsError(f"--form {given.form}: there is --form csv")
    if given.zero not in (None, "trace") and not re.fullmatch(r"[0-9]{1,12}(\.[0-9]*)?", given.zero):
        raise WordsError(f"--zero {given.zero} is no number of seconds")
    if given.us is not None and not re.fullmatch(r"[1-9][0-9]{0,11}", given.us):
        raise WordsError(f"--us {given.us} is no whole number of microseconds")
    microseconds = None if given.us is None else int(given.us)
    if given.late_moved:
        if given.form is not None or given.zero is not None:
            raise WordsError("--late-moved writes a document: leave --form and --zero out")
        for line in moved(late_moved(lines(given.files), microseconds)):
            write(line)
        return DONE
    found = table(Rows(lines(given.files)), microseconds)
    shown = Shown(found, given.zero, given.form == "csv")
    for line in shown.csv() if given.form == "csv" else shown.text():
        write(line)
    return DONE


def moved(found: Moved) -> List[str]:
    """The lines of the document, and how many deadlines were moved."""
    told = [line for line in found.lines if not _MOVED(line)]
    if found.moved:
        are = counted(len(found.moved), "deadline is", "deadlines are")
        told.append(f"# {are} moved to where the job ended, the first that of {found.moved[0]}")
    else:
        told.append("# no deadline is moved: no job is known to be late")
    if found.unended:
        had = f"{len(found.unended)} of these jobs hadn't ended"
        told.append(f"# {had}: there the deadline is where the last is known of it; the first is {found.unended[0]}")
    if found.undone:
        jobs = counted(
            len(found.undone), "job isn't done, and its deadline stays", "jobs aren't done, and their deadlines stay"
        )
        told.append(f"# {jobs}, the first {found.undone[0]}")
    return told


class Shown:
    """The table's cells as texts."""

    def __init__(self, found: Jobs, zero: Optional[str], is_csv: bool) -> None:
        self._found = found
        self._is_csv = is_csv
        self._unit = found.clock.unit
        self._zero: Optional[Tuple[int, int]] = None
        if zero is not None:
            self._zero = found.clock.zero if zero == "trace" else seconds(zero)
            if self._zero is None:
                raise Fault("no comment tells time 0 of the trace; give --zero SECONDS")
            if not self._unit:
                raise Fault("no comment tells the unit of time; give --us")

    def csv(self) -> List[str]:
        """The lines with commas."""
        rows = [self._cells(row) for row in self._found.rows]
        return [",".join(COLUMNS), *(",".join([quoted(row[0]), *row[1:]]) for row in rows)]

    def text(self) -> List[str]:
        """The lines in columns, and what stands above them."""
        rows = [COLUMNS, *([cell or "-" for cell in self._cells(row)] for row in self._found.rows)]
        widths = [max(len(row[place]) for row in rows) for place in range(len(COLUMNS))]
        told = []
        if self._zero is not None:
            clock = "release, deadline, begin and end in seconds of the trace's clock"
            told.append(f"# {clock}; response, slack and late in milliseconds")
        elif self._unit:
            told.append(f"# times in units of {self._unit} us")
        if self._found.workless:
            told.append(workless(len(self._found.workless), self._found.workless[0]))
        told += [*self._found.unknown.of_exits(), *self._found.lacking.beside_verdict()]
        return told + [
            "".join([row[0].ljust(widths[0]), *(cell.rjust(width + 2) for cell, width in zip(row[1:], widths[1:]))])
            for row in rows
        ]

    def _cells(self, row: JobRow) -> List[str]:
        name = f"{row.job} (left out: {row.left_out})" if row.left_out else row.job
        late = self._duration(row.late)
        late = f">={late}" if row.at_least and late and not self._is_csv else late
        moments = [self._moment(time) for time in (row.release, row.deadline, row.begin, row.end)]
        energy = "" if row.energy is None else decimal(row.energy)
        return [name, *moments, self._duration(row.response), self._duration(row.slack), late, energy]

    def _moment(self, time: Optional[Number]) -> str:
        """A time in units, or in seconds of the trace's clock, cut to microseconds."""
        if time is None:
            return ""
        if time == inf:
            return "inf" if self._is_csv else "never"
        exact = Fraction(time)
        if self._zero is None or self._unit is None:
            return decimal(exact)
        nano = exact * self._unit * 1000
        whole = int(nano + Fraction(1, 2)) if nano >= 0 else -int(-nano + Fraction(1, 2))
        micro = (self._zero[0] * 10**9 + self._zero[1] + whole) // 1000
        return f"{micro // 10**6}.{micro % 10**6:06d}"

    def _duration(self, time: Optional[Number]) -> str:
        if time is None:
            return ""
        if time in (inf, -inf):
            return "inf" if time > 0 else "-inf"
        exact = Fraction(time)
        return decimal(exact if self._zero is None or self._unit is None else exact * self._unit / 1000)


def seconds(text: str) -> Tuple[int, int]:
    """Seconds and nanoseconds."""
    whole, _, rest = text.partition(".")
    return int(whole), int(rest[:9].ljust(9, "0"))


def quoted(text: str) -> str:
    """A cell of CSV."""
    return '"' + text.replace('"', '""') + '"' if '"' in text or "," in text else text


if __name__ == "__main__":
    sys.exit(main(sys.argv[1:]))
