"""yds-battery: how long a battery lasts with each side of a comparison."""

from __future__ import annotations

import re
import sys
from fractions import Fraction
from typing import Callable, Dict, List, Optional, Sequence, Tuple

from yds._comments import (
    BESIDE,
    IN_NO_LINE,
    NOT_ENDED,
    WITHOUT_RUNS,
    left_out_of,
    moved_of,
    period_of,
    unknown_works,
    with_moved,
    without_runs,
)
from yds._heads import closing
from yds._hours import Prices, SideEnergy, SideHours, battery
from yds._priced import decimal
from yds._spelling import read_fraction
from yds._text import Comment, Fault, Job, Line, Other, Point, Rows, lines
from yds._words import DONE, Command, Files, Given, Option, WordsError, run

COMMAND = Command(
    "yds-battery",
    "how long a battery lasts with each side of a comparison",
    """
Input: lines of `yds_cli compare`, with lines of yds-energy before or after them, and before them the document or its
points.

    yds-tasks tasks.txt > jobs.txt
    yds-join points.txt jobs.txt > device.txt
    yds_cli compare --grid 1000 < device.txt > energies.txt
    yds-battery --mah 220 --volts 3.0 device.txt energies.txt

The power is each side's mean over the period, for ever: its energy, and for the rest of the period, after the last
deadline and before the first release, the power of the first point. The period is that of the document's comment
`# period N`, which yds-tasks writes, or --period. Without one there are no hours: energies count from the first release
to the last deadline, and how long nothing runs after that isn't known.

Output: a table parted by tabs: side, milliwatts, hours, and the hours in hundredths of the plan's; a side that misses
deadlines, as yds-energy tells, has no hours. Comments below it tell of jobs whose energy, or part of whose energy, is
in no line. The points have to be those of the energies: each side's energy is power times time on them, and its lines
have their speeds. So have the jobs, where there are some: each side takes the time from their first release to their
last deadline, and does their work. The energies of a part are those of no period.
""",
    [
        Option("mah", "milliampere-hours of the battery", "N"),
        Option("volts", "its voltage", "V"),
        Option(
            "period", "after how many units of time all begins again, where no comment of the document tells it", "N"
        ),
        Option(
            "uw",
            "microwatts in the document's unit of power, where no comment of the points before the lines tells it",
            "N",
        ),
        Option("other", "what the rest of the device draws, in milliwatts (0)", "MW"),
    ],
    Files("FILE", 0, None),
)
_DECIMAL = re.compile(r"[0-9]{1,20}\.?[0-9]{0,20}|\.[0-9]{1,20}").fullmatch
_FRACTION = re.compile(r"[0-9]{1,30}(\+[0-9]{1,30}/[1-9][0-9]{0,29})?").fullmatch
_MISSES = re.compile(r"# ([^ ]+) (misses [0-9]+) deadlines?, ").match
_PASSED_ON = re.compile(rf"# (part [0-9]+: )?(?:{BESIDE})").match


def main(words: Sequence[str]) -> int:
    """Tells the hours of the sides in the files, or in standard input."""
    return run(COMMAND, words, tell)


def tell(given: Given, write: Callable[[str], None]) -> int:
    """Writes the table, and the comments."""
    numbers = {name: number(given, name) for name in ("mah", "volts", "period", "uw", "other")}
    mah, volts = numbers["mah"], numbers["volts"]
    if not mah or not volts:
        raise WordsError("--mah and --volts of the battery are numbers above 0")
    for name in ("period", "uw"):
        if numbers[name] == 0:
            raise WordsError(f"--{name} 0 is no number above 0")
    reading = Reading()
    reading.read(Rows(lines(given.files)))
    sides = reading.sides()
    unit = reading.unit(numbers["uw"])
    if not any(side.side == "plan" and side.energy is not None for side in sides):
        raise Fault("no plan among the sides; is this the answer of compare?")
    period = reading.period(numbers["period"])
    reading.check(sides, period)
    points = reading.prices.points
    rows = battery(sides, mah * volts, period, unit, points[0][1] if points else 0, numbers["other"] or Fraction(0))
    write("side\tmilliwatts\thours\tof plan (%)")
    for row in rows:
        write("\t".join(cells(row)))
    for line in reading.caveats():
        write(line)
    return DONE


def number(given: Given, name: str) -> Optional[Fraction]:
    """The value of an option that is a decimal."""
    text = getattr(given, name)
    if text is None:
        return None
    if not _DECIMAL(text):
        raise WordsError(f"--{name} {text} is no number of 0 or more")
    return Fraction(text)


def cells(row: SideHours) -> List[str]:
    """A side's row."""
    if row.milliwatts is None:
        return [row.side, row.reason, "-", "-"]
    if row.hours is None or row.of_plan is None:
        return [row.side, "0.000", "-", "-"]
    return [row.side, f"{float(row.milliwatts):.3f}", f"{float(row.hours):.1f}", f"{float(row.of_plan):.1f}"]


class Reading:
    """The sides, the points, and what comments tell."""

    def __init__(self) -> None:
        self.prices = Prices()
        self._rows = Rows()
        self._sides: Dict[str, Optional[Fraction]] = {}
        self._times: Dict[str, List[Tuple[int, Fraction]]] = {}
        self._jobs: List[Tuple[int, int, int]] = []
        self._misses: Dict[str, str] = {}
        self._period: Optional[int] = None
        self._no_period = ""
        self._caveats: Dict[str, None] = {}
        self._noted: Dict[str, None] = {}
        self._moved: Dict[str, None] = {}

    def read(self, rows: Rows) -> None:
        """Reads all rows."""
        self._rows = rows
        for row in rows:
            if isinstance(row, Comment):
                self._take_comment(row)
            elif isinstance(row, Point):
                try:
                    self.prices.take(row.speed, row.power)
                except Fault as fault:
                    raise row.line.fault(fault.told) from None
            elif isinstance(row, Job):
                self._jobs.append((row.release, row.deadline, row.work))
            elif isinstance(row, Other):
                self._take_line(row.line, row.fields)
        self.prices.finish()

    def _take_line(self, line: Line, fields: Sequence[str]) -> None:
        if len(fields) == 3 and fields[1] == "energy":
            self._add(line, fields[0], self._value(line, fields, 2))
        elif len(fields) > 2 and fields[1] == "too-slow":
            self._add(line, fields[0], None)
        elif len(fields) == 4 and fields[1] == "time":
            if not fields[2].isdigit() or len(fields[2]) > 30:
                raise line.fault(f"{fields[2]} is no speed", 2)
            self._times.setdefault(fields[0], []).append((int(fields[2]), self._value(line, fields, 3)))
        elif len(fields) > 1 and fields[1] in ("energy", "time"):
            raise line.fault(f"a line of {fields[1]} needs NAME {fields[1]} and its numbers", len(fields))

    def _value(self, line: Line, fields: Sequence[str], place: int) -> Fraction:
        if not _FRACTION(fields[place]):
            raise line.fault(f"{fields[place]} is no number of {fields[0]}", place)
        return read_fraction(fields[place].encode("latin-1"))

    def _add(self, line: Line, side: str, energy: Optional[Fraction]) -> None:
        if side in self._sides:
            raise line.fault(f"the side {side} stands twice; write its lines into a new file", 0)
        self._sides[side] = energy

    def _take_comment(self, comment: Comment) -> None:
        text = comment.text
        period, misses, closed, moved = period_of(comment), _MISSES(text), closing(text), moved_of(text)
        if moved is not None:
            self._moved[moved[0]] = None
        elif period is not None:
            if self._period not in (None, period):
                raise comment.line.fault(f"the period {period} here and {self._period} before; give one document", 2)
            self._period = period
        elif text.startswith("# no period: "):
            self._no_period = text[2:]
        elif misses is not None:
            self._misses[misses.group(1)] = misses.group(2)
        elif closed is not None and closed.left_out:
            self._caveats["# " + left_out_of(closed.left_out)] = None
        elif text.startswith((f"# {WITHOUT_RUNS}: ", f"# {NOT_ENDED}: ")):
            self._noted[text] = None
        elif _PASSED_ON(text):
            is_told = not text.startswith("# not due by ") or text.endswith(IN_NO_LINE)
            self._caveats[text if is_told else text + IN_NO_LINE] = None

    def sides(self) -> List[SideEnergy]:
        """The sides in the order of their lines."""
        if not self._sides:
            raise Fault("no energy line; is this the answer of compare?")
        return [
            SideEnergy(
                name,
                energy,
                sum((time for _, time in self._times.get(name, [])), Fraction(0)),
                self._misses.get(name, ""),
            )
            for name, energy in self._sides.items()
        ]

    def unit(self, given: Optional[Fraction]) -> Fraction:
        """Microwatts in the unit of power."""
        told = self._rows.units.value("power")
        if given is not None and told is not None and given != told:
            raise WordsError(
                f"--uw {decimal(given)}, and the points' unit of power is {decimal(told)} uW; leave the option out"
            )
        found = told if given is None else given
        if not found:
            raise WordsError("no unit of power; give --uw, or the file of points with its comment before the lines")
        return found

    def period(self, given: Optional[Fraction]) -> Fraction:
        """After how many units of time all begins again."""
        told = self._period
        if given is None and told is None:
            reason = f" ({self._no_period})" if self._no_period else ""
            advice = "give --period, after how many units of time all begins again, or the document of yds-tasks"
            raise WordsError(f"no period is told{reason}; {advice}, which tells it, before the lines")
        if given is not None and told is not None and given != told:
            raise WordsError(f"--period {decimal(given)}, and the document's is {told}; leave the option out")
        found = Fraction(told) if given is None and told is not None else given
        if not found:
            raise Fault("the document's period is 0")
        return found

    def check(self, sides: Sequence[SideEnergy], period: Fraction) -> None:
        """Whether the points are those of the energies, and whether the sides fit into the period."""
        points = self.prices.points
        for side in sides:
            times = self._times.get(side.side, [])
            if side.energy is None:
                continue
            if side.time <= 0:
                raise Fault(f"the side {side.side} has no time; give its time lines too")
            if points:
                self.prices.check(side, times)
            if side.misses:
                continue
            takes = f"the side {side.side} takes {decimal(side.time)}"
            if side.time > period + Fraction(len(points) + 1, 1000):
                raise Fault(f"{takes} units of time, and the period is {decimal(period)}")
            if not points and side.time < period - Fraction(len(times), 1000):
                advice = "give the points before the lines, whose first has the power of the rest"
                raise Fault(f"{takes} of the {decimal(period)} units of time of the period; {advice}")
            self._check_jobs(side.time, times, f"the side {side.side}")

    def _check_jobs(self, time: Fraction, times: Sequence[Tuple[int, Fraction]], side: str) -> None:
        """Whether a side takes the time and does the work of all jobs of the document: a part's takes less."""
        if not self._jobs:
            return
        span = max(deadline for _, deadline, _ in self._jobs) - min(release for release, _, _ in self._jobs)
        work = sum((speed * units for speed, units in times), Fraction(0))
        all_work = sum(work for _, _, work in self._jobs)
        all_of_them = "give the energies of all of these jobs"
        if abs(time - span) > Fraction(len(times), 1000) + Fraction(span, 10**6):
            told = f"the document's jobs {span}, from the first release to the last deadline"
            raise Fault(f"{side} takes {decimal(time)} units of time, and {told}; {all_of_them}")
        if abs(work - all_work) > Fraction(sum(speed for speed, _ in times), 1000) + Fraction(all_work, 10**6):
            told = f"the document's jobs have {all_work}"
            raise Fault(f"{side} does {decimal(work)} units of work, and {told}; {all_of_them}")

    def caveats(self) -> List[str]:
        """What is told of energy that is in no line."""
        told = list(self._caveats)
        late = sum(text.startswith(f"# {WITHOUT_RUNS}: ") for text in self._noted)
        told += [without_runs(late)] if late else []
        if self._noted:
            first = next(iter(self._noted)).split(": ", 1)[1].split(" ")[0].rstrip(",")
            told.append("# " + unknown_works(len(self._noted), first))
        told += [with_moved(len(self._moved))] if self._moved else []
        return list(dict.fromkeys(told))


if __name__ == "__main__":
    sys.exit(main(sys.argv[1:]))
