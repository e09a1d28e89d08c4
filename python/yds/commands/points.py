"""yds-points: operating points from what a kernel or a datasheet tells."""

from __future__ import annotations

import re
import sys
from fractions import Fraction
from typing import Callable, Optional, Sequence

from yds._datasheet import NUMBER
from yds._text import lines
from yds._words import DONE, Command, Files, Given, Option, WordsError, run
from yds.points import Choices, Units, read, table

COMMAND = Command(
    "yds-points",
    "operating points from what a kernel or a datasheet tells, as the `point` lines of a document",
    """
    grep -r . /sys/kernel/debug/energy_model | yds-points --domain cpu0 > points.txt

Input, told apart by the form of its lines:

  grep -r . /sys/kernel/debug/energy_model      powers in microwatts (before Linux 6.0: --power mW)
  grep -r . /sys/kernel/debug/opp               u_watt, else by voltage with --coefficient
  a device tree with operating-points-v2        opp-microwatt, else by voltage with --coefficient
  a table, its units in a heading               columns parted by comma, semicolon (then with decimal commas), tab or
                                                space: a frequency, a power or current (also for each MHz, as uA/MHz),
                                                and perhaps the voltage; without a heading MHz and mW, with --volts MHz
                                                and mA
  scaling_available_frequencies, kHz            with --top: the cube of speed, a stand-in for a measured power

Output: the idle point and the points in rising order. Speed in units of --khz kilohertz, power in units of --uw
microwatts, both rounded to the nearest unit, by no more than a twentieth, the idle power too. A comment tells each
number that was rounded: a job that is late at 48 MHz may be in time at 50. Other comments tell that no idle power was
given, and which points no plan uses, since they lie above the lower hull. A trace and its points must use the same
--khz.
""",
    [
        Option("domain", "which of several domains, CPUs or tables of a device tree", "NAME"),
        Option(
            "khz",
            "the unit of speed in kilohertz (10000; of a table the greatest that divides all its frequencies, if the speeds "
            "are at most 4000 of it and no gap is too fine)",
            "N",
        ),
        Option("uw", "the unit of power in microwatts; it may be a decimal, as 0.1 (1000)", "N"),
        Option(
            "idle",
            "the power at speed 0, in milliwatts (a table's line of 0 MHz sets it; else it is 0, as a comment says)",
            "MW",
        ),
        Option(
            "coefficient",
            "dynamic-power-coefficient of the device tree: power is N * mV * mV * MHz / 10^6 microwatts",
            "N",
        ),
        Option("volts", "the voltage of a table of currents, at the supply pin", "V"),
        Option("power", "mW: an energy model of a kernel before 6.0", "mW|uW"),
        Option("top", "the power at the fastest frequency in milliwatts, where frequencies alone are given", "MW"),
    ],
    Files("FILE", 0, None),
    "0 done; 1 a fault in the input; 2 a fault of the words. After both faults `failed` is written, which yds_cli refuses.",
    writes_document=True,
)


def main(words: Sequence[str]) -> int:
    """Writes the points of the files, or of standard input."""
    return run(COMMAND, words, tell)


def tell(given: Given, write: Callable[[str], None]) -> int:
    """Writes the points, and the comments."""
    if given.khz is not None and not re.fullmatch(r"[1-9][0-9]{0,19}", given.khz):
        raise WordsError(f"--khz {given.khz} is no whole number of kilohertz")
    microwatts = number(given, "uw", "microwatts")
    if microwatts == 0:
        raise WordsError(f"--uw {given.uw} is no number of microwatts")
    idle, top = number(given, "idle", "milliwatts"), number(given, "top", "milliwatts")
    if given.power not in (None, "mW", "uW"):
        raise WordsError(f"--power {given.power}: there are mW and uW")
    choices = Choices(
        given.domain,
        None if idle is None else idle * 1000,
        number(given, "coefficient", ""),
        number(given, "volts", "volts"),
        None if given.power is None else given.power == "mW",
        None if top is None else top * 1000,
    )
    measured = read(lines(given.files), choices)
    units = Units(None if given.khz is None else int(given.khz), Fraction(1000) if microwatts is None else microwatts)
    found = table(measured, units)
    name = "" if measured.source in ("table", "cube of speed") else f" {measured.name}"
    power_unit = "1000" if given.uw is None else given.uw
    write(f"# {measured.source}{name}: speed unit {found.khz} kHz, power unit {power_unit} uW")
    for speed, power in found.rows:
        write(f"point {speed} {power}")
    for told in found.told:
        write(told)
    return DONE


def number(given: Given, name: str, of: str) -> Optional[Fraction]:
    """The value of an option that is a decimal."""
    text = getattr(given, name)
    if text is None:
        return None
    if not NUMBER(text):
        raise WordsError(f"--{name} {text} is no number{f' of {of}' if of else ''}")
    return Fraction(text)


if __name__ == "__main__":
    sys.exit(main(sys.argv[1:]))
