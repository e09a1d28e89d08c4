"""Operating points from what a kernel or a datasheet tells."""

from __future__ import annotations

from fractions import Fraction
from functools import reduce
from math import gcd
from typing import Iterable, List, NamedTuple, Optional, Sequence, Tuple

from yds._datasheet import Given, Table, shown
from yds._domains import DeviceTree, Domains, Folders, State
from yds._priced import corners
from yds._text import Fault, Line

__all__ = ["Choices", "Measured", "Point", "Points", "Units", "hull", "read", "table"]

MOST_POINTS = 63
MOST_SPEED = 4000
MOST_POWER = 1_000_000
MOST_GRAIN = 1 << 40
"""The gaps of each front's lower hull have a common multiple of at most this."""
ROUND_NUMBERS = [digit * scale for scale in (1, 10, 100, 1000, 10_000, 100_000, 1_000_000) for digit in (1, 2, 5)]
BOM = "\xef\xbb\xbf"

Point = Tuple[int, int]
"""Speed and power, in units of a document."""


class Units(NamedTuple):
    """The units in which points are counted."""

    khz: Optional[int]
    """Kilohertz in a unit of speed; None: 10,000, and of a table the greatest that divides all its speeds, if that fits."""
    microwatts: Fraction
    """Microwatts in a unit of power."""


class Measured(NamedTuple):
    """What was read of one domain: its states at rising frequencies."""

    source: str
    name: str
    states: Sequence[Tuple[Fraction, Fraction]]
    """Kilohertz and microwatts."""
    idle: Optional[Fraction]
    """Microwatts where nothing runs; None where nothing tells them."""
    left_out: Sequence[str]
    """The states that aren't available, and why."""


class Points(NamedTuple):
    """The points, in what units they are, and what is told of them."""

    khz: int
    rows: Sequence[Point]
    told: Sequence[str]


class Choices(NamedTuple):
    """What options say of the input."""

    domain: Optional[str] = None
    idle: Optional[Fraction] = None
    """Microwatts."""
    coefficient: Optional[Fraction] = None
    volts: Optional[Fraction] = None
    milliwatts: Optional[bool] = None
    """Whether an energy model has powers in milliwatts; None where nothing is said."""
    top: Optional[Fraction] = None
    """Microwatts at the fastest of frequencies alone."""


def read(lines: Iterable[Line], choices: Choices = Choices()) -> Measured:
    """The states of a domain, from lines of an energy model, operating points of debugfs, a device tree or a table."""
    domains = Domains()
    folders, tree = Folders(domains, bool(choices.milliwatts)), DeviceTree(domains)
    table = Table(domains, Given(choices.volts, choices.top is not None, choices.idle is not None))
    is_first = True
    for line in lines:
        if is_first and line.text.startswith(BOM):
            line = line._replace(text=line.text[len(BOM) :])
        is_first = False
        if folders.take(line) or tree.take(line) or not line.fields or line.fields[0].startswith("#"):
            continue
        table.take(line)
    name = domains.chosen(choices.domain)
    _check_options(domains.source, choices)
    states = list(domains.states[name].values())
    left_out = [f"{shown(state.khz)} kHz ({state.unavailable})" for state in states if state.unavailable]
    found = _powers(name, [state for state in states if not state.unavailable], choices)
    idle = table.idle if choices.idle is None else choices.idle
    return Measured(domains.source, name, found, idle, left_out)


def _check_options(source: str, choices: Choices) -> None:
    """An option that has no effect on this input would leave the user believing that it had."""
    article = "an" if source[0] in "aeo" else "a"
    for value, name, told, wanted in [
        (choices.top, "--top", "frequencies alone", "cube of speed"),
        (choices.volts, "--volts", "a table of currents", "table"),
        (choices.milliwatts, "--power", "an energy model", "energy model"),
    ]:
        if value is not None and source != wanted:
            raise Fault(f"{name} is for {told}, and this is {article} {source}; leave it out")


def _powers(name: str, states: Sequence[State], choices: Choices) -> List[Tuple[Fraction, Fraction]]:
    """Kilohertz and microwatts of the states, at rising frequencies."""
    if not states:
        raise Fault(f"no state of {name} is available")
    if len(states) > MOST_POINTS:
        raise Fault(f"{len(states)} states are more than {MOST_POINTS}; leave some out")
    used = False
    found = []
    ordered = sorted(states, key=lambda state: state.khz)
    for state in ordered:
        power = state.power
        if choices.top is not None:
            power = choices.top * (state.khz / ordered[-1].khz) ** 3
        elif power is None and state.volt is not None:
            if choices.coefficient is None:
                advice = "give --coefficient, the CPU's dynamic-power-coefficient"
                raise Fault(f"{name} has voltages and no powers; {advice}")
            used = True
            millivolt, megahertz = Fraction(state.volt, 1000), state.khz / 1000
            power = Fraction(int(choices.coefficient * millivolt**2 * megahertz / 10**6))
        if power is None:
            raise Fault(f"{shown(state.khz)} kHz of {name} has neither a power nor a voltage")
        found.append((state.khz, power))
    if choices.coefficient is not None and not used:
        raise Fault(f"--coefficient has no effect: every state of {name} has a power; leave it out")
    return found


def hull(points: Sequence[Point]) -> List[Point]:
    """The points at which the lower hull turns, the first and the last among them.

    >>> hull([(0, 0), (1, 30), (2, 40)])
    [(0, 0), (2, 40)]
    """
    return [points[place] for place in corners(points)]


def table(measured: Measured, units: Units) -> Points:
    """The points of the states, counted in units, and comments on what that has moved and what no plan uses."""
    counting = _Counting(measured, units)
    khz = counting.unit()
    rows = counting.rows(khz)
    counting.check_gaps(khz, rows)
    told = counting.moved(khz, rows)
    told += [] if measured.idle is not None else ["# no idle power is given: idle draws 0"]
    told += _passed_over(rows)
    return Points(khz, rows, told + [f"# left out: {text}" for text in measured.left_out])


def nearest(value: Fraction) -> int:
    """The nearest whole number; a half goes up."""
    return int(value + Fraction(1, 2))


def is_off(rounded: Fraction, exact: Fraction) -> bool:
    """Whether rounding has moved a number by more than a twentieth."""
    return 20 * rounded < 19 * exact or 20 * rounded > 21 * exact


class _Counting:
    """Speeds and powers, counted in units."""

    def __init__(self, measured: Measured, units: Units) -> None:
        self._states = [(Fraction(0), measured.idle or Fraction(0)), *measured.states]
        self._source = measured.source
        self._given = units.khz
        self._watts = units.microwatts

    def unit(self) -> int:
        """Kilohertz in a unit of speed."""
        if self._given is not None:
            return self._given
        common = self._divisor()
        if self._source != "table" or not common or self._states[-1][0] / common > MOST_SPEED:
            return 10000
        rows = [(int(khz / common), nearest(power / self._watts)) for khz, power in self._states]
        return common if gaps_fit(rows) else 10000

    def rows(self, khz: int) -> List[Point]:
        """The points."""
        rows: List[Point] = []
        for place, (exact_speed, exact_power) in enumerate(self._states):
            speed, power = nearest(exact_speed / khz), nearest(exact_power / self._watts)
            name = f"{shown(exact_speed)} kHz"
            if place and speed == rows[-1][0]:
                both = "is" if place == 1 else "and the state below it are both"
                raise Fault(f"{name} {both} speed {speed}; {self._finer()}")
            if speed > MOST_SPEED:
                raise Fault(f"{name} is speed {speed}, above {MOST_SPEED}; {self._coarser()}")
            if power > MOST_POWER:
                above = f"{name} has power {power}, above" if place else f"idle power {power} is above"
                raise Fault(f"{above} {MOST_POWER}; give a coarser --uw")
            rows.append((speed, power))
        for place, ((exact_speed, exact_power), (speed, power)) in enumerate(zip(self._states, rows)):
            if is_off(Fraction(speed * khz), exact_speed):
                moved = f"is speed {speed} in units of {khz} kHz, more than a twentieth off"
                raise Fault(f"{shown(exact_speed)} kHz {moved}; {self._finer()}")
            if is_off(power * self._watts, exact_power):
                has = f"{shown(exact_speed)} kHz has" if place else "idle draws"
                moved = f"{power} units of {shown(self._watts)} uW are more than a twentieth off"
                raise Fault(f"{has} {shown(exact_power / 1000)} mW, and {moved}; {self._finer_power()}")
        return rows

    def moved(self, khz: int, rows: Sequence[Point]) -> List[str]:
        """A comment for each number that the units have moved."""
        told = []
        for place, ((exact_speed, exact_power), (speed, power)) in enumerate(zip(self._states, rows)):
            where = f" at {shown(exact_speed / 1000, 10)} MHz" if place else " idle"
            if speed * khz != exact_speed:
                told.append(
                    f"# rounded: {shown(exact_speed / 1000, 10)} MHz to {shown(Fraction(speed * khz, 1000), 10)} MHz"
                )
            if power * self._watts != exact_power:
                to = f"{shown(power * self._watts / 1000, 10)} mW"
                told.append(f"# rounded: {shown(exact_power / 1000, 10)} mW{where} to {to}")
        return told

    def check_gaps(self, khz: int, rows: Sequence[Point]) -> None:
        """A fault where the gaps between the speeds are too fine for yds_cli."""
        if gaps_fit(rows):
            return
        common = self._divisor()
        advice = f", as --khz {common}, which divides all frequencies" if common > khz else ""
        told = "the gaps between the speeds are too fine (their least common multiple is above 2^40)"
        raise Fault(f"{told}; give a coarser --khz{advice}")

    def _finer(self) -> str:
        found = self._fitting_khz()
        return f"give a finer --khz, as --khz {found}" if found else self._no_khz("fine")

    def _coarser(self) -> str:
        found = self._fitting_khz()
        return f"give a coarser --khz, as --khz {found}" if found else self._no_khz("coarse")

    def _no_khz(self, wanted: str) -> str:
        low, high = shown(self._states[1][0] / 1000), shown(self._states[-1][0] / 1000)
        other = "coarse" if wanted == "fine" else "fine"
        both = f"no --khz is {wanted} enough for it and {other} enough for the others, from {low} to {high} MHz"
        return f"and {both}, {MOST_SPEED} units at most; leave some out"

    def _divisor(self) -> int:
        """The greatest number of kilohertz that divides all frequencies; 0 where one isn't whole."""
        speeds = [khz for khz, _ in self._states]
        return 0 if any(khz.denominator != 1 for khz in speeds) else int(reduce(gcd, [khz.numerator for khz in speeds]))

    def _fitting_khz(self) -> int:
        """What divides all frequencies, or the finest power of ten, or 2 or 5 times one, if that holds them; else 0."""
        for unit in [self._divisor(), *ROUND_NUMBERS]:
            if unit and self._holds(unit):
                return unit
        return 0

    def _holds(self, unit: int) -> bool:
        rows = [(nearest(khz / unit), nearest(power / self._watts)) for khz, power in self._states]
        is_apart = all(one[0] < other[0] for one, other in zip(rows, rows[1:]))
        moved = any(is_off(Fraction(row[0] * unit), khz) for row, (khz, _) in zip(rows, self._states))
        return is_apart and not moved and rows[-1][0] <= MOST_SPEED and gaps_fit(rows)

    def _finer_power(self) -> str:
        """The coarsest unit of power, a power of ten or 2 or 5 times one, that holds all powers."""
        for unit in (digit * Fraction(10) ** places for places in range(6, -7, -1) for digit in (5, 2, 1)):
            counted = [nearest(power / unit) for _, power in self._states]
            off = any(is_off(number * unit, power) for number, (_, power) in zip(counted, self._states))
            if max(counted) <= MOST_POWER and not off:
                return f"give a finer --uw, as --uw {float(unit):g}"
        greatest = shown(self._states[-1][1] / 1000)
        both = f"no --uw is fine enough for it and coarse enough for {greatest} mW"
        return f"and {both}, {MOST_POWER} units at most; leave one of the two out"


def gaps_fit(rows: Sequence[Point]) -> bool:
    """Whether the gaps of each front's lower hull have a common multiple that yds_cli takes."""
    for end in range(2, len(rows) + 1):
        speeds = [rows[place][0] for place in corners(rows[:end])]
        multiple = 1
        for low, high in zip(speeds, speeds[1:]):
            multiple = multiple // gcd(multiple, high - low) * (high - low)
        if multiple > MOST_GRAIN:
            return False
    return True


def _passed_over(rows: Sequence[Point]) -> List[str]:
    """A comment for each point above the lower hull: two others by turns do the same work in the same time for less."""
    kept = corners(rows)
    told = []
    for before, after in zip(kept, kept[1:]):
        (low, low_power), (high, high_power) = rows[before], rows[after]
        for speed, power in rows[before + 1 : after]:
            if (power - low_power) * (high - low) > (high_power - low_power) * (speed - low):
                why = f"since {low} and {high} by turns do the same work in the same time for less energy"
                told.append(f"# never used: point {speed}, {why}")
    return told
