"""How long a battery lasts with each side of a comparison."""

from __future__ import annotations

from fractions import Fraction
from typing import Dict, List, NamedTuple, Optional, Sequence, Tuple

from yds._text import Fault


class SideEnergy(NamedTuple):
    """What a side spends in a period, and how much of it that counts."""

    side: str
    energy: Optional[Fraction]
    """Power times time; None where the side is too slow."""
    time: Fraction
    """Units of time in which that is spent."""
    misses: str = ""
    """Which deadlines it misses, as 'misses 3'; empty where it misses none."""


class SideHours(NamedTuple):
    """How long a battery lasts with a side."""

    side: str
    milliwatts: Optional[Fraction]
    hours: Optional[Fraction]
    of_plan: Optional[Fraction]
    """The hours in hundredths of the plan's."""
    reason: str
    """Why there are no hours; empty where there are."""


def battery(
    sides: Sequence[SideEnergy], milliwatt_hours: Fraction, period: Fraction, microwatts: Fraction,
    idle_power: int = 0, other: Fraction = Fraction(0),
) -> List[SideHours]:  # fmt: skip
    """The mean power and the hours of each side, the plan among them.

    Its energy is spent again in each period, and for the rest of it, in which nothing runs, the idle power is drawn.
    microwatts is what the unit of power has. other is what the rest of the device draws, in milliwatts.

    >>> sides = [SideEnergy("plan", Fraction(400), Fraction(10)), SideEnergy("flat", Fraction(800), Fraction(10))]
    >>> [(row.side, float(row.hours)) for row in battery(sides, Fraction(660), Fraction(10), Fraction(10))]
    [('plan', 1650.0), ('flat', 825.0)]
    """
    means: Dict[str, Fraction] = {}
    for side in sides:
        if side.energy is not None:
            whole = side.energy + idle_power * (period - side.time)
            means[side.side] = whole / period * microwatts / 1000 + other
    if "plan" not in means:
        raise Fault("no plan among the sides; is this the answer of compare?")
    return [_hours(side, means.get(side.side), milliwatt_hours, means["plan"]) for side in sides]


def _hours(side: SideEnergy, mean: Optional[Fraction], milliwatt_hours: Fraction, plan: Fraction) -> SideHours:
    if mean is None:
        return SideHours(side.side, None, None, None, "too slow")
    if side.misses:
        return SideHours(side.side, None, None, None, side.misses)
    if not mean:
        return SideHours(side.side, mean, None, None, "")
    return SideHours(side.side, mean, milliwatt_hours / mean, plan / mean * 100, "")


class Prices:
    """The points with which the energies were made: those of the document, or of their own file, or of both."""

    def __init__(self) -> None:
        self.points: List[Tuple[int, int]] = []
        self._lists = self._place = 0

    def take(self, speed: int, power: int) -> None:
        """The next point; a second list has to be the first again."""
        if not speed:
            self.finish()
            self._lists, self._place = self._lists + 1, 0
        place = self._place
        self._place += 1
        if self._lists <= 1:
            self.points.append((speed, power))
        elif place >= len(self.points) or self.points[place] != (speed, power):
            before = (
                f"point {self.points[place][0]} {self.points[place][1]}"
                if place < len(self.points)
                else f"{place} points"
            )
            raise Fault(
                f"the points differ: point {speed} {power} here, and {before} before; give the points of one device"
            )

    def finish(self) -> None:
        """Says that a list has ended."""
        if self._lists and self._place < len(self.points):
            told = f"{len(self.points)} of them and then {self._place}"
            raise Fault(f"the points differ: {told}; give the points of one device")

    def check(self, side: SideEnergy, times: Sequence[Tuple[int, Fraction]]) -> None:
        """Whether the side's energy is power times time on these points, but for times rounded to thousandths."""
        powers = dict(self.points)
        for speed, _ in times:
            if speed not in powers:
                made = "give the points with which the energies were made"
                raise Fault(f"no point has the speed {speed} of {side.side}; {made}")
        if side.energy is None:
            return
        spent = sum((powers[speed] * time for speed, time in times), Fraction(0))
        rounding = Fraction(sum(powers[speed] for speed, _ in times) + 1, 2000)
        if len(times) != len(powers) or abs(side.energy - spent) > rounding + side.energy / 10**9:
            told = f"the energy of {side.side} isn't power times time on these points"
            raise Fault(f"{told}; give the points with which the energies were made")
