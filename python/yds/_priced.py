"""What slots draw on operating points, in whole numbers over few denominators."""

from __future__ import annotations

from bisect import bisect_left
from fractions import Fraction
from typing import Dict, List, NamedTuple, Sequence, Tuple

from yds._numbers import total
from yds._text import Point, Slot


class Sum:
    """A sum of fractions, kept as one numerator for each denominator."""

    def __init__(self) -> None:
        self._parts: Dict[int, int] = {}

    def add(self, numerator: int, denominator: int) -> None:
        """Adds numerator/denominator."""
        self._parts[denominator] = self._parts.get(denominator, 0) + numerator

    def value(self) -> Fraction:
        """The sum."""
        return total(Fraction(numerator, denominator) for denominator, numerator in self._parts.items())


class Share(NamedTuple):
    """How long a slot is at a point: time numerator/denominator at the point of this place."""

    place: int
    numerator: int
    denominator: int


def corners(points: Sequence[Tuple[int, int]]) -> List[int]:
    """The places of the points at which the lower hull turns, the first and the last among them.

    >>> corners([(0, 0), (1, 10), (2, 20), (3, 90), (4, 100)])
    [0, 2, 4]
    """
    kept: List[int] = []
    for place, (speed, power) in enumerate(points):
        while len(kept) > 1:
            (low, low_power), (middle, middle_power) = points[kept[-2]], points[kept[-1]]
            if (middle_power - low_power) * (speed - middle) < (power - middle_power) * (middle - low):
                break
            kept.pop()
        kept.append(place)
    return kept


class Prices:
    """The points of a document, and how a slot's time is shared among them.

    A slot at a point's speed is at that point. Another is at its two neighbours among the hull's corners, so long at
    each as gives its speed.
    """

    def __init__(self) -> None:
        self.points: List[Tuple[int, int]] = []
        self._place: Dict[int, int] = {}
        self._corners: List[int] = []
        self._speeds: List[int] = []

    def take(self, row: Point) -> None:
        """The next point."""
        if self.points and row.speed <= self.points[-1][0]:
            raise row.line.fault("the points' speeds don't rise", 1)
        if not self.points and row.speed:
            raise row.line.fault(
                f"the first point has the speed {row.speed}; points begin with the power at speed 0", 1
            )
        self._place[row.speed] = len(self.points)
        self.points.append((row.speed, row.power))
        self._corners = []

    @property
    def top(self) -> int:
        """The speed of the last point."""
        return self.points[-1][0]

    def shares(self, slot: Slot) -> List[Share]:
        """How long the slot is at which points; empty where its speed is above the top."""
        length = slot.end - slot.start
        above, below = slot.work * slot.per, slot.grain * length
        speed, rest = divmod(above, below)
        place = None if rest else self._place.get(speed)
        if place is not None:
            return [Share(place, length, slot.per)]
        if above > self.top * below:
            return []
        if not self._corners:
            self._corners = corners(self.points)
            self._speeds = [self.points[corner][0] for corner in self._corners]
        high = bisect_left(self._speeds, speed + 1 if rest else speed)
        low_speed, high_speed = self._speeds[high - 1], self._speeds[high]
        per = slot.grain * slot.per * (high_speed - low_speed)
        return [
            Share(self._corners[high - 1], high_speed * below - above, per),
            Share(self._corners[high], above - low_speed * below, per),
        ]


def speed_text(slot: Slot) -> str:
    """The slot's speed as a decimal of at most six places."""
    return decimal(slot.speed)


def decimal(value: Fraction, places: int = 6) -> str:
    """The number with at most so many places; what isn't 0 is never written as 0.

    >>> decimal(Fraction(7, 3)), decimal(Fraction(-1, 10**9)), decimal(Fraction(4))
    ('2.333333', '-0.000001', '4')
    """
    if value < 0:
        return "-" + decimal(-value, places)
    scale = 10**places
    units = round(value * scale)
    if not units and value:
        units = 1
    above, rest = divmod(units, scale)
    return f"{above}.{rest:0{places}d}".rstrip("0").rstrip(".") if rest else str(above)
