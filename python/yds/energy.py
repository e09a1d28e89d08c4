"""What a schedule spends: power times time, exactly.

A power is one of these:

  an exponent   the power at a speed is speed ** exponent. The energy is exact where the exponent is an int, and a float
                where it is a float. Time in which nothing runs costs nothing.
  a table       rows of speed and power, as a document's points: the first of speed 0, at rising speeds. Time in which
                nothing runs draws the power of the first. A slot draws what the two points of the table's lower hull
                around its speed draw, so long at each as gives that speed.

A point above the lower hull draws more than its two neighbours for the same work. A slot at just its speed may be a run
at that point, or a mix of the neighbours. Where `by` doesn't say which, that slot is refused.
"""

from __future__ import annotations

from fractions import Fraction
from typing import Iterable, Optional, overload

from yds._changes import Changes, changes
from yds._hours import SideHours, battery
from yds._numbers import exact
from yds._powers import By, Energy, Power, Span, Table, of_spans
from yds._served import AtSpeed, at_speed
from yds._turns import in_turn
from yds.rows import Exact, SlotLike

__all__ = [
    "AtSpeed",
    "By",
    "Changes",
    "Energy",
    "Power",
    "SideHours",
    "Table",
    "at_speed",
    "battery",
    "changes",
    "of_slots",
]


@overload
def of_slots(
    slots: Iterable[SlotLike], power: int, start: Optional[Exact] = None, end: Optional[Exact] = None
) -> Fraction:
    ...


@overload
def of_slots(
    slots: Iterable[SlotLike], power: float, start: Optional[Exact] = None, end: Optional[Exact] = None
) -> float:
    ...


@overload
def of_slots(
    slots: Iterable[SlotLike],
    power: Table,
    start: Optional[Exact] = None,
    end: Optional[Exact] = None,
    by: By = None,
) -> Fraction:
    ...


def of_slots(
    slots: Iterable[SlotLike],
    power: Power,
    start: Optional[Exact] = None,
    end: Optional[Exact] = None,
    by: By = None,
) -> Energy:
    """What the slots spend, and the time from start to end (units of time) in which nothing runs.

    The slots are rows of job, start, end and work, in any order. Whether they meet deadlines isn't asked here:
    `yds.schedule.judge` says it. by is for a table: 'hull' says that a slot's speed is a mix of points of the lower
    hull, 'points' that each slot runs at a point of the table and draws its power.

    ValueError is raised where slots overlap, or don't lie between start and end; where a speed is above the table's
    last, or at a point above the hull and by says nothing; and where time in which nothing runs draws power, but start
    or end isn't said.

    >>> slots = [("a", 0, 2, 2), ("b", 2, 4, Fraction(8, 3))]
    >>> of_slots(slots, 3), round(of_slots(slots, 2.5), 3)
    (Fraction(182, 27), 6.106)
    >>> of_slots(slots, [(0, 1), (1, 2), (2, 5)], start=0, end=5)
    Fraction(11, 1)
    """
    turns = in_turn(slots, start, end)
    spans = [Span(f"slots[{turn.place}]", turn.work, turn.length) for turn in turns]
    return of_spans(spans, power, None if start is None or end is None else exact(end) - exact(start), by)
