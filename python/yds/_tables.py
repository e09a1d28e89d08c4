"""Slots as tables of numbers: what numpy, pandas and matplotlib take."""

from __future__ import annotations

from importlib import import_module
from typing import Any, Dict, Iterable, List, NamedTuple, Optional

from yds._numbers import exact as exact_number
from yds._turns import in_turn, turns_of
from yds.rows import Exact, SlotLike

COLUMNS = ("job", "start", "end", "work", "speed")


class Profile(NamedTuple):
    """The speed over time. From each of the times on, up to the next, it is the speed at the same place.

    Before the first time and from the last time on nothing runs; there and in gaps the speed is 0. Neighbours differ,
    so each time but the first is a change of speed. `pyplot.step(*profile, where="post")` draws it.
    """

    times: List[Any]
    """When the speed changes (units of time), rising: floats, or Fractions where they are asked for."""
    speeds: List[Any]
    """The speed from then on (work per unit of time), as many as times. The last is 0."""


def profile(slots: Iterable[SlotLike], start: Optional[Exact] = None, exact: bool = False) -> Profile:
    """The speed over time of slots of one processor, in any order; from start on, if it is given (units of time).

    The numbers are floats, each the nearest to the exact one; Fractions where exact is True. ValueError is raised where
    slots overlap, or begin before start.

    >>> profile([("b", 2, 4, 3), ("a", 0, 2, 3), ("a", 5, 6, 1)])
    Profile(times=[0.0, 4.0, 5.0, 6.0], speeds=[1.5, 0.0, 1.0, 0.0])
    """
    times, speeds = ([], []) if start is None else ([exact_number(start)], [exact_number(0)])
    for turn in in_turn(slots, start):
        for time, speed in ((turn.start, turn.speed), (turn.end, exact_number(0))):
            if times and times[-1] == time:
                del times[-1], speeds[-1]
            if not speeds or speeds[-1] != speed:
                times.append(time)
                speeds.append(speed)
    return Profile(times, speeds) if exact else Profile([float(time) for time in times], [float(v) for v in speeds])


def columns(slots: Iterable[SlotLike], exact: bool = False) -> Dict[str, List[Any]]:
    """The slots as columns, in the given order: job, start and end (units of time), work, and speed (work per time).

    The numbers are floats, each the nearest to the exact one; Fractions where exact is True. ValueError is raised where
    a slot doesn't end after its start, and has no speed.

    >>> columns([("a", 0, 3, 2)])
    {'job': ['a'], 'start': [0.0], 'end': [3.0], 'work': [2.0], 'speed': [0.6666666666666666]}
    """
    turns = turns_of(slots)
    numbers = [(turn.start, turn.end, turn.work, turn.speed) for turn in turns]
    found: Dict[str, List[Any]] = {"job": [turn.job for turn in turns]}
    for place, column in enumerate(COLUMNS[1:]):
        found[column] = [row[place] if exact else float(row[place]) for row in numbers]
    return found


def to_pandas(slots: Iterable[SlotLike], exact: bool = False) -> Any:
    """The columns as a pandas.DataFrame. ImportError where there is no pandas."""
    try:
        pandas: Any = import_module("pandas")
    except ImportError as fault:
        raise ImportError(f"to_pandas needs pandas ({fault}); columns() has the same numbers as lists") from fault
    return pandas.DataFrame(columns(slots, exact), columns=list(COLUMNS))
