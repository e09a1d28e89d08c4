"""How often a schedule changes the speed, and how often it wakes."""

from __future__ import annotations

from typing import Iterable, NamedTuple, Optional, Tuple

from yds._text import Line, Slot
from yds._turns import in_turn
from yds.rows import SlotLike


class Changes(NamedTuple):
    """The counts of a schedule."""

    slots: int
    changes: int
    """How often the speed becomes another one; where nothing runs it is 0, before the first slot and after the last too."""
    wakes: int
    """How many of these begin to run after such time."""


class Counting:
    """The counts so far, of slots in the order of their times."""

    def __init__(self) -> None:
        self._slots = self._changes = self._wakes = 0
        self._end: Optional[Tuple[int, int]] = None
        self._speed = (0, 1)

    def take(self, slot: Slot) -> None:
        """The next slot; a fault where it begins before the one above it has ended."""
        if self._end is not None:
            gap = slot.start * self._end[1] - self._end[0] * slot.per
            if gap < 0:
                advice = "sort them, or see what yds_cli audit says"
                raise slot.line.fault(f"it begins before the {slot.kind} above it has ended; {advice}", 2)
            if gap and self._speed[0]:
                self._changes += 1
                self._speed = (0, 1)
        speed = slot.work * slot.per, slot.grain * (slot.end - slot.start)
        if speed[0] * self._speed[1] != self._speed[0] * speed[1]:
            self._changes += 1
            self._wakes += not self._speed[0]
        self._speed, self._end = speed, (slot.end, slot.per)
        self._slots += 1

    def counts(self) -> Changes:
        """All counts."""
        return Changes(self._slots, self._changes + bool(self._speed[0]), self._wakes)


def changes(slots: Iterable[SlotLike]) -> Changes:
    """The counts of slots in any order, each job, start, end and work.

    >>> changes([("a", 0, 2, 2), ("b", 2, 3, 4), ("a", 5, 6, 4)])
    Changes(slots=3, changes=5, wakes=2)
    """
    counting = Counting()
    for turn in in_turn(slots):
        per = turn.start.denominator * turn.end.denominator
        start, end = int(turn.start * per), int(turn.end * per)
        line = Line("slots", turn.place, "")
        counting.take(Slot(line, "slot", turn.job, start, end, per, turn.work.numerator, turn.work.denominator))
    return counting.counts()
