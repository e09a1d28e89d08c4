"""Slots of one processor, in the order of their times."""

from __future__ import annotations

from fractions import Fraction
from itertools import count, repeat
from typing import Any, Iterable, List, NamedTuple, Optional, Sequence

from yds import _fractions
from yds._forms import FOREIGN_SLOTS
from yds._numbers import exact
from yds._slots import Columns
from yds.rows import Exact, Slot, SlotLike


class Turn(NamedTuple):
    """A slot in its turn: its place in the given list, its job, when and how long it runs, and how much it gives."""

    place: int
    job: str
    start: Fraction
    end: Fraction
    work: Fraction
    length: Fraction

    @property
    def speed(self) -> Fraction:
        """Work per unit of time."""
        return _fractions.quotient(self.work, self.length)


def turns_of(slots: Iterable[SlotLike], start: Optional[Exact] = None, end: Optional[Exact] = None) -> List[Turn]:
    """The slots in the given order; ValueError where one doesn't end after its start, or lies outside start and end."""
    turns = _turns(Columns.of(FOREIGN_SLOTS, slots))
    _check(turns, None if start is None else exact(start), None if end is None else exact(end))
    return turns


def in_turn(slots: Iterable[SlotLike], start: Optional[Exact] = None, end: Optional[Exact] = None) -> List[Turn]:
    """The slots in the order of their times; ValueError where they aren't one at a time, or not from start to end."""
    return _ordered(turns_of(slots, start, end))


def own_in_turn(slots: Sequence[Slot]) -> List[Turn]:
    """The same of slots that a document has: their numbers are Fractions."""
    turns = _turns(Columns(*zip(*slots)))
    _check(turns, None, None)
    return _ordered(turns)


def _turns(columns: Columns) -> List[Turn]:
    """The rows of these columns, in their order."""
    starts, ends, works = (_fractions.of_numbers(numbers) for numbers in columns[1:])
    lengths = _fractions.differences(ends, starts)
    new: Any = tuple.__new__
    return list(map(new, repeat(Turn), zip(count(), columns.jobs, starts, ends, works, lengths)))


def _ordered(turns: List[Turn]) -> List[Turn]:
    if all(before.end is after.start or before.end <= after.start for before, after in zip(turns, turns[1:])):
        return turns
    turns.sort(key=lambda turn: (turn.start, turn.end))
    for before, after in zip(turns, turns[1:]):
        if after.start < before.end:
            raise ValueError(
                f"slots[{after.place}] begins at {after.start}, before slots[{before.place}] ends at {before.end}, "
                "and one processor runs one slot at a time"
            )
    return turns


def _check(turns: Sequence[Turn], start: Optional[Fraction], end: Optional[Fraction]) -> None:
    """Raises ValueError where a slot by itself is none, or isn't from start to end."""
    for turn in turns:
        if turn.length.numerator <= 0:
            raise ValueError(f"slots[{turn.place}] ends at {turn.end}, and not after its start {turn.start}")
        if turn.work.numerator < 0:
            raise ValueError(f"slots[{turn.place}] has the work {turn.work}, and a work is at least 0")
        if start is not None and turn.start < start:
            raise ValueError(f"slots[{turn.place}] begins at {turn.start}, before the start {start} of what is counted")
        if end is not None and turn.end > end:
            raise ValueError(f"slots[{turn.place}] ends at {turn.end}, after the end {end} of what is counted")
