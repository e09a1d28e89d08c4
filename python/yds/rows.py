"""The rows of a document. Each is a named tuple: a plain tuple does as well, and pandas makes a table of a list."""

from __future__ import annotations

from fractions import Fraction
from typing import NamedTuple, SupportsIndex, Tuple, Union

from yds._numbers import exact

Exact = Union[int, Fraction]
"""A number that is exact: a float isn't."""


class Job(NamedTuple):
    """A job may run from its release to its deadline (units of time) and needs its work (units of work): whole."""

    name: str
    release: int
    deadline: int
    work: int


class Point(NamedTuple):
    """An operating point: a speed (work per unit of time), and the power there (energy per unit of time): whole."""

    speed: int
    power: int


class Slot(NamedTuple):
    """The job runs from start to end (units of time) and gets so much work (units of work)."""

    job: str
    start: Exact
    end: Exact
    work: Exact

    @property
    def speed(self) -> Fraction:
        """Work per unit of time.

        >>> Slot("b", 2, 4, Fraction(8, 3)).speed
        Fraction(4, 3)
        """
        return exact(self.work) / (exact(self.end) - exact(self.start))


class Piece(NamedTuple):
    """A piece of a level's time, from start to end (units of time)."""

    start: int
    end: int


class Level(NamedTuple):
    """A level of a certificate: its members have so much work together, and its pieces so much length."""

    work: int
    length: int
    pieces: Tuple[Piece, ...] = ()
    members: Tuple[str, ...] = ()

    @property
    def speed(self) -> Fraction:
        """Work per unit of time."""
        return Fraction(self.work, self.length)


class Rows(NamedTuple):
    """All rows of a document. Numbers are compared by their values, however a text spells them."""

    jobs: Tuple[Job, ...]
    points: Tuple[Point, ...]
    slots: Tuple[Slot, ...]
    levels: Tuple[Level, ...]


class Task(NamedTuple):
    """A periodic task: a job at the offset and after each period, due so long after its release. All is whole."""

    name: str
    offset: int
    period: int
    deadline: int
    work: int


Given = Union[SupportsIndex, Fraction]
"""What is taken for an exact number: an int, one of numpy's, or a Fraction."""
JobLike = Tuple[str, Given, Given, Given]
PointLike = Tuple[Given, Given]
SlotLike = Tuple[str, Given, Given, Given]
TaskLike = Tuple[str, Given, Given, Given, Given]
