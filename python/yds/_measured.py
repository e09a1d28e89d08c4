"""What can be asked of the slots of a document beside the library's answers, in numbers of Python."""

from __future__ import annotations

from fractions import Fraction
from functools import cached_property
from typing import Any, ClassVar, Dict, List, Optional, Tuple, overload

from yds import _drawn
from yds._powers import By, Energy, Power, Span, Table, checked, is_exponent, of_spans
from yds._tables import Profile, columns, profile, to_pandas
from yds._turns import Turn, in_turn, own_in_turn
from yds.errors import Refused
from yds.rows import Job, Point, Slot


class Measured:
    """Jobs, points and slots, and what is measured of them."""

    _by: ClassVar[By] = None

    @property
    def jobs(self) -> Tuple[Job, ...]:
        """The jobs in the order of their lines."""
        raise NotImplementedError

    @property
    def points(self) -> Tuple[Point, ...]:
        """The operating points, at rising speeds."""
        raise NotImplementedError

    @property
    def slots(self) -> Tuple[Slot, ...]:
        """The slots and runs in the order of their lines."""
        raise NotImplementedError

    @overload
    def energy_for(self, power: int) -> Fraction:
        ...

    @overload
    def energy_for(self, power: float) -> float:
        ...

    @overload
    def energy_for(self, power: Optional[Table] = None, by: By = None) -> Fraction:
        ...

    def energy_for(self, power: Optional[Power] = None, by: By = None) -> Energy:
        """What the slots spend where the power is this exponent or table; the document's own points where none is said.

        `yds.energy` tells of both, of `by`, and of what is refused. On a table, time from the first release to the last
        deadline in which nothing runs draws the power at speed 0. A plan and a policy's run mix points by the lower
        hull, as `round` and `compare` do. Whether the slots are feasible isn't asked here: `audit` says it.

        >>> import yds
        >>> plan = yds.Document([("a", 0, 4, 6)], points=[(0, 1), (1, 2), (2, 5)]).plan()
        >>> plan.energy_for(), plan.energy_for(3), round(plan.energy_for(2.5), 3)
        (Fraction(14, 1), Fraction(27, 2), 11.023)
        """
        if power is None and not self.points:
            raise ValueError("the document has no points: say an exponent or a table, as energy_for(3)")
        table = self.points if power is None else power
        if is_exponent(table):
            return of_spans(self._spans(None, None), table, None, by)
        rows = checked(table)  # type: ignore[arg-type]
        start, end = self._window()
        spans = self._spans(start, end) if rows[0][1] else self._spans(None, None)
        return of_spans(spans, rows, Fraction(end - start) if rows[0][1] else None, by or self._by)

    def _window(self) -> Tuple[int, int]:
        """The first release and the last deadline; 0 and 0 where there are no jobs."""
        first = min((job.release for job in self.jobs), default=0)
        return first, max((job.deadline for job in self.jobs), default=0)

    def _spans(self, start: Optional[int], end: Optional[int]) -> List[Span]:
        """The slots' works and times, each between start and end."""
        turns, spans = self._own_turns
        if turns and start is not None and end is not None and not start <= turns[0].start <= turns[-1].end <= end:
            in_turn(self.slots, start, end)
        return spans

    @cached_property
    def _own_turns(self) -> Tuple[List[Turn], List[Span]]:
        """The slots in the order of their times, and their spans: kept, since one asks for several powers."""
        turns = own_in_turn(self._some_slots())
        return turns, [Span(f"slots[{turn.place}]", turn.work, turn.length) for turn in turns]

    def _some_slots(self) -> Tuple[Slot, ...]:
        """The slots; ValueError where there are none, and jobs need work."""
        if not self.slots and any(job.work for job in self.jobs):
            raise ValueError("the document has jobs and no slots: document.plan() answers with some")
        return self.slots

    def profile(self, exact: bool = False) -> Profile:
        """The speed over time, from the first release on: when it changes, and to what.

        The numbers are floats for a picture, each the nearest to the exact one; Fractions where exact is True.

        >>> import yds
        >>> yds.Document([("a", 0, 4, 8), ("b", 5, 9, 6)]).plan().profile()
        Profile(times=[0.0, 4.0, 5.0, 9.0], speeds=[2.0, 0.0, 1.5, 0.0])
        """
        starts = [slot.start for slot in self._some_slots()]
        return profile(self.slots, min([self._window()[0], *starts]) if self.jobs else None, exact)

    def columns(self, exact: bool = False) -> Dict[str, List[Any]]:
        """The slots as columns, in their order: job, start and end (units of time), work, and speed (work per time).

        The numbers are floats, each the nearest to the exact one; Fractions where exact is True.
        """
        return columns(self.slots, exact)

    def to_pandas(self, exact: bool = False) -> Any:
        """The columns of the slots as a pandas.DataFrame, in floats; in Fractions where exact is True."""
        return to_pandas(self.slots, exact)

    def plot(self, axes: Optional[Any] = None) -> Any:
        """Who runs when, and how fast, on matplotlib's axes, which are given back; on those of a new figure without.

        `yds.pictures.jobs` says what is drawn, and `yds.pictures` has the speed over time, too. ImportError is raised
        where there is no matplotlib.
        """
        from yds import pictures

        return pictures.jobs(self.jobs, self.slots, axes)

    def _repr_svg_(self) -> Optional[str]:
        """What a notebook shows where there are slots: windows and slots of at most 40 jobs, the darker the faster."""
        try:
            return _drawn.svg(self.jobs, self.slots) if self.slots else None
        except Refused:
            return None
