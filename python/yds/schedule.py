"""Schedules of other programs, judged, and as tables of numbers.

A schedule is a list of slots in any order. Their ends and works may be ints or Fractions of any denominators: the ends
of each slot are brought to one denominator, and the works of each job to one, as the library needs them. No number is
moved by that.
"""

from __future__ import annotations

from dataclasses import replace
from typing import Callable, Iterable, Optional, Sequence, Tuple, TypeVar

from yds._forms import FOREIGN_SLOTS
from yds._near import Mended, Near
from yds._near import near as _near
from yds._numbers import Decimalish
from yds._slots import Columns, Own, spelled
from yds._spelling import joined, level_lines
from yds._tables import Profile, columns, profile, to_pandas
from yds.document import Document
from yds.errors import Refused
from yds.results import Judgement, Verdict
from yds.rows import Level, SlotLike

__all__ = ["DecimalSlot", "Mended", "Near", "Profile", "check", "columns", "judge", "near", "profile", "to_pandas"]

DecimalSlot = Tuple[str, Decimalish, Decimalish, Decimalish]
"""A slot of decimals: the job, its start and end (units of time), and its work (units of work)."""

Told = TypeVar("Told", Verdict, Judgement)


def judge(document: Document, slots: Iterable[SlotLike], points: bool = False) -> Verdict:
    """Whether these slots give each of the document's jobs its work in its window, one job at a time.

    With points, each slot has to run at the speed of one of the document's points, too. The document's own slots don't
    count. The verdict's index is the slot's place in the given list. Its text numbers the slots in the order of their
    times.

    >>> from fractions import Fraction
    >>> document = Document(jobs=[("a", 0, 4, 2), ("b", 0, 4, 2)])
    >>> thirds = [("b", Fraction(4, 3), 4, 2), ("a", 0, Fraction(4, 3), 2)]
    >>> judge(document, thirds).feasible
    True
    >>> verdict = judge(document, [("b", Fraction(4, 3), Fraction(13, 3), 2), ("a", 0, Fraction(4, 3), 2)])
    >>> verdict.cause, verdict.job, verdict.index, verdict.slot.end - verdict.deadline
    ('late', 'b', 0, Fraction(1, 3))
    """
    order, lines = _lines(slots)
    judged = Document.from_text(document._head + lines)
    return _placed(_told(lambda: judged.audit(points), judged, order), order)


def check(document: Document, slots: Iterable[SlotLike], levels: Optional[Sequence[Level]] = None) -> Judgement:
    """Whether these slots are least above every speed, by these levels, or by those of the document's plan.

    The judgement's index is the slot's place in the given list.

    >>> document = Document(jobs=[("a", 0, 4, 4)])
    >>> check(document, [("a", 0, 4, 4)]).accepted
    True
    >>> check(document, [("a", 0, 1, 2), ("a", 1, 4, 2)]).condition
    'K7'
    """
    order, lines = _lines(slots)
    own = document.plan().levels if levels is None else levels
    judged = Document.from_text(document._head + lines + joined(level_lines(own)))
    judgement = _placed(_told(judged.check, judged, order), order)
    if judgement.verdict is None:
        return judgement
    return replace(judgement, verdict=_placed(judgement.verdict, order))


def near(document: Document, slots: Iterable[DecimalSlot], *, most: Decimalish) -> Near:
    """A schedule of exact numbers near slots of decimals, as a solver or a simulator tells them, in any order.

    Numbers are floats, Decimals, Fractions, or texts as '2.5e-3' and '10/3'. Each is moved by at most `most`, below 1/2
    (units of time for times, and of work for works), and the answer tells the greatest `error`. With most=0 each number
    is taken at its word. The document's own slots don't count.

      times   become the fractions of least denominator within most. Whole numbers stay, and so does the order of any
              two: what is in time, after its release and apart as given is so here too
      works   of a job become such fractions, where these add up to the job's work. Else they stay, where they add up
              to it as given; else all move by the same amount, where that makes them add up. Where nothing does, they
              stay, and the audit will say what is wrong

    So a slot that is late by less than most may come to be in time: `mended` tells each such condition, with its
    amount. A number below 0 by at most most becomes 0. ValueError is raised where one is further below, where a slot is
    so short that its ends fall together, and where no document can have the fractions.

    >>> document = Document(jobs=[("a", 0, 2, 1), ("b", 0, 2, 1)])
    >>> found = near(document, [("a", 0.0, 0.6666667, 1.0), ("b", 0.6666667, 2.0, 1.0)], most=1e-6)
    >>> found.slots[0].end, found.error < 4e-8, found.mended, judge(document, found.slots).feasible
    (Fraction(2, 3), True, (), True)
    >>> near(document, [("a", 1, 2.0000004, 1)], most="0.000001").mended[0]
    Mended(condition='late', job='a', index=0, amount=Fraction(900719925, 2251799813685248))
    """
    return _near(document.jobs, [point.speed for point in document.points], slots, most)


def _lines(slots: Iterable[SlotLike]) -> Tuple[Sequence[int], bytes]:
    """The lines of the slots in the order of their times, and the place of each in the given list."""
    if isinstance(slots, Own) and slots.lines is not None:
        return range(len(slots)), slots.lines
    columns = Columns.of(FOREIGN_SLOTS, slots)
    lines, in_turn = spelled(columns)
    if in_turn:
        return range(len(columns.jobs)), lines
    starts, ends = columns.starts, columns.ends
    order = sorted(range(len(starts)), key=lambda place: (starts[place], ends[place]))
    return order, spelled(columns.in_order(order)).lines


def _told(call: Callable[[], Told], judged: Document, order: Sequence[int]) -> Told:
    """What the call answers; a fault of a slot names its place in the given list."""
    try:
        return call()
    except Refused as fault:
        raise Refused(fault.text, judged.text, order) from None


def _placed(told: Told, order: Sequence[int]) -> Told:
    """The same with the index of the given list."""
    return told if told.index is None else replace(told, index=order[told.index])
