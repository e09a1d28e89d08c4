"""What a document's slots spend beside the least, the two policies and the top speed; and the least constant speed."""

from __future__ import annotations

from fractions import Fraction
from typing import Dict, List, NamedTuple, Optional, Sequence, Tuple

from yds import _spent
from yds._gathered import Gathered
from yds._heads import MOST_BYTES, MOST_JOBS, MOST_TIME
from yds._least import least
from yds._program import Answer
from yds._text import Fault, Rows, counted
from yds.jobs import late_moved
from yds.results import Comparison, Curve, Overload, Report, Side, TooSlow

LEAST, AVR, OA, RAN, FLAT_OUT = "least", "Average Rate", "Optimal Available", "as it ran", "top speed, then idle"


class Bar(NamedTuple):
    """A side of the comparison."""

    name: str
    energy: Optional[Fraction]
    """None where the top point is too slow for it."""
    times: Dict[int, Fraction]
    """Units of time at each point's speed."""
    told: List[str]
    """What is told beside it."""
    overload: Optional[Overload] = None
    """Where the top point is too slow for it."""


class Energies(NamedTuple):
    """What the sides spend on the document's points."""

    bars: List[Bar]
    bounds: Optional[Tuple[Fraction, Fraction]]
    """Between which energies the least lies: twice the same where it is known, None where nothing is."""
    moved: str
    """How the jobs were changed, for which the sides but the last two stand; empty where they weren't."""
    too_slow: Optional[TooSlow]
    """Where the top point is too slow for the jobs as they are."""
    told: List[str]
    """Why a side isn't there, and what is in no energy."""


class Asked:
    """The program's answers on a document's jobs and points, each asked once. None where it has no answer."""

    def __init__(self, given: Gathered, answer: Answer) -> None:
        self._given, self._answer = given, answer
        self._told: Dict[Tuple[str, ...], Tuple[int, bytes]] = {}
        self.within = _is_within(given)
        """Whether a document can hold the jobs."""

    def ask(self, *words: str, text: Optional[bytes] = None) -> Tuple[int, bytes]:
        """Status and text of the answer on the document's jobs, or on this text."""
        if text is not None:
            status, told = self._answer(words, text)
            return int(status), told
        if words not in self._told:
            self._told[words] = self.ask(*words, text=self._given.question())
        return self._told[words]

    def report(self) -> Optional[Report]:
        """The levels of the plan."""
        status, text = self.ask("report") if self.within else (3, b"")
        return None if status else Report.read(text)

    def curve(self) -> Optional[Curve]:
        """The least work above each speed."""
        status, text = self.ask("curve") if self.within else (3, b"")
        return None if status else Curve.read(text)


def _is_within(given: Gathered) -> bool:
    latest = max(job.deadline for job in given.jobs.values())
    return len(given.jobs) <= MOST_JOBS and latest <= MOST_TIME and len(given.question()) <= MOST_BYTES


def energies(given: Gathered, asked: Asked, grid: int, microseconds: Optional[int] = None) -> Optional[Energies]:
    """The sides, the least first; None where the document has no points.

    microseconds: those of a unit of time, where no comment tells them.
    """
    if not given.points:
        return None
    told: List[str] = []
    own = _own(given, told)
    if not asked.within:
        return _of_parts(given, asked, own, told)
    status, text = asked.ask("compare", "--grid", str(grid))
    too_slow, moved = None, ""
    if status == 1:
        too_slow = TooSlow.read(text)
        rows, moved = _moved(given, microseconds)
        if moved:
            status, text = asked.ask("compare", "--grid", str(grid), text=given.question(rows))
    if status or not text:
        told += [] if status == 1 else [f"compare has no answer: {_line(text, status)}"]
        return Energies(own, None, moved, too_slow, told)
    compared = Comparison.read(text)
    bars = [_bar(name, side) for name, side in ((LEAST, compared.plan), (AVR, compared.avr), (OA, compared.oa))]
    bounds = compared.plan.energy, compared.plan.energy
    return Energies([*bars, *own], bounds, moved, too_slow, told)


def _bar(name: str, side: Side) -> Bar:
    told = [f"rounded up to the grid {counted(side.rounded, 'time', 'times')}"] if side.rounded else []
    return Bar(name, side.energy, side.times or {}, told, side.overload)


def _own(given: Gathered, told: List[str]) -> List[Bar]:
    """What the slots spend, and what one speed would."""
    reading = _spent.Reading(True, list(given.idle.ticks))
    try:
        reading.read(Rows(given.lines))
        spent = [(RAN, reading.of_slots())]
    except Fault as fault:
        told.append(f"what was spent isn't told: {fault}")
        return []
    try:
        spent.append((FLAT_OUT, reading.at(reading.prices.top)))
    except Fault as fault:
        told.append(f"what the top speed would spend isn't told: {fault}")
    told += [text[2:] for text in reading.missing.told()]
    speeds = [speed for speed, _ in given.points]
    return [Bar(name, one.energy, dict(zip(speeds, one.times)), _missed(one.misses)) for name, one in spent]


def _missed(misses: _spent.Misses) -> List[str]:
    if not misses.count:
        return []
    return [f"misses {counted(misses.count, 'deadline', 'deadlines')}, the first {misses.first}"]


def _of_parts(given: Gathered, asked: Asked, own: Sequence[Bar], told: List[str]) -> Energies:
    """The bounds of the least of a document that is above the limits."""
    latest = max(job.deadline for job in given.jobs.values())
    text = given.question()
    try:
        low, high = least(text, len(given.jobs), 0, latest, lambda words, part: asked.ask(*words, text=part))
    except (Fault, ValueError) as fault:
        return Energies(list(own), None, "", None, [*told, str(fault)])
    told.append("the document is above the program's limits: the least lies between two bounds, and no policy was run")
    bar = Bar(LEAST, low, {}, [] if low == high else ["the lower bound"])
    return Energies([bar, *own], (low, high), "", None, told)


def _moved(given: Gathered, microseconds: Optional[int]) -> Tuple[List[Tuple[str, int, int, int]], str]:
    """The jobs with the deadlines of late ones moved to where they ended, and how many these are."""
    found = late_moved(given.lines, microseconds)
    rows = []
    for fields in (line.split() for line in found.lines):
        if fields[:1] == ["job"]:
            rows.append((fields[1], int(fields[2]), int(fields[3]), int(fields[4])))
    many = len(found.moved)
    return rows, counted(many, "deadline moved to its job's end", "deadlines moved to their jobs' ends") if many else ""


def _line(text: bytes, status: int) -> str:
    return text.decode("latin-1").strip().split("\n")[0] or f"it ended with the status {status}"
