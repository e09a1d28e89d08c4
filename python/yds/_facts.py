"""What a page tells of a document: the verdict, the misses, the tasks, the energies, and where the worst lost their time."""

from __future__ import annotations

from fractions import Fraction
from math import inf
from typing import Dict, Iterable, List, NamedTuple, Optional, Sequence, Set, Tuple

from yds._at_top import AtTop, at_top
from yds._beside_least import Asked, Energies, energies
from yds._by_task import TaskRow, by_task, together
from yds._comments import Note, note_of
from yds._gathered import Gathered
from yds._markup import Scale
from yds._missed import Miss
from yds._program import Answer
from yds._text import Fault, Line, Rows, printable
from yds._unseen import Unjudged, unjudged
from yds._waited import Waited, waited
from yds.jobs import JobRow, Misses, Number, misses, table

WORST = 3


class Missed(NamedTuple):
    """A missed deadline."""

    miss: Miss
    row: JobRow
    late: Optional[Number]
    """By how much, in units of time; at least so much where `at_least`. None where nothing is known."""
    at_least: bool
    """Whether it was later than that, by an unknown time."""


class Worst(NamedTuple):
    """One of the worst misses."""

    missed: Missed
    went: Optional[Waited]
    """None where the document hasn't its runs."""
    at_top: Optional[AtTop]


class Facts(NamedTuple):
    """All that a page tells."""

    given: Gathered
    scale: Scale
    audit: Misses
    missed: List[Missed]
    """In the order of their deadlines; those without one go last."""
    rows: List[JobRow]
    tasks: List[TaskRow]
    all_jobs: TaskRow
    unjudged: List[Unjudged]
    energies: Optional[Energies]
    asked: Asked
    worst: List[Worst]
    """Nothing where the slots have another fault: then they don't tell who had the processor."""

    @property
    def is_another_fault(self) -> bool:
        """Whether the slots have a fault for which audit doesn't judge deadlines."""
        return self.audit.status != 0

    @property
    def may_hide(self) -> bool:
        """Whether something that wasn't judged can hide a missed deadline."""
        return any(one.hides for one in self.unjudged)


def facts(
    lines: Iterable[Line],
    answer: Answer,
    grid: int,
    microseconds: Optional[int] = None,
    idle: Sequence[str] = (),
) -> Facts:
    """What is told of the document of these lines. Fault is raised where it has one, and where it has no job.

    idle: the names of threads that are taken for idle.
    """
    given = Gathered(lines, idle)
    audit = misses(given.lines, answer)
    if audit.status not in (0, 1):
        raise _refusal(given, audit)
    if not audit.status and audit.verdict != "feasible":
        raise Fault("audit has no answer; is it yds_cli that answers?")
    told = table(Rows(given.lines), microseconds)
    scale = Scale(given.units, given.clock, microseconds)
    late = _missed(given, audit, told.rows, scale)
    names = {one.miss.job for one in late}
    asked = Asked(given, answer)
    worst = sorted(late, key=_lateness, reverse=True)[:WORST]
    return Facts(
        given,
        scale,
        audit,
        sorted(late, key=lambda one: (one.row.deadline is None, one.row.deadline or 0)),
        told.rows,
        by_task(given, told.rows, names),
        together(given, told.rows, names),
        unjudged(given.comments, len(given.jobs)),
        energies(given, asked, grid, microseconds),
        asked,
        [] if audit.status else [_worst(given, asked, one) for one in worst],
    )


def _refusal(given: Gathered, audit: Misses) -> Fault:
    """Why the program refuses the document, in its file and line."""
    words = audit.verdict.split()
    if len(words) == 4 and words[0] == "refused" and words[1].isdigit() and 0 < int(words[1]) <= len(given.lines):
        line = given.lines[int(words[1]) - 1]
        told = f"{words[3]}, in {printable(line.text)}; docs/format.md tells what to do"
        return Fault(told, line.file, line.number, int(words[2]))
    return Fault(audit.verdict or f"audit has no answer, and ended with the status {audit.status}")


def _missed(given: Gathered, audit: Misses, rows: Iterable[JobRow], scale: Scale) -> List[Missed]:
    """The missed deadlines, each with its job's row."""
    named: Dict[str, JobRow] = {}
    for row in rows:
        named.setdefault(row.job, row)
    notes = {note.job: note for note in map(note_of, given.comments) if note is not None and note.late is not None}
    found: List[Missed] = []
    seen: Set[str] = set()
    for miss in audit.missed:
        if miss.job not in seen:
            seen.add(miss.job)
            row = named.get(miss.job) or JobRow(miss.job, "")
            found.append(_with_lateness(given, miss, row, notes.get(miss.job), scale))
    return found


def _with_lateness(given: Gathered, miss: Miss, row: JobRow, note: Optional[Note], scale: Scale) -> Missed:
    """How late the job is known to be."""
    if row.late is not None and row.late != inf:
        return Missed(miss, row, row.late, row.at_least)
    if note is not None and note.late is not None and scale.us:
        return Missed(miss, row, Fraction(note.late) * 1000 / scale.us, True)
    if row.late == inf and row.deadline is not None:
        last = max((span.end for span in given.slots.all), default=Fraction(0))
        return Missed(miss, row, max(last - row.deadline, Fraction(0)), True)
    return Missed(miss, row, None, True)


def _lateness(one: Missed) -> Tuple[Number, bool]:
    return (Fraction(-1) if one.late is None else one.late), one.at_least


def _worst(given: Gathered, asked: Asked, one: Missed) -> Worst:
    row, name = one.row, one.miss.job
    if name not in given.jobs:
        return Worst(one, None, None)
    has_runs = any(span.name == name for span in given.slots.all) or row.late == inf
    is_here = has_runs and row.release == given.jobs[name].release and row.deadline == given.due(name)
    ended = row.end is not None and row.end != inf
    went = None
    if is_here and one.late is not None:
        end = row.end if ended and row.end is not None else given.due(name) + one.late
        begin = None if row.begin is None or row.begin == inf else Fraction(row.begin)
        went = waited(given, name, Fraction(end), begin)
    return Worst(one, went, at_top(given, asked, name, went, ended))
