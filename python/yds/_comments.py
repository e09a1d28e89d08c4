"""The comments of documents as typed values: what is known of a trace's jobs, the period, and energy that is in no line.

A comment of another form is none of these, and stays a text.
"""

from __future__ import annotations

import re
from typing import Callable, Dict, List, NamedTuple, Optional, Set, Tuple

from yds._heads import closing
from yds._lacking import HOLES, SWITCHES, Lacking
from yds._text import Comment, counted

LEFT_OUT = "left out"
WITHOUT_RUNS = "late, without its runs"
NOT_ENDED = "not ended"
WITHIN_TICK = "late in a run within one tick"
ELSEWHERE = "late on another processor"
HIDDEN = (WITHIN_TICK, ELSEWHERE)
"""The job ended late, and its runs here don't show it: they give all its work but for one unit."""
LESS_THAN_UNIT = "late by less than a unit of time"

_NOTE = re.compile(
    r"# (left out|late, without its runs|not ended|late in a run within one tick|late on another processor|"
    r"late by less than a unit of time): (.+)"
).match
_END = re.compile(
    r"(?:, (at least |not ended )?([0-9.]+) ms after its deadline)?(?:; window (-?[0-9]+) (-?[0-9]+))?"
).fullmatch


class Note(NamedTuple):
    """What a comment tells of one job of a trace."""

    kind: str
    job: str
    reason: str
    """Why it was left out; empty where nothing is said."""
    late: Optional[str]
    """Milliseconds after its deadline, as they are written; None where nothing is said."""
    at_least: bool
    """Whether it was later than that by an unknown time."""
    never: bool
    """Whether it hadn't ended then."""
    window: Optional[Tuple[int, int]]
    """Its release and deadline, in the document's units; they may be below 0."""
    text: str
    """The comment without its #."""


def note_of(text: str) -> Optional[Note]:
    """The note of a comment; None where it is none.

    >>> note_of("# late, without its runs: a.1 (events lost), at least 3.2 ms after its deadline; window -4 9")[1:7]
    ('a.1', 'events lost', '3.2', True, False, (-4, 9))
    """
    found = _NOTE(text)
    if found is None:
        return None
    kind, rest = found.groups()
    named = rest.split(" ", 1)[0]
    if named.endswith(",") and not rest[len(named) :].startswith(" ("):
        named = named[:-1]
    rest = rest[len(named) :]
    reason = ""
    if rest.startswith(" ("):
        close = _reason_end(rest)
        if close < 0:
            return None
        reason, rest = rest[2:close], rest[close + 1 :]
    end = _END(rest)
    if end is None:
        return None
    how, late, release, deadline = end.groups()
    window = None if release is None else (int(release), int(deadline))
    return Note(kind, named, reason, late, how == "at least ", how == "not ended ", window, text[2:])


def _reason_end(rest: str) -> int:
    """Where the bracket of a reason closes: the last place behind which what a note may say follows; -1 if there is none."""
    places = [place for place in range(len(rest)) if rest[place] == ")" and _END(rest[place + 1 :])]
    return places[0] if places else -1


CUT_OFF = ("before from", "after to")
"""Reasons of jobs that were left out since the user asked for another time."""


class LeftOut(NamedTuple):
    """A comment that tells of several jobs of a task that were left out for one reason."""

    number: int
    task: str
    reason: str
    first: str
    """The first of them; empty where it isn't told."""
    last: str


_LEFT_OUT_JOBS = re.compile(
    r"# left out: ([0-9]{1,18}) jobs? of (.+?) \((.+)\)(?:, (?:the first ([^ ]+), the last ([^ ]+)|.+))?"
).fullmatch


def left_out_jobs(text: str) -> Optional[LeftOut]:
    """What a comment tells of several jobs at once; None where it is none.

    >>> left_out_jobs("# left out: 356 jobs of t0 (ran on another processor), the first t0.3, the last t0.621")
    LeftOut(number=356, task='t0', reason='ran on another processor', first='t0.3', last='t0.621')
    """
    found = _LEFT_OUT_JOBS(text)
    if found is None:
        return None
    number, task, reason, first, last = found.groups()
    return LeftOut(int(number), task, reason, first or "", last or "")


class OtherSpan(NamedTuple):
    """Who else had the processor, and from when to when, in ticks."""

    name: str
    pid: int
    start: int
    end: int


_OTHER = re.compile(r"# other (.*)-([0-9]{1,10}) ([0-9]{1,30}) ([0-9]{1,30})").fullmatch


def other_span(text: str) -> Optional[OtherSpan]:
    """What a comment `# other NAME-PID FROM TO` tells; None where it is none, or the span has no length.

    >>> other_span("# other Web Content-419 200 270")
    OtherSpan(name='Web Content', pid=419, start=200, end=270)
    """
    found = _OTHER(text)
    if found is None or int(found.group(4)) <= int(found.group(3)):
        return None
    return OtherSpan(found.group(1), int(found.group(2)), int(found.group(3)), int(found.group(4)))


_CLOCK = re.compile(r"time 0 is ([0-9]+)\.([0-9]+) s").search
_TIME_UNIT = re.compile(r"time unit ([0-9]+) us").search


class Clock:
    """The trace's clock: when time 0 is, and how long a unit of time is."""

    def __init__(self) -> None:
        self.zero: Optional[Tuple[int, int]] = None
        """Seconds and nanoseconds at time 0."""
        self.unit: Optional[int] = None
        """Microseconds in a unit of time."""

    def take(self, text: str) -> None:
        """Reads a comment."""
        zero, unit = _CLOCK(text), _TIME_UNIT(text)
        if zero is not None:
            self.zero = int(zero.group(1)), int(zero.group(2)[:9].ljust(9, "0"))
        if unit is not None:
            self.unit = int(unit.group(1))

    def due_at(self, time: int) -> str:
        """A comment with the seconds of the clock at a time of the document; empty where the clock isn't known."""
        if self.zero is None or not self.unit:
            return ""
        micro = self.zero[0] * 1_000_000 + self.zero[1] // 1000 + time * self.unit
        return f" # due at {micro // 1_000_000}.{micro % 1_000_000:06d} s"


_ENDS = re.compile(r"# (begins|ends): ([^ ]+) ([0-9]+)").fullmatch


class Ends:
    """Begins and ends of jobs whose first or last run is shorter than a tick, in ticks."""

    def __init__(self) -> None:
        self.begin: Dict[str, int] = {}
        self.end: Dict[str, int] = {}

    def take(self, text: str) -> bool:
        """Reads a comment, and says whether it was of this form."""
        found = _ENDS(text)
        if found is None:
            return False
        (self.begin if found.group(1) == "begins" else self.end)[found.group(2)] = int(found.group(3))
        return True


_MOVED = re.compile(r"# deadline moved: ([^ ]+) by ([0-9]{1,18})").fullmatch


def moved_of(text: str) -> Optional[Tuple[str, int]]:
    """The job whose deadline the comment says was moved to its end, and by how many units of time; None of another one.

    >>> moved_of("# deadline moved: decode.2 by 169")
    ('decode.2', 169)
    """
    found = _MOVED(text)
    return None if found is None else (found.group(1), int(found.group(2)))


def moved_by(job: str, units: int) -> str:
    """The comment that says it."""
    return f"# deadline moved: {job} by {units}"


PARTIAL = (
    r"not due by [0-9]+: |[0-9]+ jobs? (?:was|were) |the work of [0-9]+ jobs? isn't known, since |"
    rf"{HOLES}(?:, up to here)?: [0-9]+"
)
"""How a text begins that says of energies that some is in no line, or that work isn't known."""
OTHERS = "other threads had the processor for "
"""How the text begins that tells for how long, beside energies."""
IDLE_THREADS = "taken for idle: "
"""How the text begins that tells of which threads the time counts as idle."""
BESIDE = (
    PARTIAL + rf"|with [0-9]+ deadlines? moved |{OTHERS}[0-9]+ ticks? |{SWITCHES}(?:, up to here)?: [0-9]+|"
    rf"{IDLE_THREADS}"
)
"""How one begins that is told beside energies, wherever they are shown."""

_NOT_DUE = re.compile(r"# not due by [0-9]+: ").match
IN_NO_LINE = ": this energy is in no line"
NO_ROOM = "what they spent is in no line, and no plan makes room for them"


class Missing:
    """What comments tell of energy that is in no line, and of work that isn't known."""

    def __init__(self, is_idle: Callable[[OtherSpan], bool] = lambda _: False) -> None:
        """is_idle says of a span that its thread is taken for idle."""
        self._is_idle = is_idle
        self.not_due: List[str] = []
        self.left_out = 0
        self.without_runs = 0
        self.unknown: List[str] = []
        self.moved: Set[str] = set()
        """The jobs whose deadlines were moved to their ends."""
        self.others = 0
        """For how many ticks other threads had the processor while a job waited."""
        self.lacking = Lacking()

    def take(self, text: str) -> None:
        """Reads a comment."""
        closed = closing(text)
        if self.lacking.take(text):
            return
        if closed is not None:
            self.left_out += closed.left_out
        elif _NOT_DUE(text):
            self.not_due.append(text)
        elif text.startswith((f"# {WITHOUT_RUNS}: ", f"# {NOT_ENDED}: ")):
            self.without_runs += text.startswith(f"# {WITHOUT_RUNS}: ")
            self.unknown.append(text.split(": ", 1)[1].split(" ")[0].rstrip(","))
        else:
            moved, span = moved_of(text), other_span(text)
            self.moved |= {moved[0]} if moved is not None else set()
            if span is not None and not self._is_idle(span):
                self.others += span.end - span.start

    def told(self) -> List[str]:
        """Comments that say it, of the whole document."""
        lines = [text if text.endswith(IN_NO_LINE) else text + IN_NO_LINE for text in self.not_due]
        if self.left_out:
            lines.append("# " + left_out_of(self.left_out))
        if self.without_runs:
            lines.append(without_runs(self.without_runs))
        if self.unknown:
            lines.append("# " + unknown_works(len(self.unknown), self.unknown[0]))
        if self.moved:
            lines.append(with_moved(len(self.moved)))
        if self.others:
            lines.append(f"# {OTHERS}{counted(self.others, 'tick', 'ticks')} while a job waited: {NO_ROOM}")
        return lines + self.lacking.beside_energy()


def left_out_of(number: int) -> str:
    """So many jobs were left out of the document."""
    return counted(
        number,
        "job was left out of the document, with its energy",
        "jobs were left out of the document, with their energy",
    )


def with_moved(number: int) -> str:
    """A comment beside energies that tells of deadlines that were moved to the ends of late jobs."""
    return f"# with {counted(number, 'deadline', 'deadlines')} moved to where late jobs ended"


def without_runs(number: int) -> str:
    """A comment that tells of late jobs whose runs aren't in the document."""
    late = counted(number, "job was late and stands", "jobs were late and stand")
    return f"# {late} in the document without {'its' if number == 1 else 'their'} runs and their energy"


def unknown_works(number: int, first: str) -> str:
    """Of so many jobs the work isn't known."""
    return (
        "the work of "
        + counted(
            number,
            "job isn't known, since it never ended or has no runs",
            "jobs isn't known, since they never ended or have no runs",
        )
        + f": what serves them whole may spend more and be later, the first {first}"
    )


def workless(number: int, first: str) -> str:
    """A comment that tells of jobs without work."""
    told = counted(
        number,
        "job has no work: it needs nothing and is in time",
        "jobs have no work: they need nothing and are in time",
    )
    return f"# {told}, the first {first}"


_PERIOD = re.compile(r"# period ([0-9]+)").fullmatch


def period_of(comment: Comment) -> Optional[int]:
    """The period that the comment tells, in units of time; None where it tells none."""
    found = _PERIOD(comment.text)
    return None if found is None else int(found.group(1))
