"""What comments of yds_trace tell of jobs of which it isn't known whether they were in time, and of what threads did.

A job was left out since its begin or its end isn't known, or its thread was over with it, perhaps before its work was.
"""

from __future__ import annotations

import re
from typing import Iterable, List, NamedTuple, Optional

from yds._comments import LEFT_OUT, left_out_jobs, note_of
from yds._heads import Text, lines_of
from yds._text import counted

EXITED = "exited"
WENT_ON = "went on behind a sleep without a wake-up"
NOT_KNOWN = ("not ended", "events lost", "a switch is missing", "its begin isn't in the trace")
"""Reasons of jobs that were left out since their begins or ends aren't known."""
_OF_THREAD = re.compile(rf"# ({EXITED}|{WENT_ON}): ([^ ]+)").fullmatch
_LINES = (b"# left out: ", b"# exited: ")
_TOLD = re.compile(
    r"# [0-9]{1,18} jobs? (?:is|are|was|were) (?:left out whose begin or end isn't known|ended as .+ over), .+"
).fullmatch


class OfThread(NamedTuple):
    """What a comment tells of a job's thread: that it was over with the job, or that it went on behind a sleep."""

    kind: str
    """EXITED or WENT_ON."""
    job: str


def of_thread(text: str) -> Optional[OfThread]:
    """What the comment tells; None where it is none of these.

    >>> of_thread("# exited: decode.7"), of_thread("# exited: decode.7 and more")
    (OfThread(kind='exited', job='decode.7'), None)
    """
    found = _OF_THREAD(text)
    return None if found is None else OfThread(found.group(1), found.group(2))


def is_told(text: str) -> bool:
    """Whether it is a line that stands beside a verdict for such jobs."""
    return _TOLD(text) is not None


class Unknown:
    """The jobs of a document, or of several parts, of which it isn't known whether they were in time."""

    def __init__(self) -> None:
        self.open = 0
        """How many were left out since their begins or ends aren't known."""
        self.exited: List[str] = []
        """Those with which their threads were over."""
        self._first = ""

    def take(self, text: str) -> None:
        """Reads a comment."""
        several, note, thread = left_out_jobs(text), note_of(text), of_thread(text)
        if several is not None:
            if several.reason.startswith(NOT_KNOWN):
                self._add(several.number, several.first)
        elif note is not None and note.kind == LEFT_OUT and note.late is None and note.reason.startswith(NOT_KNOWN):
            self._add(1, note.job)
        elif thread is not None and thread.kind == EXITED:
            self.exited.append(thread.job)

    def _add(self, number: int, first: str) -> None:
        self._first = self._first or first
        self.open += number

    @property
    def may_hide(self) -> bool:
        """Whether one of them may have missed its deadline."""
        return self.open > 0 or bool(self.exited)

    def beside_verdict(self) -> List[str]:
        """Comments that say beside a verdict on deadlines of what it isn't."""
        told: List[str] = []
        if self.open:
            left = counted(self.open, "job is left out", "jobs are left out")
            which = f"{'' if self.open == 1 else 'the first '}{self._first}: " if self._first else ""
            told.append(f"# {left} whose begin or end isn't known, {which}{_whether(self.open)}")
        return told + self.of_exits()

    def of_exits(self) -> List[str]:
        """The comment on jobs with which their threads were over."""
        many = len(self.exited)
        if not many:
            return []
        ended = counted(many, "job was ended as its thread was over", "jobs were ended as their threads were over")
        which = f"{'' if many == 1 else 'the first '}{self.exited[0]}"
        return [f"# {ended}, {which}: perhaps before {_work(many)} was done"]


def _whether(number: int) -> str:
    return f"it isn't known whether {'it was' if number == 1 else 'they were'} in time"


def _work(number: int) -> str:
    return "its work" if number == 1 else "their work"


def of_parts(parts: Iterable[Text]) -> Unknown:
    """Those of the parts of a trace together."""
    found = Unknown()
    for part in parts:
        for line in lines_of(part):
            if line.startswith(_LINES):
                found.take(line.rstrip(b"\r\n").decode("latin-1"))
    return found
