"""What is raised where there is no answer. A 'no' isn't one of these: it is an answer."""

from __future__ import annotations

from typing import Optional, Sequence

from yds._places import Place, place_of, rule


class YdsError(Exception):
    """The base of everything that this package raises on its own account."""


class Refused(YdsError, ValueError):
    """The library refused the document: it has a fault, is too long, or has no points where they are needed.

    >>> import yds
    >>> yds.Document(jobs=[("a", 4, 4, 1)]).plan()
    Traceback (most recent call last):
        ...
    yds.errors.Refused: line 1, column 9: EmptyWindow, in 'job a 4 4 1' (jobs[0].deadline: it must be after the release)
    """

    line: Optional[int]
    """The line of the first fault, counted from 1; None where the whole input is meant."""
    column: Optional[int]
    """The column of the fault, counted from 1 in bytes; None where the whole input is meant."""
    reason: str
    """One word: those of docs/format.md, as EmptyWindow, or 'too-long' or 'no-table'."""
    table: Optional[str]
    """The table of the row that is meant: 'jobs', 'points', 'slots' and so on; None where it is no row."""
    index: Optional[int]
    """The place of that row in its table, counted from 0: in the rows that the document was made of, if it was."""
    field: Optional[str]
    """The row's field that is meant, as 'deadline'; None where it is none."""
    text: bytes
    """What the library wrote: the program's line."""

    def __init__(self, text: bytes, document: bytes, order: Optional[Sequence[int]] = None) -> None:
        """order: the places of the document's slots in a list that was sorted before."""
        super().__init__(text, document, order)
        self.text = text
        words = text.decode("ascii").split()
        self.reason = words[-1]
        self.line = self.column = None
        self._place: Optional[Place] = None
        if len(words) == 4:
            self.line, self.column = int(words[1]), int(words[2])
            self._place = place_of(document, self.line, self.column)
        if order is not None and self._place is not None and self._place.table == "slots":
            self._place = self._place._replace(row=order[self._place.row])
        self.table, self.index, self.field = None, None, None
        if self._place is not None:
            self.table, self.index, self.field = self._place.table, self._place.row, self._place.field
        self._shown = b"" if self.line is None else document.split(b"\n", self.line)[self.line - 1][:200]

    def __str__(self) -> str:
        if self.line is None:
            return _OF_THE_WHOLE.get(self.reason, self.reason)
        shown = self._shown.decode("utf-8", "replace")
        told = [str(part) for part in (self._place, rule(self.reason, self._place)) if part is not None]
        more = f" ({': '.join(told)})" if told else ""
        return f"line {self.line}, column {self.column}: {self.reason}, in {shown!r}{more}"


_OF_THE_WHOLE = {
    "too-long": "the input has more than 8,388,608 bytes",
    "no-table": "the document has no points, and this command needs them",
}


class UsageError(YdsError, ValueError):
    """The words name no command, as where a grid or a top speed is out of its range."""

    def __init__(self, words: Sequence[str], limit: Optional[str] = None) -> None:
        """limit: what the call's numbers are at least and at most."""
        super().__init__(words, limit)
        self.words = words
        self.limit = limit

    def __str__(self) -> str:
        return f"{' '.join(self.words)!r} isn't a command; {self.limit or 'is a number out of its range?'}"


class OutOfMemory(YdsError, MemoryError):
    """The library couldn't take the memory that the answer needs."""

    def __str__(self) -> str:
        return "the library couldn't take the memory that the answer needs"
