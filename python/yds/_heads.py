"""How parts and documents of traces begin and end: the head line of a part, the last line of a trace's, a part's texts."""

from __future__ import annotations

import io
import re
from os import PathLike, fspath
from typing import BinaryIO, Iterator, NamedTuple, Optional, Union

from yds.errors import YdsError

Text = Union[bytes, "PathLike[str]"]
"""A text as bytes, or the file that holds it."""

MOST_JOBS = 4000
MOST_SLOTS = 100_000
MOST_BYTES = 8_388_608
MOST_TIME = 1_000_000_000
"""The limits of a document."""


class PartsError(YdsError, ValueError):
    """A long document that can't be cut, or answers that can't be put together. The message says what to do."""

    line: Optional[int]
    """The line of the document that is meant, counted from 1; None where it is no line."""

    def __init__(self, text: str, line: Optional[int] = None) -> None:
        super().__init__(text if line is None else f"line {line}: {text}")
        self.line = line


class Head(NamedTuple):
    """The first line of a part.

    >>> Head(2, 21, 40, 400, 800, 0, windows_open=True).spelled()
    b'# part 2: jobs 21 to 40, from 400 to 800, shift 0, windows open\\n'
    """

    number: int
    """The part's number, from 1."""
    first: int
    """The number of its first job among all, from 1."""
    final: int
    """The number of its last job among all."""
    start: int
    """Its first release, in units of time of the whole."""
    end: int
    """Its last deadline, in units of time of the whole."""
    shift: int
    """What is taken off each time of the part."""
    cpu: Optional[int] = None
    """The processor, where there are documents of several."""
    windows_open: bool = False
    """Whether a window is open at the cut before it."""
    last: bool = False
    """Whether no part comes after it."""

    @property
    def jobs(self) -> int:
        """How many jobs the part has."""
        return self.final - self.first + 1

    def spelled(self) -> bytes:
        """The line."""
        told = f"# part {self.number}: jobs {self.first} to {self.final}, from {self.start} to {self.end}"
        told += f", shift {self.shift}"
        told += "" if self.cpu is None else f", cpu {self.cpu}"
        told += (", windows open" if self.windows_open else "") + (", the last" if self.last else "")
        return told.encode("ascii") + b"\n"


_NUMBER = rb"(0|[1-9][0-9]*)"
_HEAD = re.compile(
    rb"# part %b: jobs %b to %b, from %b to %b, shift %b(?:, cpu %b)?(, windows open)?(, the last)?\n?"
    % ((_NUMBER,) * 7)
)


def read_head(line: bytes) -> Optional[Head]:
    """The head that the line spells; None where it is no head of a part.

    >>> read_head(b"# part 3: jobs 3 to 3, from 9 to 12, shift 0, the last\\n").last
    True
    """
    found = _HEAD.fullmatch(line)
    if found is None:
        return None
    number, first, final, start, end, shift = (int(text) for text in found.groups()[:6])
    cpu, is_open, last = found.group(7), found.group(8), found.group(9)
    cpu_number = None if cpu is None else int(cpu)
    return Head(number, first, final, start, end, shift, cpu_number, is_open is not None, last is not None)


class Closing(NamedTuple):
    """The last line of a trace's document: how many jobs were written, and how many were left out."""

    written: int
    left_out: int


_OF_TRACE = re.compile(r"# CPU [0-9]+ of a kernel trace; time 0 is ").match
_CLOSING = re.compile(
    r"# ([0-9]{1,18}) jobs? written, (none|[0-9]{1,18}) left out(?:, [0-9]+ late without (?:its|their) runs)?"
).fullmatch


def closing(text: str) -> Optional[Closing]:
    """What the last line of a trace's document tells; None where it is none.

    >>> closing("# 8 jobs written, none left out"), closing("# 8 jobs writ")
    (Closing(written=8, left_out=0), None)
    """
    found = _CLOSING(text)
    if found is None:
        return None
    return Closing(int(found.group(1)), 0 if found.group(2) == "none" else int(found.group(2)))


_TIME_UNIT = re.compile(r"time unit ([0-9]{1,12}) us").search
_FIRST_LINE = re.compile(r"(# CPU [0-9]+ of a kernel trace; time 0 is )([0-9]{1,20})\.([0-9]{9}) s(.*)").fullmatch


class OfTrace:
    """The first and the last line of a trace's document, of which each part has its own."""

    def __init__(self) -> None:
        self._first = self._last = ""
        self._unit = 0

    def take(self, text: str) -> bool:
        """Reads a comment, and says whether it was the first or the last line."""
        unit = _TIME_UNIT(text)
        self._unit = self._unit if unit is None else int(unit.group(1))
        if not self._first and _FIRST_LINE(text) is not None:
            self._first = text
        elif not self._last and closing(text) is not None:
            self._last = text
        else:
            return False
        return True

    def first(self, shift: int) -> str:
        """The first line of a part whose times are less by the shift; empty where there is none."""
        found = _FIRST_LINE(self._first)
        if found is None or (shift and not self._unit):
            return ""
        front, seconds, nano, rest = found.groups()
        now = int(seconds) * 10**9 + int(nano) + shift * self._unit * 1000
        return f"{front}{now // 10**9}.{now % 10**9:09d} s{rest}\n"

    def last(self, jobs: int, all_jobs: int, is_last: bool) -> str:
        """The last line of a part with so many of all jobs; empty where there is none.

        What was left out is told in the last part alone, and so are jobs that the line tells and that weren't there.
        """
        told = closing(self._last)
        if told is None:
            return ""
        written = max(told.written - all_jobs + jobs, 0) if is_last else jobs
        rest = self._last.partition(" written, ")[2] if is_last else "none left out"
        return f"# {written} {'job' if written == 1 else 'jobs'} written, {rest}\n"


CUT_SHORT = (
    "the document of a trace begins here, and its last line, as '# 8 jobs written, none left out', isn't there: it is "
    "cut short; look at what wrote it"
)


class Unclosed:
    """Where the document of a trace begins whose last line wasn't read yet. In the end there is none, or it is cut short."""

    def __init__(self) -> None:
        self.line = 0
        """The number of its first line, from 1; 0 where there is none."""
        self.file = ""

    def take(self, text: str, line: int, file: str = "") -> None:
        """Reads a comment."""
        if _OF_TRACE(text):
            self.line, self.file = (self.line, self.file) if self.line else (line, file)
        elif self.line and closing(text) is not None:
            self.line = 0


class Part(NamedTuple):
    """One part of a long document: its head, and its text, which begins with the head's line."""

    head: Head
    text: bytes
    left_out: int = 0
    """How many lines of levels, pieces and members the document has; they are in no part."""


def opened(text: Text) -> BinaryIO:
    """The text, to be read from its begin."""
    return io.BytesIO(text) if isinstance(text, bytes) else open(fspath(text), "rb")


def lines_of(text: Text) -> Iterator[bytes]:
    """The lines of the text, each with its line feed."""
    with opened(text) as source:
        yield from source


def called(text: Text, number: int, what: str) -> str:
    """How a message names the text: by its file, or by the part's number."""
    return f"the {what} of part {number}" if isinstance(text, bytes) else fspath(text)
