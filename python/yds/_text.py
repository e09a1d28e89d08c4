"""The lines of documents and answers as typed rows, and what is wrong with one, with its file, line and column.

Bytes are read as Latin-1 and written so, so that a comment in any encoding stays as it is. Numbers of a slot are whole
numbers over a denominator, and no Fractions: a long document has a million of them.
"""

from __future__ import annotations

import os
import re
import sys
from fractions import Fraction
from typing import BinaryIO, Dict, Iterable, Iterator, List, NamedTuple, Optional, Sequence, Tuple, Union

from yds._heads import CUT_SHORT, MOST_BYTES, Unclosed, read_head

STANDARD_INPUT = "-"
_FIELD = re.compile(r"[^ \t]+")
_WHOLE = re.compile(r"[0-9]{1,30}").fullmatch
_FRACTION = re.compile(r"([0-9]{1,30})(?:\+([0-9]{1,30})/([0-9]{1,30}))?").fullmatch
NO = ("refused", "failed", "too-slow", "usage:")
"""How an answer of no begins."""
BYTE_ORDER_MARK = "\xef\xbb\xbf"
MARKED = "a byte order mark, which yds_cli refuses as UnknownKind; take its three bytes away: tail -c +4 FILE"


class Fault(ValueError):
    """What is wrong with an input, where, and what to do."""

    def __init__(self, told: str, file: str = STANDARD_INPUT, line: int = 0, column: int = 0) -> None:
        self.told, self.file, self.line, self.column = told, file, line, column
        place = [] if file == STANDARD_INPUT else [file]
        place += [f"line {line}"] if line else []
        place += [f"column {column}"] if column else []
        super().__init__(": ".join([", ".join(place), told] if place else [told]))


class UnitsFault(Fault):
    """Comments of one document that tell two units."""


class Line(NamedTuple):
    """A line of a text: its file, its number from 1, and its text without its end."""

    file: str
    number: int
    text: str

    @property
    def fields(self) -> List[str]:
        """What stands between spaces and tabs."""
        return _FIELD.findall(self.text)

    def column(self, field: int) -> int:
        """The column at which the field of this number, from 0, begins; the line's end where there is none."""
        found = [match.start() for match in _FIELD.finditer(self.text)]
        return found[field] + 1 if field < len(found) else len(self.text) + 1

    def fault(self, told: str, field: Optional[int] = None) -> Fault:
        """A fault of this line, or of one of its fields."""
        return Fault(told, self.file, self.number, 0 if field is None else self.column(field))


def printable(text: str) -> str:
    """The text with ? for each sign that isn't plain, so that no terminal obeys it; the begin alone of a long one."""
    shown = re.sub(r"[^ -~]", "?", text[:61])
    return shown[:60] + ".." if len(shown) > 60 else shown


def lines(files: Sequence[str]) -> Iterator[Line]:
    """The lines of the files, one after the other; of standard input where there are none."""
    for file in files or [STANDARD_INPUT]:
        if file == STANDARD_INPUT:
            yield from lines_of(sys.stdin.buffer, file)
            continue
        with open(file, "rb") as source:
            yield from lines_of(source, file)


def lines_of(source: BinaryIO, file: str = STANDARD_INPUT) -> Iterator[Line]:
    """The lines of an open file."""
    number = 0
    while True:
        read = source.readline(MOST_BYTES + 1)
        if not read:
            return
        number += 1
        if len(read) > MOST_BYTES:
            raise Fault(f"a line of more than {MOST_BYTES} bytes", file, number)
        text = read.decode("latin-1")
        text = text[:-1] if text.endswith("\n") else text
        yield Line(file, number, text[:-1] if text.endswith("\r") else text)


def base(path: str) -> str:
    """The file's name without its folders, as a line of the output has it."""
    return os.fsencode(os.path.basename(path)).decode("latin-1")


# --- Rows.


class Job(NamedTuple):
    """A job: units of time, and of work."""

    line: Line
    name: str
    release: int
    deadline: int
    work: int


class Task(NamedTuple):
    """A periodic task: units of time, and of work."""

    line: Line
    name: str
    offset: int
    period: int
    deadline: int
    work: int


class Point(NamedTuple):
    """An operating point: work per unit of time, and power."""

    line: Line
    speed: int
    power: int


class Slot(NamedTuple):
    """A slot or a run: from start/per to end/per, and work/grain of work."""

    line: Line
    kind: str
    job: str
    start: int
    end: int
    per: int
    work: int
    grain: int

    @property
    def speed(self) -> Fraction:
        """Work per unit of time."""
        return Fraction(self.work * self.per, self.grain * (self.end - self.start))


class Ticks(NamedTuple):
    """How many ticks of runs a unit of time has."""

    line: Line
    ticks: int


class Horizon(NamedTuple):
    """Until when tasks release jobs."""

    line: Line
    end: int


class Comment(NamedTuple):
    """A line that begins with #."""

    line: Line
    text: str


class Other(NamedTuple):
    """Another line that isn't empty: its fields."""

    line: Line
    fields: List[str]


Row = Union[Job, Task, Point, Slot, Ticks, Horizon, Comment, Other]

_FORMS = {
    "job": "a job needs NAME RELEASE DEADLINE WORK, in whole numbers",
    "task": "a task needs NAME OFFSET PERIOD DEADLINE WORK, in whole numbers",
    "point": "a point needs SPEED POWER, in whole numbers",
    "run": "a run needs NAME FROM TO SPEED, in whole numbers",
    "slot": "a slot needs NAME FROM TO WORK, in numbers or fractions W+N/D",
    "ticks": "ticks need one number of 1 or more",
    "horizon": "a horizon needs one whole number",
}


def whole(line: Line, fields: Sequence[str], first: int, count: int) -> List[int]:
    """The whole numbers of a line from its field of this number on."""
    if len(fields) != first + count:
        raise line.fault(_FORMS[fields[0]], min(len(fields), first + count))
    for place in range(first, first + count):
        if _WHOLE(fields[place]) is None:
            raise line.fault(_FORMS[fields[0]], place)
    return [int(field) for field in fields[first:]]


def fraction(line: Line, fields: Sequence[str], place: int) -> Tuple[int, int]:
    """The numerator and the denominator of the field of this number."""
    found = _FRACTION(fields[place])
    if found is None or (found.group(3) is not None and int(found.group(3)) == 0):
        raise line.fault(_FORMS[fields[0]], place)
    if found.group(3) is None:
        return int(found.group(1)), 1
    return int(found.group(1)) * int(found.group(3)) + int(found.group(2)), int(found.group(3))


class OneDocument:
    """Sees that a text is one document, and one of a trace whole: it has one head of a part, and is closed."""

    def __init__(self) -> None:
        self._part: Optional[Line] = None
        self._unclosed = Unclosed()
        self._has_ticks = False

    def take_comment(self, line: Line) -> None:
        """Reads a comment. The head of another part is a fault: its times count from another time 0."""
        text = line.text
        if text.startswith("# part ") and read_head(text.encode("latin-1", "replace") + b"\n") is not None:
            if self._part is not None:
                raise line.fault(
                    f"another part begins here, behind that of line {self._part.number}, and its times count from "
                    "another time 0; give one part at a time: yds-parts --split makes a file of each"
                )
            self._part = line
        self._unclosed.take(text, line.number, line.file)

    def take_ticks(self, line: Line) -> None:
        """Reads a line of ticks. Another one is of another document."""
        if self._has_ticks:
            raise line.fault("a second line of ticks, so this is of another document; give one at a time", 0)
        self._has_ticks = True

    def end(self) -> None:
        """Says that all lines are read."""
        if self._unclosed.line:
            raise Fault(CUT_SHORT, self._unclosed.file, self._unclosed.line)


class Rows:
    """The rows of a document's lines, in their order.

    An answer of no, two units, two documents, a trace's document that is cut short, and a wrong number are faults.
    """

    def __init__(self, source: Iterable[Line] = ()) -> None:
        self._source = source
        self._ticks: Optional[int] = None
        self._document = OneDocument()
        self.units = Units()

    def __iter__(self) -> Iterator[Row]:
        for line in self._source:
            row = self.row(line)
            if row is not None:
                yield row
        self.end()

    def end(self) -> None:
        """Says that all lines are read. Who asks for each row by its line says it."""
        self._document.end()

    def row(self, line: Line) -> Optional[Row]:
        """The row of a line; None of an empty one."""
        fields = line.fields
        if not fields:
            return None
        kind = fields[0]
        if kind[0] == "#":
            if " unit " in line.text:
                self.units.take(line)
            self._document.take_comment(line)
            return Comment(line, line.text.lstrip(" \t"))
        if kind in NO:
            raise line.fault(f"the input is an answer of no: {printable(line.text)}")
        if kind.startswith(BYTE_ORDER_MARK):
            raise line.fault(MARKED, 0)
        return self._row(line, kind, fields)

    def _row(self, line: Line, kind: str, fields: List[str]) -> Row:
        if kind == "slot":
            return _slot(line, fields)
        if kind == "run":
            return self._run(line, fields)
        if kind == "job":
            return Job(line, _name(line, fields), *whole(line, fields, 2, 3))
        if kind == "point":
            return Point(line, *whole(line, fields, 1, 2))
        if kind == "task":
            return Task(line, _name(line, fields), *whole(line, fields, 2, 4))
        if kind == "ticks":
            self._ticks = whole(line, fields, 1, 1)[0]
            if not self._ticks:
                raise line.fault(_FORMS["ticks"], 1)
            self._document.take_ticks(line)
            return Ticks(line, self._ticks)
        if kind == "horizon":
            return Horizon(line, *whole(line, fields, 1, 1))
        return Other(line, fields)

    def _run(self, line: Line, fields: List[str]) -> Slot:
        start, end, speed = whole(line, fields, 2, 3)
        if self._ticks is None:
            raise line.fault("a run before any line of ticks", 0)
        if end <= start:
            raise line.fault("a run without length", 3)
        ticks = self._ticks
        return Slot(line, "run", fields[1], start, end, ticks, speed * (end - start), ticks)


def _name(line: Line, fields: Sequence[str]) -> str:
    if len(fields) < 2:
        raise line.fault(_FORMS[fields[0]], 1)
    return fields[1]


def _slot(line: Line, fields: List[str]) -> Slot:
    if len(fields) != 5:
        raise line.fault(_FORMS["slot"], min(len(fields), 5))
    start, per = fraction(line, fields, 2)
    end, end_per = fraction(line, fields, 3)
    work, grain = fraction(line, fields, 4)
    if end_per != per:
        start, end, per = start * end_per, end * per, per * end_per
    if end <= start:
        raise line.fault("a slot without length", 3)
    return Slot(line, "slot", fields[1], start, end, per, work, grain)


# --- Units.

_UNIT = re.compile(r"(time|speed|power) unit ([0-9.]+) (us|kHz|uW)")
_WORDS = {"time": "us", "speed": "kHz", "power": "uW"}
_HINTS = {
    "time": "give both the same --us",
    "speed": "give points and trace the same --khz",
    "power": "give the points of one --uw",
}


class Units:
    """The units that comments tell: those of one document are the same in all of its texts."""

    def __init__(self) -> None:
        self.told: Dict[str, str] = {}

    def take(self, line: Line) -> None:
        """Reads a comment; a unit that isn't the one before is a fault."""
        for kind, amount, word in _UNIT.findall(line.text):
            if word != _WORDS[kind]:
                continue
            before = self.told.setdefault(kind, amount)
            if _value(before) != _value(amount):
                here = f"a unit of {kind} of {amount} {word} here and {before} {word} before"
                column = line.text.index(kind + " unit") + 1
                raise UnitsFault(f"{here}; {_HINTS[kind]}", line.file, line.number, column)

    def value(self, kind: str) -> Optional[Fraction]:
        """The unit of time in microseconds, of speed in kilohertz, or of power in microwatts; None where none is told."""
        told = self.told.get(kind)
        return None if told is None else _value(told)


def _value(amount: str) -> Fraction:
    try:
        return Fraction(amount)
    except ValueError:
        return Fraction(0)


# --- Numbers out.


def spelled(numerator: int, denominator: int) -> str:
    """The number as the program writes it, in lowest terms: W or W+N/D.

    >>> spelled(9, 2), spelled(8, 2)
    ('4+1/2', '4')
    """
    value = Fraction(numerator, denominator)
    above, rest = divmod(value.numerator, value.denominator)
    return f"{above}+{rest}/{value.denominator}" if rest else str(above)


def counted(number: int, one: str, more: str) -> str:
    """The number, and one of the two texts.

    >>> counted(1, "job is", "jobs are"), counted(2, "job is", "jobs are")
    ('1 job is', '2 jobs are')
    """
    return f"{number} {one if number == 1 else more}"
