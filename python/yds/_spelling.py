"""How the lines of a document are spelled, and how those that the library wrote or has read are read here."""

from __future__ import annotations

import math
from fractions import Fraction
from typing import Any, Iterable, Iterator, List, Sequence, Tuple

from yds import _fractions
from yds._forms import LEVELS, Form, name, read
from yds._numbers import whole
from yds.rows import Job, Level, Piece, Point


def common(denominators: Iterable[int]) -> int:
    """The least common multiple."""
    least = 1
    for denominator in denominators:
        least = least // math.gcd(least, denominator) * denominator
    return least


def level_lines(levels: Iterable[Any]) -> Iterator[str]:
    """The levels, each followed by its pieces and its members."""
    for place, (work, length, pieces, members) in enumerate(read(LEVELS, levels)):
        yield f"level {work} {length}"
        for start, end in read(Form(f"levels[{place}].pieces", ("start", "end"), (whole, whole)), pieces):
            yield f"piece {start} {end}"
        for (member,) in read(Form(f"levels[{place}].members", ("name",), (name,)), ((job,) for job in members)):
            yield f"member {member}"


def lines(kind: str, form: Form, rows: Iterable[Any]) -> Iterator[str]:
    """A line for each row."""
    line = " ".join([kind, *("%s" for _ in form.fields)])
    for row in read(form, rows):
        yield line % row


def rows_of(table: Any, kind: str, columns: Sequence[str]) -> List[Any]:
    """The rows of a table of columns, which have to be of one length."""
    found = [list(table[column]) for column in columns]
    if len({len(values) for values in found}) > 1:
        lengths = ", ".join(f"{column} {len(values)}" for column, values in zip(columns, found))
        raise ValueError(f"the columns of {kind} differ in length ({lengths}): give each row every field")
    return list(zip(*found))


def joined(*parts: Iterable[str]) -> bytes:
    """The lines of all parts as a text, each with its line feed."""
    return "".join(line + "\n" for part in parts for line in part).encode("ascii")


def read_fraction(word: bytes) -> Fraction:
    """The value of W or W+N/D.

    >>> read_fraction(b"2+2/3")
    Fraction(8, 3)
    """
    return _fractions.read((word.decode("ascii"),))[0]


def lines_of(text: bytes, *kinds: bytes) -> Iterator[List[bytes]]:
    """The fields of each line of these kinds, of a text that the library has read without a fault, or has written."""
    for line in text.split(b"\n"):
        fields = line.split()
        if fields and fields[0] in kinds:
            yield fields


def statements(text: bytes) -> List[List[bytes]]:
    """The fields of each line that says something: comments and empty lines don't."""
    lines = (line.split() for line in text.split(b"\n"))
    return [fields for fields in lines if fields and not fields[0].startswith(b"#")]


def line_of(text: bytes, kind: bytes) -> List[bytes]:
    """The fields after the kind, in the one line of this kind. It stands near the end of the answers that have it."""
    for line in reversed(text.split(b"\n")):
        fields = line.split()
        if fields[:1] == [kind]:
            return fields[1:]
    raise ValueError(f"the text has no line {kind.decode()!r}")


def read_jobs(text: bytes) -> Tuple[Job, ...]:
    """The jobs of a text."""
    rows = lines_of(text, b"job")
    return tuple(Job(job.decode("ascii"), int(start), int(end), int(work)) for _, job, start, end, work in rows)


def read_points(text: bytes) -> Tuple[Point, ...]:
    """The operating points of a text."""
    return tuple(Point(int(speed), int(power)) for _, speed, power in lines_of(text, b"point"))


def read_levels(text: bytes) -> Tuple[Level, ...]:
    """The levels of a text, with their pieces and members."""
    levels: List[Tuple[int, int, List[Piece], List[str]]] = []
    for kind, *rest in lines_of(text, b"level", b"piece", b"member"):
        if kind == b"level":
            levels.append((int(rest[0]), int(rest[1]), [], []))
        elif kind == b"piece":
            levels[-1][2].append(Piece(int(rest[0]), int(rest[1])))
        else:
            levels[-1][3].append(rest[0].decode("ascii"))
    return tuple(Level(work, length, tuple(pieces), tuple(members)) for work, length, pieces, members in levels)
