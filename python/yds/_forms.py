"""Rows that are given, read field by field. What is wrong with one names its row and its field, as jobs[5].deadline."""

from __future__ import annotations

import re
from collections.abc import Iterable as IterableType
from fractions import Fraction
from reprlib import repr as short
from typing import Any, Callable, Collection, Iterable, Iterator, NamedTuple, Tuple

from yds._numbers import DECIMALS, NEAR, exact, whole

_NO_ORDER = (set, frozenset, dict)
_NAME = re.compile(r"[!-~]{1,64}")
_NAMES = re.compile(r"[!-~]{1,64}( [!-~]{1,64})*")


class Form(NamedTuple):
    """What the rows of a table are called, their fields, and what each field's value is taken for."""

    table: str
    fields: Tuple[str, ...]
    takes: Tuple[Callable[[Any], Any], ...]


def read(form: Form, rows: Iterable[Any]) -> Iterator[Any]:
    """The rows with their values taken. TypeError or ValueError says which field of which row isn't one."""
    if not isinstance(rows, IterableType) or isinstance(rows, _NO_ORDER):
        raise TypeError(f"{form.table} is a list of rows, and not {short(rows)}; from_pandas takes columns")
    takes, count = form.takes, len(form.fields)
    for place, row in enumerate(rows):
        values = row if isinstance(row, tuple) else _values(form, place, row)
        try:
            taken = tuple([take(value) for take, value in zip(takes, values)])
        except (TypeError, ValueError):
            raise _fault(form, place, values) from None
        if len(values) != count:
            fields = ", ".join(form.fields)
            raise ValueError(f"{form.table}[{place}] has {len(values)} fields, and a row has {count}: {fields}")
        yield taken


def _values(form: Form, place: int, row: Any) -> Tuple[Any, ...]:
    """The row's values."""
    if not isinstance(row, IterableType) or isinstance(row, (str, bytes, *_NO_ORDER)):
        fields = ", ".join(form.fields)
        raise TypeError(f"{form.table}[{place}] is a row of {fields}, and not {short(row)}; from_pandas takes columns")
    return tuple(row)


def _fault(form: Form, place: int, values: Tuple[Any, ...]) -> Exception:
    """What is wrong with the first field that isn't taken."""
    for field, take, value in zip(form.fields, form.takes, values):
        try:
            take(value)
        except (TypeError, ValueError) as fault:
            kind = TypeError if isinstance(fault, TypeError) else ValueError
            return kind(f"{form.table}[{place}].{field}: {fault}")
    raise AssertionError(f"every field of {form.table}[{place}] is taken")


def are_names(values: Collection[Any]) -> bool:
    """Whether each of these, one at least, is a string that is one field of a document."""
    if set(map(type, values)) != {str}:
        return False
    joined = " ".join(values)
    return joined.count(" ") == len(values) - 1 and _NAMES.fullmatch(joined) is not None


def name(value: Any) -> str:
    """The name, if it is one: otherwise it would be several fields, or lines, of the document."""
    if not isinstance(value, str):
        raise TypeError(f"a name is a string, and not {short(value)}; str(..) of a number is one")
    if _NAME.fullmatch(value):
        return value
    raise ValueError(f"{value!r} is no name: one has 1 to 64 visible ASCII characters, and no space")


def counted(value: Any) -> int:
    """A whole number of units of time or of work."""
    return value if type(value) is int else whole(value, DECIMALS)


def measured(value: Any) -> Any:
    """An exact number of units of time or of work, in a document's rows."""
    return value if type(value) is Fraction else exact(value, DECIMALS)


def foreign(value: Any) -> Fraction:
    """An exact number of units of time or of work, in slots of another program."""
    return value if type(value) is Fraction else exact(value, NEAR)


def speed(value: Any) -> int:
    """A whole number of units of speed or of power."""
    return whole(value, ". Speeds and powers are whole: count them in finer units")


JOBS = Form("jobs", ("name", "release", "deadline", "work"), (name, counted, counted, counted))
POINTS = Form("points", ("speed", "power"), (speed, speed))
SLOTS = Form("slots", ("job", "start", "end", "work"), (name, measured, measured, measured))
LEVELS = Form("levels", ("work", "length", "pieces", "members"), (whole, whole, tuple, tuple))
TASKS = Form("tasks", ("name", "offset", "period", "deadline", "work"), (name, whole, whole, whole, whole))
FOREIGN_SLOTS = Form("slots", ("job", "start", "end", "work"), (name, foreign, foreign, foreign))
