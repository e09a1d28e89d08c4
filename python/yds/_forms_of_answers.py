"""The forms of the lines that yds_cli and the commands write: to which table each belongs, and its columns."""

from __future__ import annotations

import re
from fractions import Fraction
from typing import Dict, List, NamedTuple, Optional, Sequence, Tuple

_WHOLE = re.compile(r"[0-9]{1,40}").fullmatch
_FRACTION = re.compile(r"([0-9]{1,40})(?:\+([0-9]{1,40})/([1-9][0-9]{0,39}))?").fullmatch

TEXT, NUMBER = "text", "number"


class Cell(NamedTuple):
    """A cell: whether it is a text or a number, and how it is written."""

    kind: str
    written: str


Cells = Dict[str, Cell]


class Word(NamedTuple):
    """A word of a form: the column that it fills, of which kind (t, w or f), or the word itself."""

    column: str
    kind: str
    literal: str

    def fits(self, field: str) -> bool:
        """Whether the field is such a word."""
        if self.kind == "w":
            return _WHOLE(field) is not None
        if self.kind == "f":
            return _FRACTION(field) is not None
        return self.kind == "t" or field == self.literal


class Form(NamedTuple):
    """A form of line."""

    table: str
    goes_on: bool
    """Whether its cells belong to the row above."""
    words: Tuple[Word, ...]

    def cells(self, fields: Sequence[str]) -> Optional[Cells]:
        """The cells of the fields; None where they are of another form."""
        if len(fields) != len(self.words) or not all(word.fits(field) for word, field in zip(self.words, fields)):
            return None
        cells: Cells = {}
        for word, field in zip(self.words, fields):
            if word.kind == "f":
                cells.update(fraction_cells(word.column, field))
            elif word.column:
                cells[word.column] = Cell(
                    TEXT if word.kind in ("t", "") else NUMBER, field if word.kind != "w" else str(int(field))
                )
        return cells


def fraction_cells(column: str, text: str) -> Cells:
    """A fraction as a decimal of 15 digits, and as its exact text."""
    return {column: Cell(NUMBER, decimal(text)), f"{column}_exact": Cell(TEXT, text)}


def decimal(text: str) -> str:
    """The decimal of W+N/D with 15 digits; a whole number as it is."""
    return str(int(text)) if "+" not in text else f"{float(value(text)):.15g}"


def value(text: str) -> Fraction:
    """The value of W+N/D."""
    found = _FRACTION(text)
    if found is None:
        raise ValueError(f"{text} is no number")
    above, numerator, denominator = found.groups()
    return Fraction(int(above)) + (Fraction(int(numerator), int(denominator)) if denominator else 0)


def _word(token: str) -> Word:
    if "=" in token:
        column, literal = token.split("=")
        return Word(column, "", literal)
    name, colon, kind = token.rpartition(":")
    return Word(name, kind, "") if colon and kind in ("t", "w", "f") else Word("", "", token)


def _form(table: str, words: str) -> Form:
    return Form(table.rstrip("+"), table.endswith("+"), tuple(map(_word, words.split(" "))))


_VERDICTS = [
    "verdict=feasible",
    "verdict=backward slot slot:w job:t from:f to:f",
    "verdict=overlap slot slot:w job:t from:f previous previous:f",
    "verdict=early slot slot:w job:t from:f release release:w",
    "verdict=late slot slot:w job:t to:f deadline deadline:w",
    "verdict=off-point slot slot:w job:t from:f to:f work:f",
    "verdict=work job:t given given:f wanted wanted:w",
]
_CONDITIONS = [
    "K2 level level:w",
    "K3 job job:t",
    "K4 level level:w",
    "K5 level level:w",
    "K6 job job:t",
    "K7 slot slot:w",
]
_TABLES: List[Tuple[str, str]] = [
    ("jobs", "job name:t release:w deadline:w work:w"),
    ("points", "point speed:w power:w"),
    ("slots", "slot job:t from:f to:f work:f"),
    ("runs", "run job:t from:w to:w speed:w"),
    ("ticks", "ticks ticks:w"),
    ("levels", "level work:w length:w"),
    ("pieces", "piece from:w to:w"),
    ("members", "member job:t"),
    ("grids", "grid grid:w rounded:w"),
    ("energies", "energy energy:f"),
    *(("verdicts", text) for verdict in _VERDICTS for text in (verdict, f"condition=K1 {verdict}")),
    ("verdicts", "verdict=feasible as far as the as_far_as=trace shows"),
    ("verdicts", "verdict=accepted"),
    *(("verdicts", f"condition={condition}") for condition in _CONDITIONS),
    ("refusals", "refused line:w column:w reason:t"),
    ("refusals", "refused reason:t"),
    ("refusals", "reason=failed"),
    ("too_slow", "too-slow work work:w length length:w top top:w"),
    ("too_slow", "side:t too-slow units units:w from from:w to to:w top top:w"),
    ("energies", "side:t energy energy:f"),
    ("times", "side:t time speed:w time:f"),
    ("roundings", "side:t rounded rounded:w"),
    ("misses", "# side:t misses deadlines:w deadlines, the first first:t"),
    ("misses", "# side:t misses deadlines:w deadline, the first first:t"),
    ("refused_jobs", "# refuse job:t from from:w to to:w work work:w top top:w"),
    ("missed", "missed:w missed deadline"),
    ("missed", "missed:w missed deadlines"),
    ("one_level", "# one level work:w length:w"),
    ("report", "jobs jobs:w work work:w from from:w to to:w"),
    ("report+", "idle idle:w"),
    ("levels", "level:w work:w length:w speed:f"),
    ("breaks", "break speed:f excess:f"),
    ("trial", "jobs jobs:w"),
    ("trial+", "levels levels:w"),
    ("trial+", "slots slots:w"),
    ("trial+", "peak peak_work:w peak_length:w"),
    ("trial+", "peak none"),
]
FORMS = [_form(table, words) for table, words in _TABLES]
TABLES = list(dict.fromkeys([*(form.table for form in FORMS), "comments"]))
_OF_FIRST: Dict[Tuple[str, int], List[Form]] = {}
for _one in FORMS:
    _OF_FIRST.setdefault((_one.words[0].literal, len(_one.words)), []).append(_one)


def found(fields: Sequence[str]) -> Optional[Tuple[Form, Cells]]:
    """The form of a line of these fields, and its cells; None where it has none."""
    for first in (fields[0], ""):
        for form in _OF_FIRST.get((first, len(fields)), []):
            cells = form.cells(fields)
            if cells is not None:
                return form, cells
    return None
