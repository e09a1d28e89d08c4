"""Any answer of yds_cli, and of the commands, as tables."""

from __future__ import annotations

import re
from typing import Dict, List, Optional

from yds._forms_of_answers import NUMBER, TEXT, Cell, Cells, Form, found, fraction_cells, value
from yds._text import Line, OneDocument, Units, printable, spelled

_DUE = re.compile(r" # due at ([0-9]+\.[0-9]+) s$").search
_NOTED = re.compile(
    r"(left out|late, without its runs|late by less than a unit of time|not ended|late in a run within one tick|"
    r"late on another processor): "
    r"(.* ms after its deadline.*)"
).fullmatch
_LATENESS = re.compile(r", (by |not ended |[0-9.]+ ms ).*$").search
_BY = re.compile(r"by ([0-9+/]+)").fullmatch
_AT_LEAST = re.compile(r"by at least ([0-9+/]+): given ([0-9+/]+) wanted ([0-9]+)").fullmatch
_MS = re.compile(r"(not ended )?([0-9.]+) ms after its deadline").fullmatch


class Tables:
    """The tables of answers: for each its rows, and its columns in the order in which they were seen."""

    def __init__(self) -> None:
        self.rows: Dict[str, List[Cells]] = {}
        self.columns: Dict[str, Dict[str, None]] = {}
        self.file = ""
        """What the first column of each new row says; nothing where it is empty."""
        self.begin()

    def begin(self) -> None:
        """Says that the lines of another answer come."""
        self._level = 0
        self._units = Units()
        self._document = OneDocument()

    def end(self) -> None:
        """Says that all lines of an answer are read."""
        self._document.end()

    def take(self, line: Line) -> None:
        """Reads a line of an answer."""
        fields = line.fields
        if not fields:
            return
        told = found(fields)
        if told is not None:
            if fields[0] == "ticks":
                self._document.take_ticks(line)
            self._keep(told[0], told[1], fields)
        elif self._take_miss(line.text.strip(" \t")):
            return
        elif fields[0].startswith("#"):
            if " unit " in line.text:
                self._units.take(line)
            self._document.take_comment(line)
            self._put("comments", {"text": Cell(TEXT, line.text.strip(" \t"))})
        elif line.text.strip(" \t").startswith("usage: yds_cli "):
            self._put("refusals", {"reason": Cell(TEXT, "usage")})
        elif fields[0].startswith("{"):
            raise line.fault("the answer is JSON already")
        else:
            raise line.fault(f'"{printable(line.text.strip(" "))}" is no line of an answer')

    def _put(self, table: str, cells: Cells) -> None:
        """A new row."""
        first: Cells = {"file": Cell(TEXT, self.file)} if self.file else {}
        self.rows.setdefault(table, []).append({**first, **cells})
        self.columns.setdefault(table, {}).update(dict.fromkeys([*first, *cells]))

    def _keep(self, form: Form, cells: Cells, fields: List[str]) -> None:
        kind = form.words[0].literal
        if kind == "level":
            self._level += 1
            number = spelled(int(fields[1]), int(fields[2])) if int(fields[2]) else "0"
            cells = {"level": Cell(NUMBER, str(self._level)), **cells, **fraction_cells("speed", number)}
        elif kind in ("piece", "member"):
            cells = {"level": Cell(NUMBER, str(self._level)), **cells}
        elif kind == "slot" and form.table == "slots":
            length = value(fields[3]) - value(fields[2])
            if length > 0:
                cells["speed"] = Cell(NUMBER, f"{float(value(fields[4]) / length):.12g}")
        if form.goes_on and form.table in self.rows:
            self.rows[form.table][-1].update(cells)
            self.columns[form.table].update(dict.fromkeys(cells))
        else:
            self._put(form.table, cells)

    def _take_miss(self, text: str) -> bool:
        """Whether it is a line of yds-misses that tells how late a job was, or when it was due on the trace's clock."""
        due = _DUE(text)
        text = text[: due.start()] if due else text
        after: Cells = {"due": Cell(NUMBER, due.group(1))} if due else {}
        noted = _NOTED(text)
        if noted is not None:
            job = noted.group(2).split(" ")[0]
            cells = {"verdict": Cell(TEXT, noted.group(1)), "job": Cell(TEXT, job[:-1] if job.endswith(",") else job)}
            self._put("verdicts", {**cells, "reason": Cell(TEXT, noted.group(2)), **after})
            return True
        by = _LATENESS(text)
        lateness = None if by is None else _lateness(by.group()[2:])
        if not due and lateness is None:
            return False
        told = found(text[: by.start()].split() if by else text.split())
        if told is None or told[0].table != "verdicts" or (by and lateness is None):
            return False
        self._put("verdicts", {**told[1], **(lateness or {}), **after})
        return True


def _lateness(text: str) -> Optional[Cells]:
    """The cells that say by how much a job was late; None where the text doesn't."""
    by, at_least, ms = _BY(text), _AT_LEAST(text), _MS(text)
    if by:
        return fraction_cells("late", by.group(1))
    if at_least:
        late, given, wanted = at_least.groups()
        return {
            **fraction_cells("late_at_least", late),
            **fraction_cells("given", given),
            "wanted": Cell(NUMBER, wanted),
        }
    if ms:
        return {"not_ended_ms" if ms.group(1) else "late_ms": Cell(NUMBER, ms.group(2))}
    return None
