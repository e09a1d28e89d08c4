"""Lines that a picture passes over, since another kind of picture is made of them; and those that no picture knows."""

from __future__ import annotations

from yds._text import Other, printable

_VERDICTS = ("late", "early", "work", "overlap", "backward", "off-point")
_OF_DOCUMENTS = ("level", "piece", "member", "grid", "energy")
_OF_SIDES = ("energy", "time", "rounded", "too-slow")


def check(row: Other) -> None:
    """A fault where the line is a verdict of no, or of no form of a document or an answer: it may be a run misspelled."""
    fields = row.fields
    if fields[0] in _VERDICTS and fields[1:2] and fields[1] not in _OF_SIDES:
        raise row.line.fault(f"the input is an answer of no: {printable(row.line.text)}")
    is_of_side = len(fields) > 2 and fields[1] in _OF_SIDES
    if not is_of_side and fields[0] not in (*_OF_DOCUMENTS, "break"):
        raise row.line.fault(f'"{printable(row.line.text)}" is no line of a document or an answer', 0)
