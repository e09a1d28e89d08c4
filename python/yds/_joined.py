"""Texts of one document, put together where what their comments tell is the same: units, the clock, the period."""

from __future__ import annotations

import re
from typing import Dict, List, Tuple

from yds._heads import CUT_SHORT, Unclosed, read_head
from yds._text import BYTE_ORDER_MARK, MARKED, NO, Fault, Line, base, printable

KINDS = frozenset("job task horizon slot run ticks point level piece member grid energy".split())
TIMED = frozenset(["job", "task", "slot", "run"])
_UNITS = {
    "time": (re.compile(r"time unit ([0-9.]+ us)"), "give both the same --us"),
    "speed": (re.compile(r"speed unit ([0-9.]+ kHz)"), "give both the same --khz"),
    "power": (re.compile(r"power unit ([0-9.]+ uW)"), "give the points of one --uw"),
}
_ZERO = re.compile(r"time 0 is ([0-9]+\.[0-9]+ s)")
_PERIOD = re.compile(r"# period ([0-9]+)")


def shown(file: str) -> str:
    """The file's name in a comment, without its folders."""
    return "".join(sign if " " <= sign <= "~" else "?" for sign in base(file))


class Joined:
    """What the texts tell so far."""

    def __init__(self) -> None:
        self.told_by = ""
        """The first text that tells units."""
        self.untold: List[str] = []
        """The texts that need units and tell none."""
        self._known: Dict[str, Tuple[str, str]] = {}
        self._points_by = ""
        self._lines = 0
        self._unclosed = Unclosed()
        self._has_points = self._has_units = self._needs_units = self._has_ticks = False

    def take(self, line: Line) -> None:
        """Reads a line of a text."""
        fields = line.fields
        if not fields:
            return
        kind = fields[0]
        if kind in NO:
            raise line.fault(f"the input is an answer of no: {printable(line.text)}")
        if kind.startswith("#"):
            self._take_comment(line)
        elif kind.startswith(BYTE_ORDER_MARK):
            raise line.fault(MARKED, 0)
        elif kind not in KINDS:
            raise line.fault(f'"{printable(line.text.strip())}" is no line of a document')
        else:
            self._lines += 1
            if kind == "ticks":
                self._take_ticks(line)
            self._has_points = self._has_points or kind == "point"
            self._needs_units = self._needs_units or kind in TIMED

    def _take_ticks(self, line: Line) -> None:
        if self._has_ticks:
            raise line.fault("a second line of ticks, so this is of another document; give the texts of one", 0)
        self._has_ticks = True

    def _take_comment(self, line: Line) -> None:
        self._take_ends(line)
        for kind, (form, hint) in _UNITS.items():
            found = form.search(line.text)
            if found:
                self._tell(line, f"a unit of {kind} of", found.group(1), hint)
                self.told_by = self.told_by or line.file
                self._has_units = True
        zero, period = _ZERO.search(line.text), _PERIOD.fullmatch(line.text)
        if zero:
            self._tell(line, "time 0 at", zero.group(1), "give one trace")
        if period:
            self._tell(line, "the period", period.group(1), "give the jobs of one horizon")

    def _take_ends(self, line: Line) -> None:
        """Reads where a part, and where the document of a trace, begins and ends."""
        if read_head(line.text.encode("latin-1", "replace") + b"\n"):
            self._refuse_cut()
            # Each part of a trace has a time 0 and ticks of its own.
            self._known.pop("time 0 at", None)
            self._has_ticks = False
        self._unclosed.take(line.text, line.number, line.file)

    def _refuse_cut(self) -> None:
        if self._unclosed.line:
            raise Fault(CUT_SHORT, self._unclosed.file, self._unclosed.line)

    def _tell(self, line: Line, what: str, told: str, hint: str) -> None:
        """What a comment tells has to be what another told before."""
        before, file = self._known.setdefault(what, (told, line.file))
        if before != told:
            raise line.fault(f"{what} {told} here, and {before} in {file}; {hint}")

    def finish(self, file: str) -> None:
        """Says that a text has ended."""
        self._refuse_cut()
        if not self._lines:
            raise Fault(f"{file} has no line of a document; look at what wrote it")
        if self._has_points and self._points_by:
            raise Fault(f"{file} has points, and {self._points_by} too; give the points of one device")
        if self._has_points:
            self._points_by = file
        if self._needs_units and not self._has_units:
            self.untold.append(file)
        self._lines = 0
        self._has_points = self._has_units = self._needs_units = False
