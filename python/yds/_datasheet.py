"""Tables of a datasheet: rows of a frequency and a power or current, with their units in a heading."""

from __future__ import annotations

import re
from fractions import Fraction
from typing import Dict, List, NamedTuple, Optional, Tuple

from yds._domains import Domains
from yds._text import Line

KILOHERTZ = {"hz": Fraction(1, 1000), "khz": Fraction(1), "mhz": Fraction(1000), "ghz": Fraction(1_000_000)}
MICRO = {
    f"{scale}{unit}": factor
    for unit in "wa"
    for scale, factor in (
        ("n", Fraction(1, 1000)),
        ("u", Fraction(1)),
        ("m", Fraction(1000)),
        ("", Fraction(1_000_000)),
    )
}
VOLTS = {"v": Fraction(1), "mv": Fraction(1, 1000)}
NUMBER = re.compile(r"[0-9]{1,30}\.?[0-9]{0,30}|\.[0-9]{1,30}").fullmatch
_MICRO_SIGNS = re.compile("\xc2\xb5|\xce\xbc")
_LABEL = re.compile(r"[A-Za-z][A-Za-z0-9/]*").fullmatch
_COUNTING = re.compile(
    r"x|per|times|percent|milli|micro|nano|pico|kilo|mega|giga|(ten|hundred|thousand|million|billion)(th)?s?"
).fullmatch


class Given(NamedTuple):
    """What options say of a table."""

    volts: Optional[Fraction]
    """The voltage of a table of currents."""
    has_top: bool
    """Whether the power at the greatest of frequencies alone is given."""
    has_idle: bool
    """Whether the idle power is given."""


def shown(value: Fraction, digits: int = 12) -> str:
    """The number with so many digits at most."""
    return f"{float(value):.{digits}g}"


class Table:
    """The lines of a table, or of frequencies alone."""

    def __init__(self, domains: Domains, given: Given) -> None:
        self._domains = domains
        self._given = given
        self._units: List[str] = []
        self._measured = ""
        self._has_heading = False
        self._rows = 0
        self._line_of: Dict[Fraction, int] = {}
        self.idle: Optional[Fraction] = None
        """Microwatts at 0 MHz; None where no line tells them."""

    def take(self, line: Line) -> None:
        """Reads a line."""
        text = line.text.replace(",", ".") if ";" in line.text else line.text
        fields = re.sub(r'[,;\t"]', " ", text).split(" ")
        fields = [field for field in fields if field]
        wrong = next((field for field in fields if not NUMBER(field)), None)
        if wrong is not None:
            self._take_heading(line, text, fields[0], wrong)
        elif self._given.has_top:
            self._rows += 1
            self._domains.source = "cube of speed"
            for field in fields:
                self._domains.state("frequencies", Fraction(field))
        else:
            self._take_row(line, [Fraction(field) for field in fields])

    # --- A row.

    def _take_row(self, line: Line, numbers: List[Fraction]) -> None:
        current = self._given.volts is not None
        if not self._units:
            self._units, self._measured = ["mhz", "ma" if current else "mw"], "ma" if current else "mw"
        if len(numbers) != len(self._units):
            more = f"{len(numbers)} columns"
            if "\t" in line.text and "," in line.text and ";" not in line.text:
                more += " (with decimal commas, write semicolons in place of the tabs: else a comma parts columns)"
            if self._has_heading:
                raise line.fault(f"{more}, and the heading has the units of {len(self._units)}")
            unit = "mA" if current else "mW"
            kinds = (
                f"a table of two, MHz and {unit}, a heading with the units of more, or --top with frequencies in kHz"
            )
            raise line.fault(f"{more}; give {kinds}")
        self._rows += 1
        self._domains.source = "table"
        khz, power = self._values(line, numbers)
        if khz in self._line_of:
            where = f"stands on line {self._line_of[khz]} too; leave one of them out"
            raise line.fault(f"{shown(khz / 1000)} MHz {where}")
        self._line_of[khz] = line.number
        if khz:
            self._domains.state("table", khz).power = power
            return
        if self._given.has_idle:
            raise line.fault("--idle and a line of 0 MHz; leave one of them out")
        self.idle = power

    def _values(self, line: Line, numbers: List[Fraction]) -> Tuple[Fraction, Fraction]:
        """Kilohertz and microwatts."""
        khz = power = Fraction(0)
        volts = self._given.volts
        for unit, number in zip(self._units, numbers):
            if unit in KILOHERTZ:
                khz = number * KILOHERTZ[unit]
            elif unit in VOLTS:
                volts = number * VOLTS[unit]
            else:
                power = number * MICRO[_kind(unit)]
        if _is_current(self._measured):
            if power and not volts:
                raise line.fault("a current at 0 volts")
            power *= volts or 0
        if self._measured.endswith("/mhz"):
            if not khz and power:
                raise line.fault("at 0 MHz so much for each MHz is nothing; leave the line out and give --idle")
            power *= khz / 1000
        return khz, power

    # --- The heading.

    def _take_heading(self, line: Line, text: str, first: str, wrong: str) -> None:
        wrong = re.sub(r"[^ -~]", "?", wrong)
        if self._rows or (self._has_heading and NUMBER(first)):
            unit = "mW" if self._given.volts is None else "mA"
            columns = "as in the heading" if self._has_heading else f"MHz and {unit}"
            raise line.fault(f"{wrong} is no number; the columns are {columns}")
        if self._given.has_top:
            raise line.fault("--top is for frequencies alone, in kHz and without a heading; leave one of the two out")
        if self._has_heading:
            raise line.fault("two headings; give a table with one")
        if NUMBER(first):
            raise line.fault(
                f"{wrong} is no number; a row has numbers alone, and their units stand in a heading, as MHz,mA"
            )
        self._has_heading = True
        self._read_units(line, _MICRO_SIGNS.sub("u", text))

    def _read_units(self, line: Line, text: str) -> None:
        if re.search(r"[^ -~\t]", text):
            sign = re.sub(r"[^ -~\t]", "?", text)
            advice = "write it in plain letters, micro as u"
            raise line.fault(f"the heading has a sign that isn't known, written here as ?: {sign}; {advice}")
        text = re.sub(r" *\/ *", "/", text.replace(" per ", "/"))
        written = []
        for token in re.sub(r"[\]\[ \t\"'(){}<>;.,=_:-]+", " ", text).split():
            word = token.lower()
            if re.fullmatch(r"M[AVWavw]|mHz", token):
                meant = "MHz" if word == "mhz" else f"m{token[1:]}"
                raise line.fault(f"the heading says {token}; is that {meant}?")
            if word in KILOHERTZ or word in VOLTS or _kind(word) in MICRO:
                self._units.append(word)
                written.append(token)
            elif not _is_label(token):
                advice = "give each column a name of letters and its unit, as Current (mA)"
                raise line.fault(f"the heading says {token}, which isn't known; {advice}")
        self._check_heading(line, ", ".join(written))

    def _check_heading(self, line: Line, written: str) -> None:
        """A heading has one frequency, one power or current, and with a current perhaps one voltage."""
        hertz = sum(unit in KILOHERTZ for unit in self._units)
        voltages = sum(unit in VOLTS for unit in self._units)
        powers = [unit for unit in self._units if unit not in KILOHERTZ and unit not in VOLTS]
        self._measured = powers[-1] if powers else ""
        current = _is_current(self._measured)
        if hertz != 1 or len(powers) != 1 or voltages > 1 or (voltages and not current):
            told = f"the units {written}" if self._units else "no unit"
            known = "as MHz,mW or MHz,mA or MHz,uA/MHz or MHz,mA,V"
            raise line.fault(f"the heading says {told}; give each column one that is known, {known}")
        if current and not voltages and self._given.volts is None:
            raise line.fault(f"the heading says {written}; give --volts")
        if not current and self._given.volts is not None:
            raise line.fault(f"the heading says {written}; leave --volts out")
        if voltages and self._given.volts is not None:
            raise line.fault("--volts and a column of volts; leave one of them out")


def _kind(unit: str) -> str:
    return unit[: -len("/mhz")] if unit.endswith("/mhz") else unit


def _is_current(unit: str) -> bool:
    return _kind(unit).endswith("a")


def _is_label(word: str) -> bool:
    """Whether the word names a column, and neither counts nor scales its unit."""
    return bool(_LABEL(word)) and word not in list("kKmMunG") and not _COUNTING(word.lower())
