"""HTML by elements. What isn't HTML already is escaped, so that no name of a job or a thread is read as HTML."""

from __future__ import annotations

import re
from fractions import Fraction
from html import escape, unescape
from math import inf
from typing import Iterable, Optional, Sequence, Union

from yds._comments import Clock
from yds._priced import decimal
from yds._text import Units, spelled

Value = Union[int, Fraction, float]
"""An exact number, or inf."""
_EMPTY = frozenset(["meta", "br", "hr", "link", "img"])


class Markup(str):
    """A text that is HTML."""


def shown(text: str, most: int = 200) -> str:
    """The text without signs that a reader can't see, or that turn the order of others: each is told by its number.

    >>> shown("a\\x1b[2J\\u202eb")
    'a\\\\x1b[2J\\\\u202eb'
    """
    text = text if len(text) <= most else text[: most - 2] + ".."
    return "".join(sign if sign.isprintable() else _numbered(ord(sign)) for sign in text)


def _numbered(number: int) -> str:
    return f"\\x{number:02x}" if number < 256 else f"\\u{number:04x}"


def of_bytes(text: str) -> str:
    """A text of a document, whose bytes were read as Latin-1, in its own encoding, if that is UTF-8.

    >>> of_bytes("na\\xc3\\xafve"), of_bytes("na\\xefve")
    ('na\\xefve', 'na\\xefve')
    """
    try:
        return text.encode("latin-1").decode("utf-8")
    except UnicodeError:
        return text


def markup(value: object) -> Markup:
    """The value as HTML."""
    return value if isinstance(value, Markup) else Markup(escape(shown(str(value), 10_000), quote=True))


LINE_FEED = Markup("\n")


def join(parts: Iterable[object], between: str = "") -> Markup:
    """The parts one after the other."""
    return Markup(str(markup(between)).join(markup(part) for part in parts))


def element(name: str, /, *children: object, **attributes: object) -> Markup:
    """An element. An attribute's name may end with _, and _ within it is a hyphen; None: it isn't there.

    >>> print(element("p", "1 < 2", class_="told"))
    <p class="told">1 &lt; 2</p>
    """
    words = [name]
    for key, value in attributes.items():
        if value is not None:
            words.append(f'{key.rstrip("_").replace("_", "-")}="{markup(value)}"')
    head = f"<{' '.join(words)}>"
    return Markup(head) if name in _EMPTY else Markup(f"{head}{join(children)}</{name}>")


def table(
    caption: object, heads: Sequence[object], rows: Iterable[Sequence[object]], id_: Optional[str] = None
) -> Markup:
    """A table in a box that scrolls where the page is narrow. The first cell of a row names it."""
    head = element("tr", *(element("th", one, scope="col") for one in heads))
    body = [element("tr", element("th", row[0], scope="row"), *(element("td", one) for one in row[1:])) for row in rows]
    inner = element("table", element("thead", head), element("tbody", *body), id_=id_, aria_label=_plain(caption))
    told = element("p", caption, class_="caption")
    return join([told, element("div", inner, class_="wide", tabindex="0")])


def _plain(text: object) -> str:
    """The text without its elements, as a label has it."""
    return unescape(re.sub(r"<[^>]*>", "", text)) if isinstance(text, Markup) else str(text)


def number(value: str, told: str, shown_as: str) -> Markup:
    """A rounded number, with the exact one behind it: as the element's value, and where one points at it."""
    return element("data", shown_as, value=value, title=told)


NONE = Markup("&#8211;")
"""What stands for a number that isn't known."""


def exactly(value: Value) -> str:
    """An exact number as documents have it: W or W+N/D, with a sign before it; inf.

    >>> exactly(Fraction(-9, 2)), exactly(7), exactly(-inf)
    ('-4+1/2', '7', '-inf')
    """
    if value in (inf, -inf):
        return "inf" if value > 0 else "-inf"
    exact = Fraction(value)
    return (
        f"-{spelled(-exact.numerator, exact.denominator)}" if exact < 0 else spelled(exact.numerator, exact.denominator)
    )


class Scale:
    """How the numbers of a document are shown: in milliseconds, megahertz and joules where its comments tell units."""

    def __init__(self, units: Units, clock: Clock, microseconds: Optional[int] = None) -> None:
        self.us = Fraction(microseconds) if microseconds else units.value("time") or None
        self.khz = units.value("speed") or None
        self.uw = units.value("power") or None
        self._zero = clock.zero

    @property
    def time_unit(self) -> str:
        """In what times are shown."""
        return "ms" if self.us else "units of time"

    @property
    def speed_unit(self) -> str:
        """In what speeds are shown."""
        return "MHz" if self.khz else "units of speed"

    def time(self, value: Optional[Value]) -> Markup:
        """A length or a moment, without its unit."""
        if value is None:
            return NONE
        if value in (inf, -inf):
            return number(exactly(value), "it never ended", "never" if value > 0 else "no end")
        exact = Fraction(value)
        told = f"{exactly(exact)} units of time"
        return number(exactly(exact), told, decimal(exact * self.us / 1000 if self.us else exact, 3))

    def length(self, value: Optional[Value]) -> Markup:
        """A length with its unit."""
        return join([self.time(value), f" {self.time_unit}" if value not in (None, inf, -inf) else ""])

    def clock(self, value: Optional[Value]) -> Optional[str]:
        """Seconds on the trace's clock, cut to microseconds; None where it isn't known."""
        if value is None or value in (inf, -inf) or self._zero is None or not self.us:
            return None
        micro = (self._zero[0] * 10**9 + self._zero[1] + int(Fraction(value) * self.us * 1000 // 1)) // 1000
        return f"{micro // 10**6}.{micro % 10**6:06d}"

    def moment(self, value: Optional[Value]) -> Markup:
        """A moment on the trace's clock, or else from time 0."""
        clock = self.clock(value)
        if clock is None or value is None:
            return self.time(value)
        return number(exactly(value), f"{exactly(value)} units of time after time 0", clock)

    @property
    def moment_unit(self) -> str:
        """In what moments are shown."""
        return "s of the trace's clock" if self._zero is not None and self.us else self.time_unit

    def speed(self, value: Value) -> Markup:
        """A speed, without its unit."""
        exact = Fraction(value)
        told = f"{exactly(exact)} units of speed"
        return number(exactly(exact), told, decimal(exact * self.khz / 1000 if self.khz else exact, 2))

    def with_speed(self, value: Value) -> Markup:
        """A speed with its unit."""
        return join([self.speed(value), f" {self.speed_unit}"])

    def energy(self, value: Value) -> Markup:
        """An energy with its unit, of four digits."""
        exact = Fraction(value)
        if not self.us or not self.uw:
            return number(exactly(exact), f"{exactly(exact)} units of energy", _short(exact))
        pico = self.us * self.uw
        told = f"{exactly(exact)} units of {_prefixed(pico)}"
        return number(exactly(exact), told, _prefixed(exact * pico))


def _short(value: Fraction) -> str:
    """The number with at least four digits that tell."""
    places = 0
    while places < 6 and 0 < abs(value) * 10**places < 1000:
        places += 1
    return decimal(value, places)


_PREFIXES = (("J", 10**12), ("mJ", 10**9), ("\u00b5J", 10**6), ("nJ", 10**3), ("pJ", 1))


def _prefixed(pico: Fraction) -> str:
    """Picojoules, with the unit that fits."""
    unit, scale = next(((unit, scale) for unit, scale in _PREFIXES if abs(pico) >= scale), _PREFIXES[-1])
    return f"{_short(pico / scale)} {unit}"


def percent(value: Fraction) -> str:
    """A share in hundredths, with one decimal; what isn't 0 isn't written as 0.

    >>> percent(Fraction(1, 3)), percent(Fraction(1, 10**6)), percent(Fraction(0))
    ('33.3 %', 'under 0.1 %', '0 %')
    """
    return "under 0.1 %" if 0 < value < Fraction(1, 2000) else f"{decimal(value * 100, 1)} %"
