"""Units of a document, and the scales of a picture's axes: which word suits the greatest number, and by which factor."""

from __future__ import annotations

import re
from fractions import Fraction
from typing import NamedTuple, Optional, Sequence, Tuple

from yds._text import Units as ToldUnits

_PREFIXES = {"": 0, "n": -9, "u": -6, "µ": -6, "m": -3, "k": 3, "M": 6, "G": 9}
_UNIT = re.compile(r"([0-9]{1,20}(?:\.[0-9]{1,20}|/[1-9][0-9]{0,19})?)([nuµmkMG]?)(s|Hz|W)").fullmatch
_BASES = ("s", "Hz", "W")


class Units(NamedTuple):
    """What a unit of a document is; None where it isn't known."""

    time: Optional[Fraction] = None
    """Seconds."""
    speed: Optional[Fraction] = None
    """Hertz."""
    power: Optional[Fraction] = None
    """Watts."""


class Scale(NamedTuple):
    """An axis: its numbers are those of the document times the factor."""

    factor: float
    word: str
    """The unit behind a number, as ms; empty where none is known."""
    label: str
    """What stands at the axis."""

    def told(self, number: float) -> str:
        """A number of the document as a short text with its unit."""
        return f"{short(number * self.factor)} {self.word}".rstrip()


def units_of(text: str) -> Units:
    """The units that a word as 10us,10MHz,1mW tells. ValueError where it tells none.

    >>> units_of("10us,,1mW")
    Units(time=Fraction(1, 100000), speed=None, power=Fraction(1, 1000))
    >>> units_of("1/3ms").time
    Fraction(1, 3000)
    """
    parts = text.split(",")
    if len(parts) > 3:
        raise ValueError(f"{text} isn't TIME,SPEED,POWER as 10us,10MHz,1mW")
    found = [_unit(part, base, text) for part, base in zip(parts, _BASES)]
    return Units(*found)


def units_of_told(told: ToldUnits) -> Units:
    """The units that comments tell."""
    time, speed, power = (told.value(kind) for kind in ("time", "speed", "power"))
    return Units(time / 10**6 if time else None, speed * 1000 if speed else None, power / 10**6 if power else None)


def _unit(part: str, base: str, text: str) -> Optional[Fraction]:
    if not part:
        return None
    found = _UNIT(part)
    if found is None or found.group(3) != base or not Fraction(found.group(1)):
        raise ValueError(f"{text} isn't TIME,SPEED,POWER as 10us,10MHz,1mW")
    return Fraction(found.group(1)) * Fraction(10) ** _PREFIXES[found.group(2)]


def short(number: float) -> str:
    """At most three digits that tell, without zeros at the end.

    >>> short(0.1234), short(1420), short(62.04), short(-1.5), short(0)
    ('0.123', '1420', '62', '-1.5', '0')
    """
    if number < 0:
        return "-" + short(-number)
    text = f"{number:.0f}" if number >= 100 else f"{number:.3g}"
    return text if "e" in text or "." not in text else text.rstrip("0").rstrip(".")


def _chosen(greatest: float, unit: Optional[Fraction], words: Sequence[Tuple[str, int]]) -> Tuple[float, str]:
    """The factor and the word of the first power of ten that the greatest number reaches; of the last one else."""
    if not unit:
        return 1.0, ""
    word, power = next(
        ((word, power) for word, power in words if greatest * float(unit) >= 10.0**power * (1 - 1e-12)), words[-1]
    )
    return float(unit / Fraction(10) ** power), word


def _scale(name: str, plain: str, greatest: float, chosen: Tuple[float, str]) -> Scale:
    """The scale by its unit. Without one, great numbers are told in millions, so that they have room at an axis."""
    factor, word = chosen
    if word:
        return Scale(factor, word, f"{name} ({word})")
    powers = [(12, "10¹²"), (9, "10⁹"), (6, "10⁶")]
    for power, told in powers:
        if greatest >= 10.0 ** (power + (power == 6)):
            return Scale(10.0**-power, "", f"{name} (in {told}{' ' + plain if plain else ''})")
    return Scale(1.0, "", f"{name} ({plain})" if plain else name)


def time_scale(units: Units, greatest: float, name: str = "time") -> Scale:
    """The scale of times up to this one, or of lengths of time."""
    words = [("s", 0), ("ms", -3), ("µs", -6), ("ns", -9)]
    return _scale(name, "units", greatest, _chosen(greatest, units.time, words))


def speed_scale(units: Units, greatest: float) -> Scale:
    """The scale of speeds up to this one. Up to 10 GHz they are told in MHz."""
    factor, word = _chosen(greatest, units.speed, [("GHz", 10), ("MHz", 6), ("kHz", 3)])
    return _scale("speed", "work per unit of time", greatest, (factor * (10 if word == "GHz" else 1), word))


def work_scale(units: Units, greatest: float, name: str) -> Scale:
    """The scale of works up to this one."""
    unit = None if units.time is None or units.speed is None else units.time * units.speed
    words = [("Gcycles", 9), ("Mcycles", 6), ("kcycles", 3), ("cycles", 0)]
    return _scale(name, "", greatest, _chosen(greatest, unit, words))


def energy_scale(units: Units, greatest: float) -> Scale:
    """The scale of energies up to this one."""
    unit = None if units.time is None or units.power is None else units.time * units.power
    words = [("J", 0), ("mJ", -3), ("µJ", -6), ("nJ", -9)]
    return _scale("energy", "power × time", greatest, _chosen(greatest, unit, words))


def span_told(units: Units, length: Fraction) -> str:
    """A length of time, given in the document's units, with the unit that suits it.

    >>> span_told(Units(Fraction(1, 100000)), Fraction(169))
    '1.69 ms'
    """
    return time_scale(units, float(length)).told(float(length))
