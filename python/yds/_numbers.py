"""Which numbers are taken: those that are exact, and decimals where a unit is named in which they are counted."""

from __future__ import annotations

import math
from decimal import Decimal
from fractions import Fraction
from numbers import Rational
from operator import index
from typing import Any, Dict, Iterable, Optional, Tuple, Union

Decimalish = Union[int, float, str, Decimal, Fraction]

DECIMALS = ". Document.from_decimal(.., denominator=..) takes decimals, and counts in units of 1/denominator"
"""What is told beside a float in a document's rows."""
NEAR = (
    ". yds.schedule.near finds an exact schedule near one of decimals, and tells what it moved; "
    "Fraction takes a number at its word"
)
"""What is told beside a float in the slots of another program."""


def exact(value: Any, advice: str = ". Fraction takes its text, as in Fraction('0.1')") -> Fraction:
    """The value of an int or a Fraction, also of other packages' ints. Neither a float nor a truth value is taken."""
    if isinstance(value, Fraction):
        return value
    if type(value) is int:
        return Fraction(value)
    if is_truth(value):
        raise TypeError(f"{value!r} is a truth value, and no number")
    if isinstance(value, Rational):
        return Fraction(int(value.numerator), int(value.denominator))
    if hasattr(value, "__index__"):
        return Fraction(index(value))
    raise TypeError(f"{value!r} is neither an int nor a Fraction, and what is counted is exact{advice}")


def is_truth(value: Any) -> bool:
    """Whether the value is True or False, also numpy's, which are no bools."""
    return type(value).__name__ in ("bool", "bool_")


def whole(value: Any, advice: str = ". Numbers are whole here: count in finer units") -> int:
    """The value of a number that has to be whole."""
    if type(value) is int:
        return value
    number = exact(value, advice)
    if number.denominator != 1:
        raise ValueError(f"{value!r} isn't whole, as it has to be here{advice}")
    return number.numerator


def integer(value: Any, what: str, least: Optional[int] = None) -> int:
    """The value of a whole number that is an option of a call."""
    wanted = f"{what} is a whole number" + ("" if least is None else f" of at least {least}")
    if isinstance(value, bool) or not isinstance(value, Rational):
        raise TypeError(f"{wanted}, and {value!r} is none")
    if value.denominator != 1 or (least is not None and value < least):
        raise ValueError(f"{wanted}, and not {value!r}")
    return int(value.numerator)


class Units:
    """Decimals, counted in units of 1/denominator to the nearest; half a unit goes to the even number."""

    def __init__(self, denominator: Any, most: Optional[Decimalish] = None) -> None:
        self._denominator = integer(denominator, "the denominator", 1)
        self._most = None if most is None else decimal(most)
        self._given = most

    def time(self, value: Decimalish) -> int:
        """The units of a time."""
        return self._nearest(decimal(value), value)

    def work(self, value: Decimalish) -> int:
        """The units of a work. One above 0 that comes to no unit is refused: it would be wanted no more."""
        given = decimal(value)
        units = self._nearest(given, value)
        if units == 0 and given > 0:
            raise ValueError(
                f"{value!r} is a work above 0, and comes to no unit of 1/{self._denominator}: "
                "take a greater denominator, or give 0"
            )
        return units

    def _nearest(self, given: Fraction, value: Decimalish) -> int:
        if given < 0:
            raise ValueError(f"{value!r} is below 0, as no time and no work is")
        units = round(given * self._denominator)
        if self._most is not None and abs(Fraction(units, self._denominator) - given) > self._most:
            raise ValueError(
                f"{value!r} comes to {units} units of 1/{self._denominator}, and is moved by more than {self._given}: "
                "take another denominator, or a greater most"
            )
        return units


def decimal(value: Decimalish) -> Fraction:
    """The exact value of a decimal: of a float, a Decimal or a text too."""
    if is_truth(value):
        raise TypeError(f"{value!r} is a truth value, and no number")
    try:
        return Fraction(value)
    except (OverflowError, ZeroDivisionError):
        raise ValueError(f"{value!r} is no number") from None


def total(values: Iterable[Fraction]) -> Fraction:
    """The sum. Those of one denominator are added first, and then neighbours, so that few denominators grow long."""
    parts: Dict[int, int] = {}
    for value in values:
        numerator, denominator = value.as_integer_ratio()
        parts[denominator] = parts.get(denominator, 0) + numerator
    sums = [(numerator, denominator) for denominator, numerator in sorted(parts.items())]
    while len(sums) > 1:
        rest = sums[-1:] if len(sums) % 2 else []
        sums = [_sum(one, other) for one, other in zip(sums[::2], sums[1::2])] + rest
    return Fraction(*sums[0]) if sums else Fraction(0)


def _sum(one: Tuple[int, int], other: Tuple[int, int]) -> Tuple[int, int]:
    """The sum of two fractions, over the least denominator that fits both."""
    divisor = math.gcd(one[1], other[1])
    factor = other[1] // divisor
    return one[0] * factor + other[0] * (one[1] // divisor), one[1] * factor
