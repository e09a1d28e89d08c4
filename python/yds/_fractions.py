"""Fractions that are made many at once: of the words of a document, W or W+N/D, and of whole numbers."""

from __future__ import annotations

import math
from fractions import Fraction
from typing import Any, Callable, Iterable, List, Sequence, Tuple, Union

Read = Callable[[Sequence[str]], List[Fraction]]
Ratio = Callable[[int, int], Fraction]


def plainly(words: Sequence[str]) -> List[Fraction]:
    """The values of the words."""
    found = []
    for word in words:
        above, plus, rest = word.partition("+")
        found.append(Fraction(above) + Fraction(rest) if plus else Fraction(above))
    return found


def quickly(
    words: Sequence[str], _new: Any = object.__new__, _gcd: Callable[[int, int], int] = math.gcd
) -> List[Fraction]:
    """The same, made without what Fraction(..) would look at, in a third of the time.

    It sets the two names in which Fraction keeps its numbers. These are Fraction's own business, and so `_quickest`
    asks whether this Python still has them.
    """
    found = []
    for word in words:
        made: Any = _new(Fraction)
        if "+" in word:
            above, _, rest = word.partition("+")
            numerator, _, denominator = rest.partition("/")
            parts, whole = int(numerator), int(denominator)
            divisor = _gcd(parts, whole)
            if divisor != 1:
                parts //= divisor
                whole //= divisor
            made._numerator = int(above) * whole + parts
            made._denominator = whole
        else:
            made._numerator = int(word)
            made._denominator = 1
        found.append(made)
    return found


def plain_ratio(parts: int, whole: int) -> Fraction:
    """The fraction of two ints, the second above 0."""
    return Fraction(parts, whole)


def quick_ratio(parts: int, whole: int) -> Fraction:
    """The same, made as `quickly` makes them."""
    divisor = math.gcd(parts, whole)
    made: Any = object.__new__(Fraction)
    made._numerator = parts // divisor
    made._denominator = whole // divisor
    return made  # type: ignore[no-any-return]


def _quickest(quick: Read, quick_one: Ratio) -> Tuple[Read, Ratio]:
    """The quick ways, where they make what Fraction itself does; else the plain ones."""
    words = ("0", "7", "2+2/3", "1+4/6", "3+0/5", f"{2**70}+{3**40}/{3**50}")
    ratios = ((0, 3), (7, 1), (-8, 6), (2**70, 6**50))
    try:
        found = [*quick(words), *(quick_one(*ratio) for ratio in ratios)]
        wanted = [*plainly(words), *(Fraction(*ratio) for ratio in ratios)]
        same = [_seen(made) for made in found] == [_seen(made) for made in wanted]
    except Exception:
        same = False
    return (quick, quick_one) if same else (plainly, plain_ratio)


def _seen(made: Fraction) -> Tuple[object, ...]:
    return type(made), made, hash(made), repr(made), made + 1, made * 2 / 3


read, ratio = _quickest(quickly, quick_ratio)


def of_numbers(values: Iterable[Union[int, Fraction]]) -> List[Fraction]:
    """The values as Fractions, which some are already."""
    return [value if type(value) is Fraction else ratio(*value.as_integer_ratio()) for value in values]


def differences(values: Iterable[Fraction], others: Iterable[Fraction]) -> List[Fraction]:
    """Each value less the other one."""
    found = []
    for value, other in zip(values, others):
        (top, bottom), (parts, whole) = value.as_integer_ratio(), other.as_integer_ratio()
        if bottom == whole:
            found.append(ratio(top - parts, whole))
        else:
            found.append(ratio(top * whole - parts * bottom, bottom * whole))
    return found


def quotient(value: Fraction, other: Fraction) -> Fraction:
    """The value by the other, which is above 0."""
    (top, bottom), (parts, whole) = value.as_integer_ratio(), other.as_integer_ratio()
    return ratio(top * whole, bottom * parts)
