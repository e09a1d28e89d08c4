"""Numbers W+N/D of answers, moved and in lowest terms."""

from __future__ import annotations

from fractions import Fraction


def lowest(number: Fraction) -> bytes:
    """The number as an answer spells it, in lowest terms.

    >>> lowest(Fraction(9, 2)), lowest(Fraction(4))
    (b'4+1/2', b'4')
    """
    whole, parts = divmod(number.numerator, number.denominator)
    return b"%d" % whole if not parts else b"%d+%d/%d" % (whole, parts, number.denominator)


def moved(number: bytes, by: int) -> bytes:
    """The number with this added to its whole part.

    >>> moved(b"4+1/2", 10)
    b'14+1/2'
    """
    whole, plus, rest = number.partition(b"+")
    return b"%d%b%b" % (int(whole) + by, plus, rest)
