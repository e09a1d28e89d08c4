"""Works times a factor, rounded up to whole units."""

from __future__ import annotations

import re
from typing import NamedTuple, Optional

MOST_WORK = 1_000_000


class Factor(NamedTuple):
    """A factor as it was written: numerator/denominator, not in lowest terms."""

    numerator: int
    denominator: int

    def times(self, work: int) -> int:
        """The work times the factor, rounded up.

        >>> Factor(12, 10).times(4)
        5
        """
        return -(-work * self.numerator // self.denominator)

    def excess(self, work: int) -> int:
        """By how many parts of a denominator that is above the product.

        >>> Factor(12, 10).excess(4)
        2
        """
        return self.times(work) * self.denominator - work * self.numerator


_FRACTION = re.compile(r"([0-9]{1,20})/([1-9][0-9]{0,19})").fullmatch
_DECIMAL = re.compile(r"([0-9]{0,20})\.?([0-9]{0,20})").fullmatch


def read_factor(text: str) -> Optional[Factor]:
    """The factor, above 0 and up to 1000; None where it is none.

    >>> read_factor("1.2"), read_factor("6/5"), read_factor("20%")
    (Factor(numerator=12, denominator=10), Factor(numerator=6, denominator=5), None)
    """
    found = _FRACTION(text)
    if found is not None:
        factor = Factor(int(found.group(1)), int(found.group(2)))
    else:
        found = _DECIMAL(text)
        digits = "" if found is None else found.group(1) + found.group(2)
        if found is None or not digits:
            return None
        factor = Factor(int(digits), 10 ** len(found.group(2)))
    fits = 0 < factor.numerator <= 10**9 and factor.denominator <= 10**6
    return factor if fits and factor.numerator <= 1000 * factor.denominator else None
