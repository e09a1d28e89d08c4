"""Powers of speeds, by an exponent or a table, and what work at them spends. `yds.energy` says what they mean."""

from __future__ import annotations

import math
from bisect import bisect_left
from collections.abc import Iterable as IterableType
from fractions import Fraction
from numbers import Rational
from typing import Any, Dict, Iterable, List, Literal, NamedTuple, Optional, Sequence, Tuple, Union

from yds._forms import Form, read
from yds._fractions import ratio
from yds._numbers import exact, total
from yds.rows import PointLike

Table = Iterable[PointLike]
"""Rows of speed (work per unit of time) and power (energy per unit of time)."""
Power = Union[int, float, Table]
"""An exponent, or a table."""
Energy = Union[Fraction, float]
"""Power times time: a float where the exponent is one, else a Fraction."""
By = Optional[Literal["hull", "points"]]
"""Whether slots mix a table's points by its lower hull, or each run at a point; None where both come to the same."""


class Span(NamedTuple):
    """So much work (units of work) in so much time (units of time), at one speed; and what it is called."""

    named: str
    work: Fraction
    length: Fraction


def hull(table: Table) -> List[Tuple[Fraction, Fraction]]:
    """The table's lower hull: its first and its last point, and of the others those that aren't above it.

    >>> [(int(speed), int(power)) for speed, power in hull([(0, 0), (1, 3), (2, 4), (4, 10)])]
    [(0, 0), (2, 4), (4, 10)]
    """
    kept: List[Tuple[Fraction, Fraction]] = []
    for speed, power in checked(table):
        while len(kept) > 1 and _between(kept[-2], (speed, power), kept[-1][0]) < kept[-1][1]:
            kept.pop()
        kept.append((speed, power))
    return kept


_ROWS = Form("table", ("speed", "power"), (exact, exact))


class Checked(List[Tuple[Fraction, Fraction]]):
    """A table's rows in exact numbers, which were looked at."""


def checked(table: Table) -> Checked:
    """The table's rows in exact numbers; ValueError where the first isn't of speed 0, or speeds don't rise."""
    if isinstance(table, Checked):
        return table
    if not isinstance(table, IterableType):
        raise TypeError(f"a power is an exponent, or a table's rows of speed and power, and not {table!r}")
    rows = Checked((speed, power) for speed, power in read(_ROWS, table))
    if not rows or rows[0][0] != 0:
        raise ValueError("a table of powers begins with the power at speed 0, as the row (0, 30)")
    for place, (before, after) in enumerate(zip(rows, rows[1:])):
        if after[0] <= before[0]:
            raise ValueError(f"table[{place + 1}].speed: {after[0]} stands after {before[0]}; sort the rows by speed")
    if min(power for _, power in rows) < 0:
        raise ValueError("a power is at least 0")
    return rows


def of_spans(spans: Sequence[Span], power: Any, whole: Optional[Fraction], by: By) -> Energy:
    """What the spans spend, and the rest of the whole time, in which nothing runs."""
    if by not in (None, "hull", "points"):
        raise ValueError(f"by is 'hull', 'points' or None, and not {by!r}")
    if not is_exponent(power):
        return _by_table(spans, checked(power), whole, by)
    if by is not None:
        raise ValueError("by says how the points of a table are meant, and an exponent has none")
    return _by_exponent(spans, power)


def is_exponent(power: Any) -> bool:
    """Whether the power is an exponent, and not a table."""
    return isinstance(power, (float, Rational))


def _by_exponent(spans: Sequence[Span], exponent: Any) -> Energy:
    if isinstance(exponent, float):
        if not 1 <= exponent < math.inf:
            raise ValueError(f"an exponent is at least 1, and not {exponent!r}")
        works = [_float(*span.work.as_integer_ratio()) for span in spans]
        lengths = [_float(*span.length.as_integer_ratio()) for span in spans]
        return math.fsum(work**exponent * length ** (1 - exponent) for work, length in zip(works, lengths))
    if isinstance(exponent, bool) or exponent.denominator != 1:
        raise TypeError(f"an exponent is an int, with an exact energy, or a float, and not {exponent!r}")
    if exponent < 1:
        raise ValueError(f"an exponent is at least 1, and not {exponent!r}")
    return total(_of_span(span, int(exponent)) for span in spans)


def _of_span(span: Span, exponent: int) -> Fraction:
    """The speed to the exponent, times the length, which is above 0."""
    (work, grain), (length, unit) = span.work.as_integer_ratio(), span.length.as_integer_ratio()
    return ratio(work**exponent * unit ** (exponent - 1), grain**exponent * length ** (exponent - 1))


def _by_table(
    spans: Sequence[Span], rows: List[Tuple[Fraction, Fraction]], whole: Optional[Fraction], by: By
) -> Fraction:
    idle, powers, lower = rows[0][1], dict(rows), hull(rows)
    if idle and whole is None:
        raise ValueError(f"at speed 0 the table draws {idle}: say start and end, from when to when that is counted")
    if by == "hull" or (by is None and len(lower) == len(rows)):
        drawn = _mixed(spans, lower)
    else:
        drawn = [span.length * _drawn(span, powers, lower, by) for span in spans]
    rest = Fraction(0) if not idle or whole is None else whole - total(span.length for span in spans)
    return total([*drawn, idle * rest])


def _mixed(spans: Sequence[Span], lower: List[Tuple[Fraction, Fraction]]) -> List[Fraction]:
    """What all spans between two neighbours of the hull draw, for each such pair: it hangs on their sums alone."""
    heads = [_float(speed.numerator, speed.denominator) for speed, _ in lower]
    found: List[List[Span]] = [[] for _ in lower]
    for span in spans:
        (work, grain), (time, unit) = span.work.as_integer_ratio(), span.length.as_integer_ratio()
        speed = _float(work * unit, grain * time)
        place = bisect_left(heads, speed)
        while place < len(lower) and heads[place] == speed and span.work > lower[place][0] * span.length:
            place += 1
        if place == len(lower):
            top = lower[-1][0]
            raise ValueError(
                f"{span.named} has the speed {span.work / span.length}, above the last of the table, {top}"
            )
        found[place].append(span)
    drawn = []
    for (low, high), some in zip(zip([lower[0], *lower], lower), found):
        length = total(span.length for span in some)
        slope = Fraction(0) if low is high else (high[1] - low[1]) / (high[0] - low[0])
        drawn.append(length * low[1] + (total(span.work for span in some) - low[0] * length) * slope)
    return drawn


def _float(numerator: int, denominator: int) -> float:
    """The float nearest to the quotient; infinity where it is greater than all floats.

    Quotients whose floats differ are in the order of these. Where two come to one float, only the exact numbers tell.
    """
    try:
        return numerator / denominator
    except OverflowError:
        return math.inf


def _drawn(span: Span, powers: Dict[Fraction, Fraction], lower: List[Tuple[Fraction, Fraction]], by: By) -> Fraction:
    """The power that the span draws."""
    speed = span.work / span.length
    if speed > lower[-1][0]:
        raise ValueError(f"{span.named} has the speed {speed}, above the last of the table, {lower[-1][0]}")
    at_point = powers.get(speed)
    if by == "points":
        if at_point is None:
            raise ValueError(f"{span.named} has the speed {speed}, where the table has no point; by='hull' mixes two")
        return at_point
    place = bisect_left(lower, (speed,))
    mixed = lower[0][1] if place == 0 else _between(lower[place - 1], lower[place], speed)
    if by is None and at_point is not None and at_point != mixed:
        raise ValueError(
            f"{span.named} has the speed {speed} of a point that draws {at_point}, and a mix of others draws {mixed}: "
            "say by='points' if it runs at that point, by='hull' if it mixes"
        )
    return mixed


def _between(low: Tuple[Fraction, Fraction], high: Tuple[Fraction, Fraction], speed: Fraction) -> Fraction:
    """The power at a speed on the line through two points."""
    return low[1] + (high[1] - low[1]) * (speed - low[0]) / (high[0] - low[0])
