"""How much more than the least a schedule spends."""

from __future__ import annotations

from fractions import Fraction
from typing import Tuple

from yds._heads import MOST_BYTES, MOST_JOBS, MOST_SLOTS, MOST_TIME
from yds._program import Answer
from yds._spelling import line_of, read_fraction
from yds._text import Fault


def least(text: bytes, jobs: int, slots: int, latest: int, answer: Answer) -> Tuple[Fraction, Fraction]:
    """Between which energies the least of the document's jobs on its points lies; the same twice where it is known."""
    if jobs <= MOST_JOBS and slots <= MOST_SLOTS and len(text) <= MOST_BYTES and latest <= MOST_TIME:
        status, told = answer(["round"], text)
        if status:
            raise Fault(f"the least isn't known: {told.decode('latin-1').strip() or f'round ended with {status}'}")
        energy = read_fraction(line_of(told, b"energy")[0])
        return energy, energy
    from yds.parts import bounds, cut

    parts = [part.text for part in cut(text.splitlines(keepends=True), shift=latest > MOST_TIME)]
    found = bounds(parts, answer=answer)
    if found.lower is None or found.upper is None:
        raise Fault("the least isn't known: " + "; ".join(found.told))
    return found.lower, found.upper


def judged(energy: Fraction, bounds: Tuple[Fraction, Fraction], most: Fraction) -> Tuple[bool, str]:
    """Whether the energy is surely more than so many hundredths above the least, and the words that say how much."""
    low, high = bounds
    if low <= 0:
        return energy > 0, "spends something, and the least is 0" if energy else "spends nothing, as the least"
    more = [(energy / bound - 1) * 100 for bound in (high, low)]
    if low == high:
        told = f"spends {_percent(more[0])} % more than the least"
    else:
        told = f"spends from {_percent(more[0])} to {_percent(more[1])} % more than the least"
    if more[0] <= most < more[1]:
        told += f", which leaves open whether it is more than {_percent(most)} %"
    return more[0] > most, told


def _percent(value: Fraction) -> str:
    return f"{float(value):.1f}"
