"""In how many documents each side costs at most so many times the plan, as values."""

from __future__ import annotations

from typing import List, NamedTuple, Tuple

from yds._framed import COLOURS, Frame, Key, in_words
from yds._scales import short
from yds._text import Fault, counted
from yds.tables import Energies


class Steps(NamedTuple):
    """A side: its ratios, at rising ones, and the share of the documents that cost at most that much."""

    name: str
    colour: str
    is_dashed: bool
    ratios: List[float]
    shares: List[float]
    """In hundredths of the documents."""


class Ratios(NamedTuple):
    """The picture."""

    frame: Frame
    sides: List[Steps]


def ratios(table: Energies) -> Ratios:
    """The picture of a table of yds-collect."""
    rows = [row for row in table.rows if row.answer == "ok" and row.energies.get("plan")]
    if not rows:
        raise Fault("no document with an energy; is this the table of yds-collect?")
    if not table.sides:
        raise Fault("no columns avr, oa or others; is this the table of yds-collect?")
    found: List[Tuple[str, List[float], int]] = []
    for side in table.sides:
        pairs = [(row.energies[side], row.energies["plan"]) for row in rows]
        spent = [float(energy / plan) for energy, plan in pairs if energy is not None and plan]
        found.append((side, sorted(spent), len(rows) - len(spent)))
    greatest = max([1.01, *(ratio for _, spent, _ in found for ratio in spent)])
    right = 1 + (greatest - 1) * 1.05
    sides = []
    for place, (side, spent, without) in enumerate(found):
        xs, ys = [1.0], [0.0]
        for number, ratio in enumerate(spent):
            xs += [ratio, ratio]
            ys += [number * 100 / len(rows), (number + 1) * 100 / len(rows)]
        name = side + (f" ({without} {'too slow' if side in ('avr', 'oa') else 'without'})" if without else "")
        sides.append(Steps(name, COLOURS[place % len(COLOURS)], place > 1, [*xs, right], [*ys, ys[-1]]))
    frame = Frame(
        f"Energy beside the plan's, {counted(len(rows), 'document', 'documents')}",
        (1 - (right - 1) * 0.02, right),
        (0.0, 104.0),
        "at most this many times the plan's energy",
        "share of the documents (%)",
        [Key("dashed" if one.is_dashed else "line", one.colour, one.name) for one in sides],
    )
    words = [f"{side}: at most {short(spent[-1])} times" for side, spent, _ in found if spent]
    return Ratios(in_words(frame, *words), sides)
