"""What each side spends, as values: bars, parted by point where the points are given."""

from __future__ import annotations

import re
from fractions import Fraction
from typing import Dict, Iterable, List, NamedTuple, Optional, Sequence, Tuple

from yds._comments import BESIDE, moved_of, with_moved
from yds._framed import Choice, Frame, Key, in_words
from yds._passed import check
from yds._pixels import text_width
from yds._scales import Units, energy_scale, short, speed_scale, units_of_told
from yds._text import Comment, Fault, Other, Point, Row, counted, printable
from yds._text import Units as ToldUnits

IDLE = "#bdbdbd"
NAME, NUMBER = 12.0, 12.5
"""Sizes of a bar's name and of its energy, in pixels."""
_MISSES = re.compile(r"# ([^ ]+) misses ([0-9]{1,18}) deadlines?").match
_CAVEAT = re.compile(rf"# ((?:part [0-9]+: )?(?:{BESIDE}).*)").match
_WHOLE = re.compile(r"[0-9]{1,30}").fullmatch
_FRACTION = re.compile(r"([0-9]{1,30})(?:\+([0-9]{1,30})/([0-9]{1,30}))?").fullmatch


class Side(NamedTuple):
    """What a side spends."""

    name: str
    energy: Optional[Fraction] = None
    """Power times time; None where it has none, as it is too slow."""
    times: Optional[Dict[int, Fraction]] = None
    """For each point's speed the units of time at it, in the order of the points; None where it isn't told."""
    misses: int = 0
    """How many deadlines it misses."""


class Energies(NamedTuple):
    """What was read of an answer."""

    sides: List[Side]
    points: List[Tuple[int, int]]
    caveats: List[str]
    """What is told of energy that is in no line."""
    units: Units


class Part(NamedTuple):
    """What a side spends at a point: a part of its bar."""

    side: int
    below: float
    above: float


class Upright(NamedTuple):
    """Whether the bars' names, and what stands above them, are written upwards, since they have no room beside another."""

    names: bool
    labels: bool


class Bars(NamedTuple):
    """The picture, in the words of the axes."""

    frame: Frame
    names: List[str]
    """What stands below each bar, of one line or two."""
    heights: List[Optional[float]]
    parts: List[Tuple[str, List[Part]]]
    """The parts of each colour; none where the bars aren't parted by point."""
    labels: List[Tuple[str, str]]
    """What stands above each bar: its energy, and below that how much it is above the plan's."""
    are_upright: Upright


def read_energies(rows: Iterable[Row]) -> Energies:
    """The sides of an answer of `compare` and of yds-energy."""
    sides: Dict[str, Side] = {}
    points: List[Tuple[int, int]] = []
    misses: Dict[str, int] = {}
    caveats: Dict[str, None] = {}
    moved: Dict[str, None] = {}
    units = ToldUnits()
    for row in rows:
        if isinstance(row, Point):
            points.append((row.speed, row.power))
        elif isinstance(row, Comment):
            late, caveat, deadline = _MISSES(row.text), _CAVEAT(row.text), moved_of(row.text)
            if " unit " in row.text:
                units.take(row.line)
            if late:
                misses[late.group(1)] = int(late.group(2))
            if caveat:
                caveats[caveat.group(1)] = None
            if deadline:
                moved[deadline[0]] = None
        elif isinstance(row, Other):
            _take(sides, row)
    if not sides:
        raise Fault("no energy line; is this the answer of compare?")
    for side in sides.values():
        if side.energy is None and side.times is not None:
            raise Fault(f"the side {side.name} has times and no energy")
    if moved:
        caveats[with_moved(len(moved))[2:]] = None
    found = [side._replace(misses=misses.get(side.name, 0)) for side in sides.values()]
    return Energies(found, points, list(caveats), units_of_told(units))


def _take(sides: Dict[str, Side], row: Other) -> None:
    fields = row.fields
    kind = fields[1] if len(fields) > 1 else ""
    check(row)
    if kind not in ("energy", "too-slow", "time"):
        return
    side = sides.get(fields[0], Side(fields[0]))
    if kind == "energy":
        if side.energy is not None:
            raise row.line.fault(f"the side {fields[0]} stands twice; write its lines into a new file", 0)
        side = side._replace(energy=_number(row, 2, 3))
    elif kind == "time":
        if len(fields) != 4 or not _WHOLE(fields[2]):
            raise row.line.fault(f'"{printable(row.line.text)}" is no line of compare or yds-energy')
        side = side._replace(times={**(side.times or {}), int(fields[2]): _number(row, 3, 4)})
    sides[fields[0]] = side


def _number(row: Other, place: int, count: int) -> Fraction:
    found = _FRACTION(row.fields[place]) if len(row.fields) == count else None
    if found is None or (found.group(3) is not None and not int(found.group(3))):
        raise row.line.fault(f'"{printable(row.line.text)}" is no line of compare or yds-energy', place)
    above = Fraction(int(found.group(1)))
    return above if found.group(3) is None else above + Fraction(int(found.group(2)), int(found.group(3)))


def bars(told: Energies, units: Optional[Units] = None, choice: Choice = Choice()) -> Bars:
    """The picture of the sides. ValueError where the points aren't those with which the energies were made."""
    units = told.units if units is None else units
    shown = [float(side.energy) for side in told.sides if side.energy is not None]
    scale = energy_scale(units, max(shown, default=0.0))
    heights = [None if side.energy is None else float(side.energy) * scale.factor for side in told.sides]
    is_parted = _is_parted(told)
    parts, key = _parts(told, units, scale.factor) if is_parted else ([], [])
    names = [_named(side) for side in told.sides]
    notes = [*told.caveats, *_least_point(told, units)]
    labels = [_label(side, told.sides, height, scale.word) for side, height in zip(told.sides, heights)]
    room = choice.inner(92, 24) / (len(names) + 0.2) - 6
    lines = [line for name in names for line in name.split("\n")]
    wide = max(text_width(line, NAME) for line in lines)
    below = 14 + 16 * (1 + any("\n" in name for name in names)) if wide <= room else int(wide) + 18
    are_upright = Upright(wide > room, max(text_width(text, NUMBER) for label in labels for text in label) > room)
    top = max([height for height in heights if height is not None], default=0.0)
    frame = Frame(
        "Energy",
        (0.4, len(names) + 0.6),
        (0.0, top * 1.18 or 1.0),
        "",
        scale.label,
        key,
        notes,
        right=24,
        below=below,
    )
    words = [f"{side.name}: {' '.join(text for text in label if text)}" for side, label in zip(told.sides, labels)]
    return Bars(in_words(frame, *words), names, heights, parts, labels, are_upright)


def _named(side: Side) -> str:
    missed = f"\nmisses {counted(side.misses, 'deadline', 'deadlines')}" if side.misses else ""
    return side.name + missed


def _is_parted(told: Energies) -> bool:
    """Whether each side that has an energy tells its time at each point; then it has to be that energy."""
    spending = [side for side in told.sides if side.energy is not None]
    speeds = [speed for speed, _ in told.points]
    if not told.points or not spending or any(side.times is None for side in spending):
        return False
    columns = {speed for side in spending for speed in side.times or {}}
    if len(columns) != len(speeds):
        return False
    for side in spending:
        if not _is_of_points(side, told.points):
            raise Fault(
                f"the energy of {side.name} isn't power times time on these points; give the points with which the "
                "energies were made"
            )
    return True


def _is_of_points(side: Side, points: Sequence[Tuple[int, int]]) -> bool:
    """Energy is power times time on the points, but for times that are rounded to thousandths."""
    times = side.times or {}
    if any(speed not in times for speed, _ in points) or side.energy is None:
        return False
    half = Fraction(1, 2000)
    spent = sum(power * times[speed] for speed, power in points)
    return abs(spent - side.energy) <= half * sum(power for _, power in points) + half + side.energy / 10**9


def _parts(told: Energies, units: Units, factor: float) -> Tuple[List[Tuple[str, List[Part]]], List[Key]]:
    """The parts of the bars, idle time grey, the others in the colours that gantt has for their speeds."""
    speeds = [speed for speed, _ in told.points]
    scale = speed_scale(units, speeds[-1])
    below = [0.0] * len(told.sides)
    found, key = [], []
    for speed, power in told.points:
        parts = []
        for place, side in enumerate(told.sides):
            part = power * float((side.times or {}).get(speed, 0)) * factor
            if part > 0 and side.energy is not None:
                parts.append(Part(place, below[place], below[place] + part))
                below[place] += part
        if parts:
            colour = IDLE if not speed else shade_of(speed, speeds)
            found.append((colour, parts))
            key.append(Key("box", colour, scale.told(speed) if speed else "idle"))
    return found, key


def shade_of(speed: int, speeds: Sequence[int]) -> str:
    """The colour of a point's speed: pale at the least above 0, dark at the greatest."""
    above = [one for one in speeds if one > 0]
    place = (speed - above[0]) / (above[-1] - above[0]) if above[-1] > above[0] else 1.0
    return shade(place)


PALETTE = ((181, 212, 238), (63, 143, 201), (8, 48, 107))


def shade(place: float) -> str:
    """The palette of speeds: pale at 0, dark at 1.

    >>> shade(0), shade(0.5), shade(1)
    ('#b5d4ee', '#3f8fc9', '#08306b')
    """
    first, second = (PALETTE[0], PALETTE[1]) if place < 0.5 else (PALETTE[1], PALETTE[2])
    part = (place if place < 0.5 else place - 0.5) * 2
    return "#" + "".join(f"{int(one + part * (two - one) + 0.5):02x}" for one, two in zip(first, second))


def _label(side: Side, sides: Sequence[Side], height: Optional[float], word: str) -> Tuple[str, str]:
    """The energy, and how much it is above the plan's."""
    if side.energy is None or height is None:
        return "too slow", ""
    plan = next((one.energy for one in sides if one.name == "plan"), None)
    change = ""
    if side.name != "plan" and plan:
        percent = float((side.energy / plan - 1) * 100)
        change = f"{percent:+.1f} %"
        change = f"{percent:+.2f} %" if change in ("+0.0 %", "-0.0 %") else change
    return f"{short(height)} {word}".rstrip(), change


def _least_point(told: Energies, units: Units) -> List[str]:
    """A note where the plan runs at the least point alone: then all that meets the deadlines may spend the same."""
    above = [speed for speed, _ in told.points if speed > 0]
    plan = next((side for side in told.sides if side.name == "plan" and side.times), None)
    if plan is None or not above or any(time for speed, time in (plan.times or {}).items() if speed > above[0]):
        return []
    return [
        f"the plan runs at the least point alone, {speed_scale(units, above[0]).told(above[0])}: it is enough at all times"
    ]
