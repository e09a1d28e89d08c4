"""The least work above each speed, as values, with the places of its labels."""

from __future__ import annotations

from fractions import Fraction
from typing import Iterable, List, NamedTuple, Optional, Sequence, Tuple

from yds._framed import SMALL, Choice, Frame, in_words
from yds._passed import check
from yds._pixels import Label, placed, text_width
from yds._scales import Units, short, speed_scale, units_of_told, work_scale
from yds._text import Comment, Fault, Line, Other, Point, Row, printable
from yds._text import Units as ToldUnits
from yds._text import fraction as fraction_of

LINE_HEIGHT = 14.0
MOST_FAR = 3
"""A point up to so many times the greatest speed of the curve is in its picture; of a farther one its edge tells."""


class Excess(NamedTuple):
    """The picture, in the words of the axes."""

    frame: Frame
    corners: List[Tuple[float, float]]
    """Speed and work of each break."""
    labels: List[str]
    """The speed of each break; the first, at 0, has none."""
    points: List[Tuple[float, str]]
    """Operating points, and their speeds as texts."""
    beyond: str
    """What stands at the right edge where the least point is far beyond it."""


class Placed(NamedTuple):
    """A label and the dot that it belongs to, in pixels of the axes."""

    label: Label
    dot: Tuple[float, float]

    @property
    def is_far(self) -> bool:
        """Whether a line has to lead from the one to the other."""
        return self.label.y - self.dot[1] > 16


class Breaks(NamedTuple):
    """What was read of an answer of `curve`, and of the points before it."""

    breaks: List[Tuple[Fraction, Fraction]]
    points: List[int]
    units: Units


def read_breaks(rows: Iterable[Row]) -> Breaks:
    """The breaks of an answer of `curve`, and the points before them."""
    found = Breaks([], [], Units())
    told = ToldUnits()
    for row in rows:
        if isinstance(row, Point):
            found.points.append(row.speed)
        elif isinstance(row, Comment) and " unit " in row.text:
            told.take(row.line)
        elif isinstance(row, Other) and row.fields[0] == "break":
            found.breaks.append(_break(row.line, row.fields))
        elif isinstance(row, Other):
            check(row)
    if not found.breaks:
        raise Fault("no break line; is this the answer of curve?")
    return found._replace(units=units_of_told(told))


def _break(line: Line, fields: List[str]) -> Tuple[Fraction, Fraction]:
    try:
        if len(fields) != 3:
            raise line.fault("", 1)
        return Fraction(*fraction_of(line, ["slot", *fields[1:]], 1)), Fraction(
            *fraction_of(line, ["slot", *fields[1:]], 2)
        )
    except Fault:
        raise line.fault(f"a break without numbers: {printable(line.text)}") from None


def excess(
    breaks: Sequence[Tuple[Fraction, Fraction]], points: Sequence[int], units: Units, choice: Choice = Choice(720.0)
) -> Excess:
    """The picture of the breaks of a curve, at rising speeds."""
    greatest = float(breaks[-1][0]) or 1.0
    above = sorted(float(point) for point in points if point > greatest)
    right = greatest * 1.08
    beyond = ""
    if above and above[0] <= greatest * MOST_FAR:
        right = max(right, above[0] * 1.04)
    elif above and not any(0 < point <= greatest for point in points):
        beyond = f"the least point is {speed_scale(units, above[0]).told(above[0])} →"
    speed = speed_scale(units, right)
    work = work_scale(units, float(breaks[0][1]), "least work above it")
    corners = [(float(one) * speed.factor, float(work_above) * work.factor) for one, work_above in breaks]
    labels = [""] + [short(one) for one, _ in corners[1:]]
    shown = sorted({point for point in points if 0 < point <= right})
    frame = Frame(
        "What no schedule can avoid",
        (0.0, right * speed.factor),
        (0.0, corners[0][1] * 1.08 or 1.0),
        speed.label,
        work.label,
        left=100,
        right=44,
        above=36 if shown else 14,
    )
    told = [f"{short(one)}: {short(two)}" for one, two in corners[:40]]
    uprights = [(point * speed.factor, short(point * speed.factor)) for point in shown]
    picture = Excess(in_words(frame, "Breaks at " + ", ".join(told)), corners, labels, uprights, beyond)
    if None not in place_labels(picture, choice.inner(frame.left, frame.right), 300.0)[1:]:
        return picture
    hint = f"there are {len(breaks) - 1} breaks; where there is no room the speed isn't written"
    return picture._replace(frame=picture.frame._replace(hints=[hint]))


def place_labels(picture: Excess, width: float, height: float) -> List[Optional[Placed]]:
    """The labels of the breaks on axes of so many pixels: beside the break, and above each label to its right that would
    be touched. The curve falls, so there is free ground above. One that would be too far from its break has no label;
    where there are many, all that don't stand beside their break."""
    (_, right), (_, top) = picture.frame.x, picture.frame.y
    dots = [(x / right * width, y / top * height) for x, y in picture.corners]
    far_right = width + picture.frame.right - 4
    labels = []
    for (x, y), text in list(zip(dots, picture.labels))[:0:-1]:
        wide = text_width(text, SMALL)
        labels.append(Label(text, min(x + 8, far_right - wide), y + 5, wide))
    found = placed(labels, LINE_HEIGHT, height, 12.0 if len(dots) > 16 else 100.0)
    ordered = [None, *found[::-1]]
    return [None if label is None else Placed(label, dot) for label, dot in zip(ordered, dots)]


def point_rows(picture: Excess, width: float) -> List[int]:
    """In which of two rows above the axes the label of each point has room; 0 where it has none."""
    right = picture.frame.x[1]
    until = [-1e9, -1e9]
    found = []
    for place, text in picture.points:
        at, half = place / right * width, text_width(text, SMALL) / 2 + 3
        row = next((row for row in (0, 1) if at - half >= until[row]), None)
        found.append(0 if row is None else row + 1)
        if row is not None:
            until[row] = at + half
    return found
