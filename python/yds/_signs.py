"""Pictures as text for a terminal, of the same values: rows of signs between axes."""

from __future__ import annotations

from typing import Any, Callable, Dict, Iterable, List, NamedTuple, Sequence, Tuple

from yds._bars import Bars
from yds._excess import Excess
from yds._framed import Frame
from yds._gantt import NARROW, Gantt
from yds._pixels import shortened
from yds._ratios import Ratios
from yds._scales import short
from yds._slacks import Slacks
from yds._speeds import Speed

MARKS = "*o+x#%@&swmvznkheutcyadq"
"""The signs of groups, documents and sides: as many as there are colours, and then in turn."""
WIDTH, HEIGHT = 100, 28

_NARROW = "a run that is narrower than a sign is drawn as wide as one"
"""A row of signs has no height by which it could tell a part of the time."""


class Place(NamedTuple):
    """A sign at a place of the axes."""

    x: float
    y: float
    sign: str


class Grid:
    """Signs on axes, the later ones on top."""

    def __init__(self, frame: Frame, width: int, height: int) -> None:
        self._frame = frame
        self._ticks = [short(frame.y[0]), short(sum(frame.y) / 2), short(frame.y[1])] if frame.y_label else []
        self.left = max(map(len, self._ticks), default=0) + 2
        self.columns = max(width - self.left, 10)
        self.rows = max(height - len(_head(frame)) - 5, 5)
        self._signs: Dict[Tuple[int, int], str] = {}

    def column(self, x: float) -> int:
        """The column of a place."""
        first, end = self._frame.x
        return min(max(int((x - first) / (end - first) * self.columns), 0), self.columns - 1)

    def row(self, y: float) -> int:
        """The row of a place, from the top."""
        low, top = self._frame.y
        return min(max(int((top - y) / (top - low) * self.rows), 0), self.rows - 1)

    def put(self, places: Iterable[Place]) -> None:
        """Signs at places."""
        for one in places:
            self._signs[self.column(one.x), self.row(one.y)] = one.sign

    def fill(self, start: float, end: float, low: float, top: float, sign: str) -> None:
        """A box of signs; what is narrower than a sign has one."""
        for column in range(self.column(start), max(self.column(start), self._before(end)) + 1):
            for row in range(self.row(top), max(self.row(top), self.row(low)) + 1):
                self._signs[column, row] = sign

    def _before(self, end: float) -> int:
        first, last = self._frame.x
        return int((end - first) / (last - first) * self.columns - 1e-9)

    def lines(self) -> List[str]:
        """The axes with their signs."""
        found = []
        for row in range(self.rows):
            tick = {0: 2, self.rows // 2: 1, self.rows - 1: 0}.get(row)
            text = self._ticks[tick] if tick is not None and self._ticks else ""
            signs = "".join(self._signs.get((column, row), " ") for column in range(self.columns))
            found.append(f"{text.rjust(self.left - 2)} |{signs}".rstrip())
        return [*found, *axis(self._frame, self.left, self.columns)]


def axis(frame: Frame, left: int, columns: int) -> List[str]:
    """The axis across, with the times or speeds at its ends and in the middle."""
    texts = [short(frame.x[0]), short(sum(frame.x) / 2), short(frame.x[1])]
    line = [" "] * (left + columns + len(texts[2]))
    for text, at in zip(texts, (left, left + (columns - len(texts[1])) // 2, left + columns - len(texts[2]))):
        line[at : at + len(text)] = text
    return [" " * (left - 1) + "+" + "-" * columns, "".join(line).rstrip(), " " * left + frame.x_label]


def _head(frame: Frame) -> List[str]:
    hints = [_NARROW if hint == NARROW else hint for hint in frame.hints]
    return [line for line in (frame.title, *frame.notes, *hints) if line]


def text(kind: str, picture: Any, width: int, height: int) -> List[str]:
    """The lines of a picture."""
    drawn = _KINDS[kind](picture, width, height)
    return [line.rstrip() for line in [*_head(picture.frame), *drawn]]


def _gantt(picture: Gantt, width: int, height: int) -> List[str]:
    left = max(len(shortened(row, 34)) for row in picture.rows) + 2
    columns = max(width - left - 12, 10)
    first, end = picture.frame.x

    def place(time: float) -> int:
        return min(max(int((time - first) / (end - first) * columns), 0), columns - 1)

    rows = [[" "] * columns for _ in picture.rows]
    spans = [(one.row, one.start, one.end, ".") for one in picture.windows]
    spans += [(one.row, one.start, one.end, "#") for one in [*picture.shares, *picture.runs]]
    spans += [(one.row, one.start, one.end, "=") for one, _ in picture.others]
    for row, start, stop, sign in spans:
        for column in range(place(start), max(place(start) + 1, place(stop) if stop < end else columns)):
            rows[row][column] = sign
    for late in picture.overruns:
        for column in range(place(late.start), place(late.end) + 1):
            rows[late.row][column] = "!" if rows[late.row][column] in "#!" else rows[late.row][column]
    signs = [(one, "|") for one in picture.deadlines] + [(one, "!") for one in picture.misses]
    for one, sign in signs + [(one, "x") for one in picture.crosses]:
        rows[one.row][place(one.time)] = sign
    found = [
        f"{shortened(name, 34).rjust(left - 2)} |{''.join(row)} {text}"
        for name, row, text in zip(picture.rows, rows, picture.ends)
    ]
    told = "# ran, . window, | deadline, ! late" + (", x left out" if picture.crosses else "")
    return [*found, *axis(picture.frame, left, columns), told + (", = others ran" if picture.others else "")]


def _speed(picture: Speed, width: int, height: int) -> List[str]:
    grid = Grid(picture.frame, width, height - 1)
    for level in picture.levels:
        grid.put(Place(grid_x, level.speed, "-") for grid_x in _all(picture.frame, grid.columns))
    marks = dict(zip((key.colour for key in picture.frame.key), MARKS * 20))
    for colour, found in picture.boxes:
        for box in found:
            grid.fill(box.start, box.end, box.below, box.above, marks.get(colour, "#"))
    for line in picture.lines:
        for start, end, height_there in zip(line.times, line.times[1:], line.speeds):
            if end > start and height_there:
                grid.fill(start, end, 0.0 if line.is_area else height_there, height_there, marks[line.colour])
    told = [
        f"{marks[key.colour]} {key.text}"
        for key in picture.frame.key
        if key.colour in marks and key.look != "line" or picture.lines
    ]
    return [*grid.lines(), ", ".join(told)]


def _all(frame: Frame, columns: int) -> List[float]:
    return [frame.x[0] + (frame.x[1] - frame.x[0]) * (place + 0.5) / columns for place in range(columns)]


def _slack(picture: Slacks, width: int, height: int) -> List[str]:
    grid = Grid(picture.frame, width, height - 1)
    if picture.frame.y[0] < 0:
        grid.put(Place(x, 0.0, "-") for x in _all(picture.frame, grid.columns))
    for sign, dots in zip(MARKS * 20, picture.dots):
        grid.put(Place(x, y, sign) for x, y in dots.places)
    grid.put(Place(x, y, "O") for x, y in picture.rings)
    grid.put(Place(x, picture.frame.y[0], "X") for x in picture.undone)
    told = [f"{sign} {dots.name}" for sign, dots in zip(MARKS * 20, picture.dots)]
    told += ["X not done"] * bool(picture.undone) + ["O left out of the document"] * bool(picture.rings)
    return [*grid.lines(), ", ".join(told)]


def _curve(picture: Excess, width: int, height: int) -> List[str]:
    grid = Grid(picture.frame, width, height)
    for x, _ in picture.points:
        grid.fill(x, x, *picture.frame.y, sign=":")
    corners = [*picture.corners, (picture.frame.x[1], 0.0)]
    for (x, y), (right, below) in zip(corners, corners[1:]):
        steps = 4 * grid.columns
        grid.put(
            Place(at, y + (below - y) * (at - x) / (right - x) if right > x else below, "*")
            for at in (x + (right - x) * step / steps for step in range(steps + 1))
        )
    grid.put(Place(x, y, "o") for x, y in picture.corners)
    named = [f"{label}" for label in picture.labels if label]
    told = [f"o a break, at {', '.join(named)}"[:width]]
    points = ", ".join(name for _, name in picture.points)
    return [
        *grid.lines(),
        *told,
        *([f": points, at {points}"[:width]] if points else []),
        *([picture.beyond] if picture.beyond else []),
    ]


def _energy(picture: Bars, width: int, height: int) -> List[str]:
    names = [name.replace("\n", ", ") for name in picture.names]
    left = max(map(len, names)) + 2
    labels = [" ".join(text for text in pair if text) for pair in picture.labels]
    room = max(width - left - max(map(len, labels)) - 2, 10)
    greatest = max([one for one in picture.heights if one is not None], default=0.0) or 1.0
    bars = ["#" * int((one or 0.0) / greatest * room + 0.5) for one in picture.heights]
    return [f"{name.rjust(left - 2)} |{bar} {label}" for name, bar, label in zip(names, bars, labels)] + [
        " " * left + picture.frame.y_label
    ]


def _ratios(picture: Ratios, width: int, height: int) -> List[str]:
    grid = Grid(picture.frame, width, height - 1)
    for sign, side in zip(MARKS * 20, picture.sides):
        for x, right, y in zip(side.ratios, side.ratios[1:], side.shares[1:]):
            grid.fill(x, right, y, y, sign)
    return [*grid.lines(), ", ".join(f"{sign} {side.name}" for sign, side in zip(MARKS * 20, picture.sides))]


_KINDS: Dict[str, Callable[[Any, int, int], List[str]]] = {
    "gantt": _gantt,
    "speed": _speed,
    "slack": _slack,
    "curve": _curve,
    "energy": _energy,
    "ratios": _ratios,
}

__all__: Sequence[str] = ("HEIGHT", "WIDTH", "text")
