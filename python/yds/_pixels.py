"""What a picture's pixels ask of its numbers: columns of pixels, the width of a text, and labels that don't touch."""

from __future__ import annotations

from typing import Dict, Iterable, Iterator, List, NamedTuple, Optional, Sequence, Set, Tuple

_WIDE = {"m": 0.98, "w": 0.82, "M": 0.87, "W": 0.99, "@": 1.0, "%": 0.95, "~": 0.84, "+": 0.84, "=": 0.84, "<": 0.84}
_WIDE.update({">": 0.84, "&": 0.78, "O": 0.79, "Q": 0.79, "G": 0.78, "D": 0.77, "H": 0.76, "N": 0.75, "U": 0.74})
_WIDE.update({sign: 0.29 for sign in "ijlI"})
_WIDE.update({sign: 0.4 for sign in " .,:;'|!()[]-tfr/\\\"`"})


def text_width(text: str, size: float) -> float:
    """How wide a text is, about, in pixels: in DejaVu Sans of so many pixels, which is wide among the plain fonts.

    >>> text_width("render.0", 10)
    44.5
    """
    return size * sum(_WIDE.get(sign, 0.65 if ord(sign) < 0x1100 else 1.05) for sign in text)


def shortened(text: str, most: int) -> str:
    """The text, or where it is longer its first signs and two dots.

    >>> shortened("render", 6), shortened("renderer", 6)
    ('render', 'rend..')
    """
    return text if len(text) <= most else text[: most - 2] + ".."


class Columns(NamedTuple):
    """The time from `first` to `end` in columns of equal width."""

    first: float
    end: float
    number: int

    @property
    def step(self) -> float:
        """How much time a column has."""
        return (self.end - self.first) / self.number

    def begin(self, column: int) -> float:
        """When a column begins."""
        return self.first + (self.end - self.first) * column / self.number

    def of(self, time: float) -> int:
        """The column of a time; of one beyond the edges the nearest."""
        return min(max(int((time - self.first) / self.step), 0), self.number - 1)

    def parts(self, start: float, end: float) -> Iterator[Tuple[int, float]]:
        """The columns in which a stretch lies, and how much of it lies in each."""
        for column in range(self.of(start), self.of(end) + 1):
            part = min(end, self.begin(column + 1)) - max(start, self.begin(column))
            if part > 0:
                yield column, part


def columns_of(first: float, end: float, pixels: float, width: int = 1) -> Columns:
    """Columns of so many pixels."""
    return Columns(first, end, max(1, int(pixels / width)))


class Stretch(NamedTuple):
    """A stretch of time in a row, at a speed."""

    row: int
    start: float
    end: float
    speed: float = 0.0


class Share(NamedTuple):
    """What ran of a row in a column of pixels: which part of its time, and at which mean and greatest speed."""

    row: int
    column: int
    part: float
    speed: float
    greatest: float


def is_narrow(start: float, end: float, columns: Columns) -> bool:
    """Whether a stretch is narrower than a column."""
    return end - start < columns.step * (1 - 1e-9)


def shares(stretches: Iterable[Stretch], columns: Columns) -> List[Share]:
    """What the stretches fill of the columns, row by row."""
    busy: Dict[Tuple[int, int], float] = {}
    work: Dict[Tuple[int, int], float] = {}
    fastest: Dict[Tuple[int, int], float] = {}
    for one in stretches:
        for column, part in columns.parts(one.start, one.end):
            place = one.row, column
            busy[place] = busy.get(place, 0.0) + part
            work[place] = work.get(place, 0.0) + part * one.speed
            fastest[place] = max(fastest.get(place, 0.0), one.speed)
    return [
        Share(
            row, column, busy[row, column] / columns.step, work[row, column] / busy[row, column], fastest[row, column]
        )
        for row, column in sorted(busy)
    ]


def dense_columns(stretches: Iterable[Stretch], columns: Columns) -> Set[int]:
    """The columns in which a stretch narrower than a column lies."""
    found: Set[int] = set()
    for one in stretches:
        if is_narrow(one.start, one.end, columns):
            found.update(column for column, _ in columns.parts(one.start, one.end))
    return found


def outside(one: Stretch, dense: Set[int], columns: Columns) -> Iterator[Stretch]:
    """The pieces of a stretch that lie in no dense column."""
    start: Optional[float] = None
    for column, _ in columns.parts(one.start, one.end):
        if column in dense:
            if start is not None:
                yield one._replace(start=start, end=columns.begin(column))
            start = None
        elif start is None:
            start = max(one.start, columns.begin(column))
    if start is not None:
        yield one._replace(start=start)


def merged(stretches: Iterable[Stretch], gap: float) -> List[Stretch]:
    """The stretches of each row, of which those nearer than the gap are one; the speeds aren't kept."""
    found: List[Stretch] = []
    for one in sorted(stretches):
        if found and found[-1].row == one.row and one.start <= found[-1].end + gap:
            found[-1] = found[-1]._replace(end=max(found[-1].end, one.end))
        else:
            found.append(Stretch(one.row, one.start, one.end))
    return found


class Label(NamedTuple):
    """A text of so many pixels at a place, in pixels from the left and the lower edge of the axes."""

    text: str
    x: float
    y: float
    width: float

    def touches(self, other: Label, height: float) -> bool:
        """Whether two labels of this height are nearer than four pixels beside each other, or lie on each other."""
        beside = self.x < other.x + other.width + 4 and other.x < self.x + self.width + 4
        return beside and abs(self.y - other.y) < height


def placed(labels: Sequence[Label], height: float, top: float, reach: float) -> List[Optional[Label]]:
    """Labels moved up until they touch none of those before; None for one that would be above `top`, or too far up."""
    found: List[Optional[Label]] = []
    standing: List[Label] = []
    for label in labels:
        moved: Optional[Label] = label
        while moved is not None:
            blocking = [one.y for one in standing if one.touches(moved, height)]
            if not blocking:
                break
            # A hair more than the height: so the next look finds it free of these.
            moved = moved._replace(y=max(blocking) + height * 1.001)
            moved = None if moved.y - label.y > reach else moved
        if moved is not None and moved.y + height <= top and moved.y - label.y <= reach:
            standing.append(moved)
            found.append(moved)
        else:
            found.append(None)
    return found


def spaced(places: Sequence[float], least: float) -> List[bool]:
    """Which of the rising places are at least so far from the last one that was taken."""
    found: List[bool] = []
    last: Optional[float] = None
    for place in places:
        found.append(last is None or place - last >= least)
        last = place if found[-1] else last
    return found


def as_many_as_fit(texts: Sequence[str], width: float, size: float, rest: str = "and {} more") -> str:
    """The texts with commas between them, as many as the width holds, and how many more there are.

    >>> as_many_as_fit(["a.1", "a.2", "a.3"], 60, 11)
    'a.1 and 2 more'
    """
    shown = list(texts)
    while shown:
        more = len(texts) - len(shown)
        told = ", ".join(shown) + (" " + rest.format(more) if more else "")
        if text_width(told, size) <= width or len(shown) == 1:
            return told
        shown = shown[: max(1, min(len(shown) - 1, int(len(shown) * width / text_width(told, size))))]
    return ""


def wrapped(text: str, width: float, size: float) -> List[str]:
    """The text in lines of at most this width; a word that is wider is cut, and ends with two dots.

    >>> wrapped("one two three", 60, 11)
    ['one two', 'three']
    """
    found = [""]
    for word in text.split():
        while text_width(word, size) > width and len(word) > 3:
            word = shortened(word, min(len(word) - 1, max(3, int(len(word) * width / text_width(word, size)))))
        longer = f"{found[-1]} {word}".strip()
        if text_width(longer, size) <= width or not found[-1]:
            found[-1] = longer
        else:
            found.append(word)
    return found
