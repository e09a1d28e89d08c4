"""What stands around a picture: its axes, its key and its notes; and the groups and colours of jobs."""

from __future__ import annotations

from typing import Dict, List, NamedTuple, Optional, Sequence, Tuple

from yds._timeline import is_numbered, task_of

BASE = ("#0072b2", "#e69f00", "#009e73", "#cc79a7", "#56b4e9", "#d55e00", "#999933", "#882255")
PALE = ("#7fb8d8", "#f2cf7f", "#7fceb9", "#e5bcd3", "#aad9f4", "#eaae7f", "#cccc99", "#c390aa")
DARK = ("#00395a", "#734f00", "#004f3a", "#7d3a60", "#1f6a94", "#6b2f00", "#4c4c19", "#44112a")
COLOURS = BASE + PALE + DARK
"""The colours of groups; those after them share the last."""
REST = "#9a9a9a"
TEXT, EDGE, GRID, WARNING, MISSED, SOFT = ("#222222", "#444444", "#e8e8e8", "#b04a00", "#d55e00", "#777777")
SMALL, PLAIN, LARGE = 11.0, 13.0, 15.0
"""Sizes of texts in pixels."""


class Range(NamedTuple):
    """What is asked for of the time, in the document's units."""

    start: float
    end: float


class Key(NamedTuple):
    """An entry of the key: how its sample looks (box, line, dashed, triangle, cross, ring, dot, none), and its text."""

    look: str
    colour: str
    text: str


class Frame(NamedTuple):
    """What stands around a picture."""

    title: str
    x: Tuple[float, float]
    """The range of the axis."""
    y: Tuple[float, float]
    x_label: str = ""
    y_label: str = ""
    key: Sequence[Key] = ()
    notes: Sequence[str] = ()
    """What the picture doesn't show by itself, as which deadlines were missed."""
    hints: Sequence[str] = ()
    """How it is to be read."""
    left: int = 92
    """How many pixels are left free beside the axes."""
    right: int = 24
    above: int = 14
    below: int = 56
    told: str = ""
    """The picture in words, for who can't see it."""


class Choice(NamedTuple):
    """What is asked for of a picture over time."""

    width: float = 960.0
    """Of the whole picture, in pixels; of its axes alone where is_bare."""
    is_bare: bool = False
    range: Optional[Range] = None
    group: Optional[str] = None
    """job or task; what fits the names where it is None."""

    def inner(self, left: float, right: float) -> float:
        """The width of the axes."""
        return max(self.width if self.is_bare else self.width - left - right, 1.0)


class Groups(NamedTuple):
    """Jobs by task or each alone."""

    kind: str
    names: List[str]
    of: Dict[int, int]
    """The group of a job's place; jobs that aren't shown have none."""

    def colour(self, group: int) -> str:
        """The colour of a group."""
        return COLOURS[group] if group < len(COLOURS) else REST

    def keys(self) -> List[Key]:
        """An entry for each group; those that share a colour have one."""
        found = [Key("box", self.colour(place), shortened_name(name)) for place, name in enumerate(self.names)]
        more = len(found) - len(COLOURS)
        return found if more <= 0 else [*found[: len(COLOURS)], Key("box", REST, f"{more} more")]


def shortened_name(name: str) -> str:
    """A name as a row or a key has it: a long one is cut, and said to be so by two dots."""
    return name if len(name) <= 34 else name[:32] + ".."


def grouped(names: Dict[int, str], group: Optional[str]) -> Groups:
    """The groups of these jobs in their order, each at its place: by task where most names have a number."""
    if group is None:
        group = "task" if sum(map(is_numbered, names.values())) * 2 > len(names) else "job"
    places: Dict[str, int] = {}
    of = {}
    for place, name in names.items():
        of[place] = places.setdefault(task_of(name) if group == "task" else name, len(places))
    return Groups(group, list(places), of)


def in_words(frame: Frame, *more: str) -> Frame:
    """The frame with the picture in words: title, axes, what else is told, and notes."""
    from yds._scales import short

    axes = []
    for label, (low, high) in ((frame.x_label, frame.x), (frame.y_label, frame.y)):
        axes += [f"{label} from {short(min(low, high))} to {short(max(low, high))}"] if label else []
    parts = [frame.title, *axes, *more, *frame.notes, *frame.hints]
    return frame._replace(told=". ".join(part for part in parts if part) + ".")
