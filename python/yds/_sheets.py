"""A picture on a sheet of its own, with title, key and notes, or on axes that are given."""

from __future__ import annotations

from importlib import import_module
from typing import Any, Callable, NamedTuple, Optional, Tuple

from yds._canvas import Sheet, legend, look, width_of
from yds._framed import Choice, Range

GANTT_ROW = 34
"""The height of a row in pixels."""


class Drawing(NamedTuple):
    """What is to be drawn."""

    kind: str
    """The function of yds._painted that draws it."""
    make: Callable[[Choice], Any]
    """Its values, on a picture of this width."""
    width: int
    height: int
    """The least height of a sheet."""


def on_sheet(
    drawing: Drawing, choice: Choice, size: Optional[Tuple[int, int]] = None, title: Optional[str] = None, **words: Any
) -> Any:
    """The axes of a new figure that is none of pyplot's. words are for matplotlib, where the kind takes some."""
    width = size[0] if size else drawing.width
    picture = drawing.make(choice._replace(width=float(width), is_bare=False))
    frame = picture.frame if title is None else picture.frame._replace(title=title)
    with look():
        sheet = Sheet(frame, width)
        axes = sheet.axes(size[1] if size else _height(drawing, picture, sheet.above + frame.below))
        getattr(import_module("yds._painted"), drawing.kind)(picture, axes, **words)
    return axes


def _height(drawing: Drawing, picture: Any, around: int) -> int:
    """A row of a gantt has its height; other pictures are higher where much is above the axes."""
    if drawing.kind == "gantt":
        return around + GANTT_ROW * max(len(picture.rows), 2)
    return max(drawing.height, around + 220)


def on_axes(drawing: Drawing, choice: Choice, axes: Any, **words: Any) -> Any:
    """The given axes, with the key above them. The title is left to who made them, and so are the notes.

    words are for matplotlib, where the kind takes some.
    """
    with look():
        picture = drawing.make(choice._replace(width=width_of(axes), is_bare=True))
        getattr(import_module("yds._painted"), drawing.kind)(picture, axes, **words)
        legend(axes, picture.frame.key, width_of(axes), loc="lower left", bbox_to_anchor=(0.0, 1.01))
    return axes


def chosen(start: Optional[float], end: Optional[float], group: Optional[str]) -> Choice:
    """What is asked for. ValueError where one of start and end is missing, or the end isn't later."""
    if group not in (None, "job", "task"):
        raise ValueError(f"a group is job or task, and not {group}")
    if start is None and end is None:
        return Choice(group=group)
    if start is None or end is None or not start < end:
        raise ValueError("a part of the time has a start and a later end")
    return Choice(range=Range(float(start), float(end)), group=group)
