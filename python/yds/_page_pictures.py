"""The pictures of a page. Where matplotlib isn't installed there are none, and the page says which are missing."""

from __future__ import annotations

import io
import re
from importlib import import_module
from importlib.util import find_spec
from math import inf
from typing import Any, Callable, List, Optional, Tuple

from yds._facts import Facts, Worst
from yds._markup import Markup, element, shown
from yds._text import Fault, Rows, lines_of

INSTALL = "pip install yds[plot], or on Debian apt-get install python3-matplotlib"
_NAMESPACES = (' xmlns="http://www.w3.org/2000/svg"', ' xmlns:xlink="http://www.w3.org/1999/xlink"')
"""What SVG within HTML doesn't need."""


_BETWEEN = re.compile(r">\s+<").sub
"""Blanks between two elements, which say nothing."""


class Pictures:
    """The pictures of what was found, numbered as they are drawn."""

    def __init__(self, facts: Facts) -> None:
        self._facts = facts
        self._number = 0
        self._drawn: Any = import_module("yds.pictures") if find_spec("matplotlib") is not None else None
        self._document: Any = None

    def missing(self) -> Markup:
        """Which pictures are missing, where matplotlib isn't installed."""
        if self._drawn is not None:
            return Markup("")
        around = "who runs when around each of the worst misses, " if self._facts.worst else ""
        rest = "the speed over time beside the plan's, the slack, the least work above each speed"
        told = f"Pictures are missing, since matplotlib isn't installed: {around}{rest}. To have them: {INSTALL}."
        return element("p", told, class_="open", id="no-pictures")

    def around(self, one: Worst) -> Markup:
        """Who ran when around a miss."""
        span = around(one)
        if self._drawn is None or span is None:
            return Markup("")
        start, end = span
        caption = f"Who ran when around {shown(one.missed.miss.job, 64)}"
        return self._figure(caption, lambda: self._drawn.gantt(self._timeline(), start=start, end=end, title=""))

    def speed(self) -> Markup:
        """The speed over time, beside the plan's."""
        if self._drawn is None:
            return Markup("")
        plan, name = self._plan()
        documents, names = [self._timeline()], ["as it ran"]
        if plan is not None:
            documents, names = [*documents, plan], [*names, name]
        beside = f", and of {name}" if plan is not None else ""
        caption = f"The speed over time{beside}"
        return self._figure(caption, lambda: self._drawn.speed(documents, names=names, title=""))

    def slack(self) -> Markup:
        """How long before its deadline each job was done."""
        if self._drawn is None:
            return Markup("")
        caption = "The slack: how long before its deadline each job was done; what is below 0 was late"
        units = self._timeline().units
        return self._figure(caption, lambda: self._drawn.slack(self._facts.rows, units=units, title=""))

    def curve(self) -> Markup:
        """The least work above each speed."""
        told = self._facts.asked.curve() if self._drawn is not None else None
        if told is None or not told.breaks:
            return Markup("")
        caption = "The least work that any schedule does above each speed; the points are uprights"
        units, points = self._timeline().units, self._facts.given.points
        return self._figure(caption, lambda: self._drawn.curve(told, points=points, units=units, title=""))

    def _timeline(self) -> Any:
        """The document as the pictures read it."""
        if self._document is None:
            idle = list(self._facts.given.idle.ticks)
            document = self._drawn.timeline(Rows(self._facts.given.lines), idle=idle)
            us, khz, uw = self._facts.scale.us, self._facts.scale.khz, self._facts.scale.uw
            units = self._drawn.Units(us and us / 10**6, khz and khz * 1000, uw and uw / 10**6)
            self._document = document._replace(units=units)
        return self._document

    def _plan(self) -> Tuple[Optional[Any], str]:
        """The schedule that is least on the points, or without points the plan; None where there is no answer."""
        asked = self._facts.asked
        words, name = ("round", "the least on the points") if self._facts.given.points else ("plan", "the plan")
        status, text = asked.ask(words) if asked.within else (3, b"")
        if status == 1:
            status, text = asked.ask("plan")
            name = "the plan, above the top point"
        if status or b"slot " not in text:
            return None, ""
        units = self._timeline().units
        return self._drawn.timeline(Rows(lines_of(io.BytesIO(text))), units), name

    def _figure(self, caption: str, draw: Callable[[], Any]) -> Markup:
        """The picture, with its words for who can't see it; a sentence where it can't be drawn."""
        try:
            axes = draw()
        except (Fault, ValueError) as fault:
            return element("p", f"{caption}: there is no picture, since {fault}.", class_="told")
        self._number += 1
        prefix = f"picture-{self._number}-"
        text = self._drawn.svg(axes, prefix, caption, axes.get_label())
        for namespace in _NAMESPACES:
            text = text.replace(namespace, "", 1)
        text = _BETWEEN("><", text)
        parts = [element("figcaption", caption), element("div", Markup(text), class_="frame")]
        return element("figure", *parts, id=f"picture-{self._number}")


def around(one: Worst) -> Optional[Tuple[float, float]]:
    """From when to when the surroundings of a miss go: a quarter of its time before its release and behind its end."""
    row, late = one.missed.row, one.missed.late
    if row.release is None or row.deadline is None:
        return None
    ends: List[float] = [float(row.deadline)]
    if row.end is not None and row.end != inf:
        ends.append(float(row.end))
    elif late is not None:
        ends.append(float(row.deadline + late))
    start, end = float(row.release), max(ends)
    quarter = (end - start) / 4
    return start - quarter, end + quarter
