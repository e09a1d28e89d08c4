"""Pictures on matplotlib's axes. matplotlib is loaded when one is drawn, and not before.

Each call takes axes, or makes a figure with one where it is given none, and gives the axes back, so that titles,
ranges and colours are matplotlib's business. ImportError is raised where there is no matplotlib. Numbers are floats
here, each the nearest to the exact one.

`gantt`, `speed`, `slack`, `curve`, `energy` and `ratios` are the pictures of yds-plot. Without axes their figure has a
title, a key and notes, and is none of pyplot's; on axes that are given the key stands above them. The axes' label
(`axes.get_label()`) is the picture in words, and `svg` writes it into a page. `jobs`, `speeds` and `energies` are
plain ones of documents, profiles and comparisons.
"""

from __future__ import annotations

from fractions import Fraction
from importlib import import_module
from io import BytesIO
from typing import TYPE_CHECKING, Any, Dict, Iterable, List, Optional, Sequence, Tuple, Union

from yds._bars import Energies, Side, bars
from yds._canvas import loaded
from yds._excess import excess
from yds._gantt import gantt as gantt_values
from yds._ratios import ratios as ratios_values
from yds._scales import Units
from yds._sheets import Drawing, chosen, on_axes, on_sheet
from yds._slacks import slack_of, slacks
from yds._speeds import speed as speed_values
from yds._svg import drawn
from yds._tables import Profile
from yds._text import Row, Rows, lines_of
from yds._timeline import Timeline
from yds._timeline import timeline as timeline_of
from yds.rows import Exact, Job, Slot

if TYPE_CHECKING:
    from yds.document import Document
    from yds.jobs import JobRow
    from yds.results import Comparison, Curve
    from yds.tables import Energies as EnergyTable

__all__ = [
    "Side",
    "Timeline",
    "Units",
    "curve",
    "energies",
    "energy",
    "gantt",
    "jobs",
    "ratios",
    "slack",
    "speed",
    "speeds",
    "svg",
    "timeline",
]

_MOST_NAMES = 40
"""So many jobs have their names at the axis; of more, the names would lie on each other."""
Drawable = Union[Timeline, "Document", Iterable[Row]]
"""A document, or its rows, or what `timeline` read of them."""
Size = Tuple[int, int]
"""Width and height in pixels of 1/72 of an inch."""


def timeline(document: Drawable, units: Optional[Units] = None, idle: Sequence[str] = ()) -> Timeline:
    """What pictures over time need of a document: read once, it can be drawn often.

    `units` are seconds, hertz and watts of its units, where its comments aren't to tell them. ValueError is raised
    where it has no jobs or no slots. `idle` has the names of threads that don't count as others.
    """
    if isinstance(document, Timeline):
        return document if units is None else document._replace(units=units)
    text = getattr(document, "text", None)
    rows: Any = document if text is None else Rows(lines_of(BytesIO(text)))
    return timeline_of(rows, units, idle)


def gantt(
    document: Drawable,
    axes: Optional[Any] = None,
    *,
    start: Optional[float] = None,
    end: Optional[float] = None,
    group: Optional[str] = None,
    units: Optional[Units] = None,
    title: Optional[str] = None,
    size: Optional[Size] = None,
) -> Any:
    """Who runs when: a row for each job, or for each task where there are more than 12 jobs.

    A run is as high as a row where it is as wide as a pixel. What is narrower is drawn by columns of pixels, as high as
    the part of the column's time that ran. The runs are the axes' first collection, coloured by their speeds. Late jobs,
    jobs that were left out, and who else ran are those of the document's slots and comments.

    start and end (units of time) cut a part of it out; group is 'job' or 'task'; title and size are the figure's.
    """
    read = timeline(document, units)
    drawing = Drawing("gantt", lambda choice: gantt_values(read, choice), 960, 0)
    choice = chosen(start, end, group)
    return on_sheet(drawing, choice, size, title) if axes is None else on_axes(drawing, choice, axes)


def speed(
    documents: Union[Drawable, Sequence[Drawable]],
    axes: Optional[Any] = None,
    *,
    names: Sequence[str] = (),
    start: Optional[float] = None,
    end: Optional[float] = None,
    group: Optional[str] = None,
    units: Optional[Units] = None,
    title: Optional[str] = None,
    size: Optional[Size] = None,
) -> Any:
    """The speed over time: of one document by job or task, of a list of several a line for each under its name.

    Of several, those with runs are pale areas behind the others, and a plan is drawn last. Where runs are narrower than
    a pixel, the mean speed of each column of pixels is drawn, and of one document its greatest as well.
    """
    several = documents if isinstance(documents, list) else [documents]
    read = [timeline(one, units) for one in several]
    called = [*names, *(f"document {place + 1}" for place in range(len(names), len(read)))]
    drawing = Drawing("speed", lambda choice: speed_values(read, called, choice), 960, 400)
    choice = chosen(start, end, group)
    return on_sheet(drawing, choice, size, title) if axes is None else on_axes(drawing, choice, axes)


def slack(
    rows: Iterable[JobRow],
    axes: Optional[Any] = None,
    *,
    start: Optional[float] = None,
    end: Optional[float] = None,
    group: Optional[str] = None,
    units: Units = Units(),
    title: Optional[str] = None,
    size: Optional[Size] = None,
) -> Any:
    """How long before its deadline each job was done, of the rows of `yds.jobs.table`; what is below 0 was late.

    Where a job is later by more than twice what any is early, the axis is logarithmic below that.
    """
    table = [slack_of(row) for row in rows]
    drawing = Drawing("slack", lambda choice: slacks(table, units, choice), 960, 400)
    choice = chosen(start, end, group)
    return on_sheet(drawing, choice, size, title) if axes is None else on_axes(drawing, choice, axes)


def curve(
    told: Curve,
    axes: Optional[Any] = None,
    points: Iterable[Tuple[Any, Any]] = (),
    *,
    units: Units = Units(),
    title: Optional[str] = None,
    size: Optional[Size] = None,
    **look: Any,
) -> Any:
    """The least work above each speed, straight between two breaks: the axes' first line. The points are uprights.

    look is for matplotlib's `plot` of that line.
    """
    breaks = [(Fraction(one.speed), Fraction(one.excess)) for one in told.breaks]
    speeds_of_points = [int(point[0]) for point in points]
    drawing = Drawing("curve", lambda choice: excess(breaks, speeds_of_points, units, choice), 720, 440)
    if axes is None:
        return on_sheet(drawing, chosen(None, None, None), size, title, **look)
    return on_axes(drawing, chosen(None, None, None), axes, **look)


def energy(
    sides: Iterable[Side],
    axes: Optional[Any] = None,
    points: Iterable[Tuple[Any, Any]] = (),
    *,
    notes: Sequence[str] = (),
    units: Units = Units(),
    title: Optional[str] = None,
    size: Optional[Size] = None,
) -> Any:
    """What each side spends, and how much more than the side `plan`; how many deadlines it misses.

    With the points, and each side's times at them, the bars are parted by point. ValueError is raised where an energy
    isn't power times time on these points. notes are told of energy that is in no bar.
    """
    told = Energies(list(sides), [(int(point[0]), int(point[1])) for point in points], list(notes), units)
    width = 150 * len(told.sides) + 260
    drawing = Drawing("energy", lambda choice: bars(told, None, choice), width, 440)
    choice = chosen(None, None, None)
    return on_sheet(drawing, choice, size, title) if axes is None else on_axes(drawing, choice, axes)


def ratios(
    table: EnergyTable, axes: Optional[Any] = None, *, title: Optional[str] = None, size: Optional[Size] = None
) -> Any:
    """In how many documents of a table each side costs at most so many times the plan: of `yds.tables.read_energies`."""
    drawing = Drawing("ratios", lambda choice: ratios_values(table), 720, 440)
    choice = chosen(None, None, None)
    return on_sheet(drawing, choice, size, title) if axes is None else on_axes(drawing, choice, axes)


def svg(axes: Any, prefix: str = "", title: Optional[str] = None, told: Optional[str] = None) -> str:
    """The axes' figure as SVG that can stand in a page: each id begins with the prefix, so that those of two pictures
    differ; the title and the words of the picture are in it, for who can't see it. Two runs write the same text.

    told is what the axes' label says where it is None, and title the begin of it.
    """
    return drawn(axes, prefix, title, told)


def jobs(rows: Sequence[Job], slots: Sequence[Slot] = (), axes: Optional[Any] = None) -> Any:
    """Who runs when: for each job its window, from the first job at the top, and in it the slots.

    The slots are the second collection of the axes, coloured by their speeds (work per unit of time), from 0 on:
    `axes.figure.colorbar(axes.collections[1])` draws the scale. Slots of other jobs aren't shown; ValueError is raised
    where there are some. Up to 40 jobs have their names at the axis.
    """
    axes = _axes(axes)
    collections = import_module("matplotlib.collections")
    place = {job.name: row for row, job in enumerate(rows)}
    strangers = {slot.job for slot in slots} - set(place)
    if strangers:
        raise ValueError(f"slots of {min(strangers)!r} are given, and there is no such job")
    windows = [_box(row, job.release, job.deadline, 0.2) for row, job in enumerate(rows)]
    bars = [_box(place[slot.job], slot.start, slot.end, 0.4) for slot in slots]
    axes.add_collection(collections.PolyCollection(windows, facecolors="0.85", edgecolors="none", zorder=1))
    running = collections.PolyCollection(bars, cmap="viridis_r", edgecolors="none", zorder=2)
    running.set_array([float(slot.speed) if slot.end > slot.start else 0.0 for slot in slots])
    running.set_clim(0, max([float(slot.speed) for slot in slots if slot.end > slot.start], default=1.0))
    axes.add_collection(running)
    axes.autoscale_view()
    axes.set_ylim(max(len(rows), 1) - 0.5, -0.5)
    few = len(rows) <= _MOST_NAMES
    axes.set_yticks(range(len(rows)) if few else [])
    axes.set_yticklabels([_label(job.name) for job in rows] if few else [])
    axes.set_ylabel("" if few else f"{len(rows):,} jobs")
    axes.set_xlabel("time")
    return axes


def _label(name: str) -> str:
    """The name as matplotlib writes it, of 15 characters at most. A dollar begins no formula."""
    return (name if len(name) <= 15 else name[:14] + "\u2026").replace("$", "\\$")


def _box(row: int, start: Exact, end: Exact, half: float) -> List[Tuple[float, float]]:
    """The corners of a bar."""
    left, right = float(start), float(end)
    return [(left, row - half), (right, row - half), (right, row + half), (left, row + half)]


def speeds(profile: Profile, axes: Optional[Any] = None, **look: Any) -> Any:
    """The speed over time, as `profile` of documents and of `yds.schedule` tells it. look is for matplotlib's `step`."""
    axes = _axes(axes)
    times, heights = ([float(number) for number in numbers] for numbers in profile)
    axes.step(times, heights, where="post", **look)
    axes.set_ylim(bottom=0)
    axes.set_xlabel("time")
    axes.set_ylabel("speed")
    return axes


def energies(told: Comparison, axes: Optional[Any] = None) -> Any:
    """The energy of the plan and of both policies as bars. Where the top point is too slow, the name says so."""
    axes = _axes(axes)
    sides = [("plan", told.plan), ("avr", told.avr), ("oa", told.oa)]
    names = [name if side.energy is not None else f"{name}\ntoo slow" for name, side in sides]
    axes.bar(names, _heights(side.energy for _, side in sides))
    axes.set_ylabel("energy")
    return axes


def _heights(numbers: Iterable[Any]) -> List[float]:
    return [0.0 if number is None else float(number) for number in numbers]


def _axes(axes: Optional[Any]) -> Any:
    """The given axes, or those of a new figure of pyplot."""
    return loaded("matplotlib.pyplot").subplots()[1] if axes is None else axes
