"""The pictures' values drawn on matplotlib's axes: one function a kind. Nothing is decided here but looks."""

from __future__ import annotations

from typing import Any, List, Sequence, Tuple

from yds._bars import NUMBER, PALETTE, Bars
from yds._canvas import (
    Rectangle,
    boxes,
    corners,
    dress,
    grid,
    height_of,
    literal,
    loaded,
    pale,
    plain,
    plain_lines,
    width_of,
)
from yds._excess import Excess, place_labels, point_rows
from yds._framed import EDGE, MISSED, SMALL, SOFT, TEXT, WARNING
from yds._gantt import OTHERS, OVERRUN, WINDOW, Bar, Gantt, Mark
from yds._pixels import shortened, spaced, text_width
from yds._ratios import Ratios
from yds._scales import short
from yds._slacks import Slacks
from yds._speeds import Level, Speed

WINDOW_HALF, RUN_HALF = 0.38, 0.27
"""Half the height of a window and of a run, in rows."""


def gantt(picture: Gantt, axes: Any) -> None:
    """Who runs when."""
    dress(axes, picture.frame)
    grid(axes, "x")
    axes.tick_params(axis="y", length=0)
    axes.set_yticks(range(len(picture.rows)))
    axes.set_yticklabels([plain(row) for row in picture.rows])
    literal(axes.get_yticklabels())
    for found, colour, order in ((picture.windows, WINDOW, 1), (picture.overruns, OVERRUN, 1.2)):
        spans = [(one.start, one.end, one.row - WINDOW_HALF, one.row + WINDOW_HALF) for one in found]
        boxes(axes, spans, colour, zorder=order)
    boxes(axes, [_box_of(bar) for bar, _ in picture.others], OTHERS, zorder=2)
    _others_names(picture, axes)
    _scale_of_speeds(picture, axes, _runs(picture, axes))
    _strokes(picture, axes)
    axes.plot(
        [one.time for one in picture.misses],
        [one.row - 0.44 for one in picture.misses],
        linestyle="none",
        marker="v",
        markersize=6,
        color=MISSED,
        clip_on=False,
        zorder=5,
        gid="misses",
    )
    for is_late, colour in ((True, MISSED), (False, SOFT)):
        found_marks = [one for one in picture.crosses if one.is_late == is_late]
        axes.plot(
            [one.time for one in found_marks],
            [one.row for one in found_marks],
            linestyle="none",
            marker="x",
            markersize=6,
            markeredgewidth=1.5,
            color=colour,
            clip_on=False,
            zorder=5,
            gid=f"crosses-{is_late}",
        )
    for row, text in enumerate(picture.ends):
        if text:
            _beside(axes, (1, row), axes.get_yaxis_transform(), (6, 0), text, color=WARNING, ha="left", va="center")


def _box_of(bar: Bar) -> Rectangle:
    half = RUN_HALF * bar.part
    return bar.start, bar.end, bar.row - half, bar.row + half


def _runs(picture: Gantt, axes: Any) -> Any:
    """Runs and columns of pixels, coloured by their speeds: the axes' first collection."""
    collections, colors = loaded("matplotlib.collections"), loaded("matplotlib.colors")
    shades = [tuple(part / 255 for part in colour) for colour in PALETTE]
    palette = colors.LinearSegmentedColormap.from_list("yds", shades)
    bars = [*picture.shares, *picture.runs]
    found = collections.PolyCollection([corners(_box_of(bar)) for bar in bars], cmap=palette, linewidths=0, zorder=3)
    found.set_array([bar.speed for bar in bars])
    found.set_clim(*picture.speeds)
    axes.add_collection(found, autolim=False)
    return found


def _strokes(picture: Gantt, axes: Any) -> None:
    """The deadlines. One at an edge of the picture stands a pixel within it, so that all of it is seen."""
    rows = [one.row for one in picture.deadlines]
    most = max((rows.count(row) for row in set(rows)), default=0)
    first, end = picture.frame.x
    a_pixel = (end - first) / width_of(axes)
    axes.vlines(
        [min(max(one.time, first + a_pixel), end - a_pixel) for one in picture.deadlines],
        [row - 0.4 for row in rows],
        [row + 0.4 for row in rows],
        colors=TEXT,
        linewidths=0.7 if most > 30 else 1.6,
        zorder=4,
        gid="deadlines",
    )


def _others_names(picture: Gantt, axes: Any) -> None:
    """The name of who else ran, where its time is so wide."""
    a_pixel = width_of(axes) / (picture.frame.x[1] - picture.frame.x[0])
    for bar, name in picture.others:
        room = (bar.end - bar.start) * a_pixel - 8
        text = plain(name)
        if text and text_width(text, SMALL) > room:
            text = shortened(text, int(len(text) * room / text_width(text, SMALL))) if room > 40 else ""
        if text:
            _text(axes, (bar.start + bar.end) / 2, bar.row, text, color="white", ha="center", va="center", clip_on=True)


def _scale_of_speeds(picture: Gantt, axes: Any, runs: Any) -> None:
    """The colours' scale, at the right of the axes; its ticks are the points, as far as there is room."""
    wide, high = width_of(axes), height_of(axes)
    at = 1 + (picture.frame.right - 74) / wide
    side = axes.inset_axes((at, 0, 13 / wide, 1))
    low, top = picture.speeds
    places = [(tick - low) / (top - low) * high for tick in picture.ticks]
    # The greatest speed has its tick in each case.
    shown = [is_shown for is_shown in spaced([-place for place in reversed(places)], 14)][::-1]
    ticks = [tick for tick, is_shown in zip(picture.ticks, shown) if is_shown]
    bar = axes.figure.colorbar(runs, cax=side)
    if ticks or high < 140:
        bar.set_ticks(ticks or [low, top])
        bar.set_ticklabels([short(tick) for tick in ticks or [low, top]])
    bar.outline.set_visible(False)
    side.tick_params(labelsize=SMALL, length=3)
    text = plain(picture.speed_label)
    _beside(axes, (1, 1), axes.transAxes, (picture.frame.right - 12, 6), text, color=TEXT, ha="right", va="bottom")


def speed(picture: Speed, axes: Any) -> None:
    """The speed over time."""
    dress(axes, picture.frame)
    grid(axes, "x" if picture.levels else "both")
    _levels(picture.levels, axes)
    for place, (colour, found) in enumerate(picture.boxes):
        boxes(axes, [(one.start, one.end, one.below, one.above) for one in found], colour, zorder=2 + place / 100)
    if picture.greatest:
        segments = [[(one.start, one.above), (one.end, one.above)] for one in picture.greatest]
        lines = loaded("matplotlib.collections").LineCollection(segments, colors=SOFT, linewidths=0.9, zorder=3)
        axes.add_collection(lines, autolim=False)
    for place, line in enumerate(picture.lines):
        if line.is_area:
            axes.fill_between(line.times, line.speeds, color=pale(line.colour), linewidth=0, zorder=2 + place / 100)
        axes.plot(
            line.times,
            line.speeds,
            color=line.colour,
            linewidth=0.8 if line.is_area else 2.2,
            linestyle=(0, (4, 2)) if line.is_dashed and not line.is_area else "-",
            zorder=3 + place / 100,
            label=plain(line.name),
        )


def _levels(levels: Sequence[Level], axes: Any) -> None:
    """The points as dashed lines across, with their speeds at the right where there is room."""
    a_pixel = height_of(axes) / (axes.get_ylim()[1] - axes.get_ylim()[0])
    shown = spaced([-level.speed * a_pixel for level in reversed(levels)], 13)[::-1]
    for level, is_shown in zip(levels, shown):
        axes.axhline(level.speed, color="#9a9a9a", linewidth=1, linestyle=(0, (6, 4)), zorder=1)
        if is_shown:
            place = (1, level.speed)
            _beside(axes, place, axes.get_yaxis_transform(), (6, 0), level.text, color=SOFT, ha="left", va="center")


def slack(picture: Slacks, axes: Any) -> None:
    """The slack of each job."""
    dress(axes, picture.frame)
    if picture.linear is not None:
        _logarithmic(picture, axes)
    grid(axes)
    low = picture.frame.y[0]
    if low < 0:
        axes.axhspan(low, 0, color="#fdebd0", zorder=0.5, linewidth=0)
        axes.axhline(0, color=WARNING, linewidth=1.2, zorder=1)
    count = sum(len(dots.places) for dots in picture.dots)
    size = 2.2 if count > 400 else 4 if count > 60 else 6
    for dots in picture.dots:
        xs, ys = [place[0] for place in dots.places], [place[1] for place in dots.places]
        axes.plot(xs, ys, linestyle="none", marker="o", markersize=size, color=dots.colour, markeredgewidth=0, zorder=3)
    axes.plot(
        [place[0] for place in picture.rings],
        [place[1] for place in picture.rings],
        linestyle="none",
        marker="o",
        markersize=size + 4,
        markerfacecolor="none",
        markeredgecolor=EDGE,
        zorder=4,
        gid="rings",
    )
    axes.plot(
        picture.undone,
        [0.03] * len(picture.undone),
        linestyle="none",
        marker="x",
        markersize=7,
        markeredgewidth=1.6,
        color=MISSED,
        transform=axes.get_xaxis_transform(),
        zorder=4,
        gid="undone",
    )


def _logarithmic(picture: Slacks, axes: Any) -> None:
    """Below minus `linear` the axis is logarithmic, and has a dashed line there."""
    linear = picture.linear or 1.0
    axes.set_yscale("symlog", linthresh=linear, linscale=2.5, subs=[])
    axes.set_ylim(picture.frame.y)
    ticks = _ticks(linear, picture.frame.y[0])
    axes.set_yticks(ticks)
    axes.set_yticklabels([short(tick).replace("-", "\u2212") for tick in ticks])
    axes.minorticks_off()
    axes.axhline(-linear, color=SOFT, linewidth=1, linestyle=(0, (6, 4)), zorder=1)


def _ticks(linear: float, low: float) -> List[float]:
    """Ticks of an axis that is linear between -linear and linear, and logarithmic down to `low`."""
    step = 10.0 ** len(str(int(linear))) / 10 if linear >= 1 else 10.0 ** -len(f"{1 / linear:.0f}")
    step = next((part for part in (step, step / 2, step / 5) if linear / part >= 2), step / 10)
    found = [step * place for place in range(-int(linear / step), int(linear / step) + 1)]
    power = 10.0 ** len(str(int(linear))) if linear >= 1 else step * 10
    far = []
    while power <= -low:
        far += [-power] if power > 1.3 * linear else []
        power *= 10
    return [*far[::-1], *found]


def curve(picture: Excess, axes: Any, **words: Any) -> None:
    """The least work above each speed."""
    dress(axes, picture.frame)
    grid(axes)
    right = picture.frame.x[1]
    xs, ys = [x for x, _ in picture.corners], [y for _, y in picture.corners]
    looks = {"color": "#0072b2", "linewidth": 2.4, "zorder": 3, **words}
    axes.plot(xs, ys, **looks)
    axes.plot([xs[-1], right], [ys[-1], 0.0], **looks)
    axes.fill_between([*xs, right], [*ys, 0.0], color="#d6e8f5", linewidth=0, zorder=2)
    size = 2.5 if len(xs) > 60 else 5
    axes.plot(
        xs, ys, linestyle="none", marker="o", markersize=size, color="#0072b2", zorder=4, clip_on=False, gid="breaks"
    )
    _point_uprights(picture, axes)
    for place, text in zip(place_labels(picture, width_of(axes), height_of(axes)), picture.labels):
        if place is None:
            continue
        at = (place.label.x, place.label.y)
        _beside(axes, (0, 0), axes.transAxes, at, text, color=TEXT, ha="left", va="baseline", zorder=5)
        if place.is_far:
            arrow = {"arrowstyle": "-", "color": "#999999", "linewidth": 0.7, "shrinkA": 0, "shrinkB": 0}
            axes.annotate(
                "",
                xy=(place.dot[0] + 2, place.dot[1] + 4),
                xytext=(at[0] - 1, at[1] - 1),
                arrowprops=arrow,
                xycoords="axes points",
                textcoords="axes points",
                annotation_clip=False,
            )


def _point_uprights(picture: Excess, axes: Any) -> None:
    """The points as dashed lines upright, with their speeds above in two rows, as far as there is room."""
    for (place, text), row in zip(picture.points, point_rows(picture, width_of(axes))):
        axes.axvline(place, color="#9a9a9a", linewidth=1, linestyle=(0, (6, 4)), zorder=1)
        if row:
            at = (0, 4 + 13 * (row - 1))
            _beside(axes, (place, 1), axes.get_xaxis_transform(), at, text, color=SOFT, ha="center", va="bottom")
    if picture.beyond:
        _beside(axes, (1, 1), axes.transAxes, (-4, -4), picture.beyond, color=SOFT, ha="right", va="top")


def energy(picture: Bars, axes: Any) -> None:
    """What each side spends. The bars are the axes' patches, or where they are parted a patch for each colour."""
    dress(axes, picture.frame)
    grid(axes, "y")
    axes.tick_params(axis="x", length=0)
    places = range(1, len(picture.names) + 1)
    axes.set_xticks(list(places))
    axes.set_xticklabels([plain_lines(name) for name in picture.names])
    literal(axes.get_xticklabels())
    for colour, parts in picture.parts:
        boxes(axes, [(one.side + 0.7, one.side + 1.3, one.below, one.above) for one in parts], colour, zorder=2)
    if not picture.parts:
        axes.bar(list(places), [height or 0.0 for height in picture.heights], 0.6, color="#0072b2", zorder=2)
    if picture.are_upright.names:
        axes.tick_params(axis="x", labelrotation=90)
    if picture.are_upright.labels:
        longest = max(text_width(" ".join(label), NUMBER) for label in picture.labels) + 8
        high = max(height_of(axes), longest * 1.4)
        axes.set_ylim(0, (max(height or 0.0 for height in picture.heights) or 1.0) * high / (high - longest))
    for place, (label, height) in enumerate(zip(picture.labels, picture.heights)):
        _bar_label(
            axes, (place + 1, height or 0.0), label, WARNING if height is None else TEXT, picture.are_upright.labels
        )


def _bar_label(axes: Any, place: Tuple[float, float], label: Tuple[str, str], colour: str, is_upright: bool) -> None:
    """The energy above a bar, and how much it is above the plan's."""
    told, change = label
    words = {"ha": "center", "va": "bottom"}
    if is_upright:
        _beside(axes, place, axes.transData, (0, 4), f"{told} {change}".strip(), color=colour, rotation=90, **words)
        return
    _beside(axes, place, axes.transData, (0, 19 if change else 4), told, color=colour, size=NUMBER, **words)
    if change:
        _beside(axes, place, axes.transData, (0, 4), change, color=SOFT, **words)


def ratios(picture: Ratios, axes: Any) -> None:
    """The share of documents by ratio."""
    dress(axes, picture.frame)
    grid(axes)
    axes.set_yticks([0, 25, 50, 75, 100])
    for side in picture.sides:
        axes.plot(
            side.ratios,
            side.shares,
            color=side.colour,
            linewidth=2.2,
            linestyle=(0, (4, 2)) if side.is_dashed else "-",
            label=plain(side.name),
            zorder=3,
        )


def _text(axes: Any, x: float, y: float, text: str, **words: Any) -> Any:
    found = axes.text(x, y, text, **{"fontsize": SMALL, "zorder": 5, **words})
    literal([found])
    return found


def _beside(
    axes: Any, place: Tuple[float, float], where: Any, offset: Tuple[float, float], text: str, **words: Any
) -> Any:
    """A text so many pixels beside a place."""
    found = axes.annotate(
        text,
        xy=place,
        xycoords=where,
        xytext=offset,
        textcoords="offset points",
        annotation_clip=False,
        **{"fontsize": words.pop("size", SMALL), "zorder": 5, **words},
    )
    literal([found])
    return found
