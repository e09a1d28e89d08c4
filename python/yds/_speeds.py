"""The speed over time, as values: boxes of groups above one another, or a line for each document."""

from __future__ import annotations

from typing import Dict, List, NamedTuple, Optional, Sequence, Set, Tuple

from yds._framed import COLOURS, SOFT, Choice, Frame, Groups, Key, grouped, in_words, shortened_name
from yds._gantt import span
from yds._pixels import Columns, Stretch, columns_of, dense_columns, outside, shares
from yds._scales import Scale, Units, short, speed_scale, time_scale
from yds._text import Fault
from yds._timeline import Timeline


WIDE_COLUMN = 4
"""The columns' width in pixels, where more than half of all pixels have runs that are narrower."""


class Box(NamedTuple):
    """A box of a group, from start to end and from below to above."""

    start: float
    end: float
    below: float
    above: float


class Line(NamedTuple):
    """The speed of a document as steps; an area is filled down to 0."""

    name: str
    colour: str
    is_area: bool
    is_dashed: bool
    times: List[float]
    speeds: List[float]


class Level(NamedTuple):
    """An operating point: a line across, with its speed."""

    speed: float
    text: str


class Speed(NamedTuple):
    """The speed over time, in the words of the axes."""

    frame: Frame
    boxes: List[Tuple[str, List[Box]]]
    """The boxes of each colour."""
    greatest: List[Box]
    """The greatest speed of each column of pixels that is drawn as a whole; they have no height."""
    lines: List[Line]
    levels: List[Level]


def speed(documents: Sequence[Timeline], names: Sequence[str], choice: Choice) -> Speed:
    """The picture of one document, by job or task, or of several, each as a line under its name."""
    spans = [span(one, choice, False) for one in documents]
    first, end = min(one[0] for one in spans), max(one[1] for one in spans)
    units = documents[0].units
    for one in documents[1:]:
        units = Units(*(own or other for own, other in zip(units, one.units)))
    points = sorted({point[0] for one in documents for point in one.points})
    runs = [_within(one.runs, first, end) for one in documents]
    if not any(runs):
        raise Fault("no slot in this range")
    top = _ceiling(max(run.speed for one in runs for run in one), points)
    time, scale = time_scale(units, end), speed_scale(units, top)
    frame = Frame(
        "",
        (first * time.factor, end * time.factor),
        (0.0, (top or 1.0) * scale.factor * 1.06),
        time.label,
        scale.label,
        right=62 if any(points) else 24,
    )
    columns = columns_of(first, end, choice.inner(frame.left, frame.right))
    levels = [Level(point * scale.factor, short(point * scale.factor)) for point in points if 0 < point <= top]
    if len(documents) > 1:
        return _of_several(documents, names, runs, columns, frame, levels, time, scale)
    return _of_one(documents[0], runs[0], choice, columns, frame, levels, time, scale)


def _within(runs: Sequence[Stretch], first: float, end: float) -> List[Stretch]:
    seen = [run for run in runs if run.end > first and run.start < end]
    return [run._replace(start=max(run.start, first), end=min(run.end, end)) for run in seen]


def _ceiling(greatest: float, points: Sequence[int]) -> float:
    """The least point at or above all speeds, so that the picture isn't empty above."""
    return next((float(point) for point in points if point >= greatest * (1 - 1e-6)), greatest)


def _groups(document: Timeline, runs: Sequence[Stretch], choice: Choice) -> Groups:
    """The groups of the jobs that run here; of all jobs, where no part is asked for."""
    running = {run.row for run in runs}
    names = {place: job.name for place, job in enumerate(document.jobs) if choice.range is None or place in running}
    return grouped(names, choice.group)


def _of_one(
    document: Timeline,
    runs: Sequence[Stretch],
    choice: Choice,
    columns: Columns,
    frame: Frame,
    levels: List[Level],
    time: Scale,
    scale: Scale,
) -> Speed:
    groups = _groups(document, runs, choice)
    ranks = _ranks(groups, runs)
    stretches = [run._replace(row=ranks[groups.of[run.row]]) for run in runs]
    dense = dense_columns(stretches, columns)
    if len(dense) * 2 > columns.number:
        columns = columns._replace(number=max(1, columns.number // WIDE_COLUMN))
        dense = dense_columns(stretches, columns)
    boxes, greatest = _boxes(stretches, dense, columns)
    names = [groups.names[group] for group in sorted(ranks, key=lambda group: ranks[group])]
    shown = Groups(groups.kind, names, {})
    key = shown.keys() + ([Key("line", SOFT, "greatest speed")] if dense else [])
    pixels = round(choice.inner(frame.left, frame.right) / columns.number)
    where = "a pixel" if pixels == 1 else f"{pixels} pixels"
    hints = [f"where runs are narrower than {where}: the mean speed of that time, and the greatest"] if dense else []
    coloured: Dict[str, List[Box]] = {}
    for row in sorted(boxes):
        coloured.setdefault(shown.colour(row), []).extend(_scaled(one, time, scale) for one in boxes[row])
    told = f"{len(names)} {groups.kind}{'' if len(names) == 1 else 's'}: {', '.join(names[:40])}"
    framed = in_words(frame._replace(title=f"Speed over time, by {groups.kind}", key=key, hints=hints), told)
    return Speed(framed, list(coloured.items()), [_scaled(one, time, scale) for one in greatest], [], levels)


def _ranks(groups: Groups, runs: Sequence[Stretch]) -> Dict[int, int]:
    """The groups' places. Where they are more than colours, those with most work come first, so that they have one."""
    order = list(range(len(groups.names)))
    if len(order) > len(COLOURS):
        work = [0.0] * len(order)
        for run in runs:
            work[groups.of[run.row]] += (run.end - run.start) * run.speed
        order.sort(key=lambda group: -work[group])
    return {group: place for place, group in enumerate(order)}


def _boxes(stretches: Sequence[Stretch], dense: Set[int], columns: Columns) -> Tuple[Dict[int, List[Box]], List[Box]]:
    """The boxes of each row, and the greatest speed of each dense column. In one of these the rows stand above one
    another, each as high as its mean speed there."""
    found: Dict[int, List[Box]] = {}
    for one in stretches:
        for piece in outside(one, dense, columns):
            found.setdefault(one.row, []).append(Box(piece.start, piece.end, 0.0, one.speed))
    below: Dict[int, float] = {}
    fastest: Dict[int, float] = {}
    for share in sorted(shares(stretches, columns), reverse=True) if dense else ():
        column = share.column
        if column not in dense:
            continue
        bottom = below.get(column, 0.0)
        top = below[column] = bottom + share.part * share.speed
        fastest[column] = max(fastest.get(column, 0.0), share.greatest)
        found.setdefault(share.row, []).append(Box(columns.begin(column), columns.begin(column + 1), bottom, top))
    greatest = [Box(columns.begin(one), columns.begin(one + 1), fastest[one], fastest[one]) for one in sorted(fastest)]
    return {row: _joined(boxes) for row, boxes in found.items()}, _joined(greatest)


def _joined(boxes: Sequence[Box]) -> List[Box]:
    """Boxes in order of time, of which those that touch and are equally high are one."""
    found: List[Box] = []
    for box in sorted(boxes):
        if found and found[-1].end == box.start and found[-1][2:] == box[2:]:
            found[-1] = found[-1]._replace(end=box.end)
        else:
            found.append(box)
    return found


def _scaled(box: Box, time: Scale, scale: Scale) -> Box:
    return Box(box.start * time.factor, box.end * time.factor, box.below * scale.factor, box.above * scale.factor)


def _of_several(
    documents: Sequence[Timeline],
    names: Sequence[str],
    runs: Sequence[Sequence[Stretch]],
    columns: Columns,
    frame: Frame,
    levels: List[Level],
    time: Scale,
    scale: Scale,
) -> Speed:
    lines = []
    is_mean = False
    for place, (document, own) in enumerate(zip(documents, runs)):
        stretches = [run._replace(row=0) for run in own]
        dense = dense_columns(stretches, columns)
        is_mean = is_mean or bool(dense)
        boxes = _boxes(stretches, dense, columns)[0].get(0, [])
        times, speeds = _steps(boxes, columns)
        lines.append(
            Line(
                shortened_name(names[place]),
                COLOURS[place % len(COLOURS)],
                document.is_trace,
                place > 2,
                [one * time.factor for one in times],
                [one * scale.factor for one in speeds],
            )
        )
    key = [
        Key("area" if line.is_area else "dashed" if line.is_dashed else "line", line.colour, line.name)
        for line in lines
    ]
    hints = ["where runs are narrower than a pixel: the mean speed of its time"] if is_mean else []
    notes = [note for note in (_below_points(one, name, scale) for one, name in zip(documents, names)) if note]
    told = f"Documents: {', '.join(names)}"
    frame = in_words(frame._replace(title="Speed over time", key=key, notes=notes, hints=hints), told)
    plans = [one.is_plan for one in documents]
    order = sorted(range(len(lines)), key=lambda place: (not lines[place].is_area, plans[place]))
    return Speed(frame, [], [], [lines[place] for place in order], levels)


def _steps(boxes: Sequence[Box], columns: Columns) -> Tuple[List[float], List[float]]:
    """The corners of a line along the boxes' tops, down to 0 where none is."""
    times, speeds = [columns.first], [0.0]
    until = columns.first
    for box in sorted(boxes):
        start = max(box.start, until)
        if box.end <= start:
            continue
        if start > until + columns.step * 1e-6:
            times += [until, start]
            speeds += [0.0, 0.0]
        times += [start, box.end]
        speeds += [box.above, box.above]
        until = box.end
    return [*times, until, columns.end], [*speeds, 0.0, 0.0]


def _below_points(document: Timeline, name: str, scale: Scale) -> Optional[str]:
    """A note where a plan runs below the least point, which no processor of these points does."""
    least = min((speed for speed, _ in document.points if speed > 0), default=0)
    if not document.is_plan or not any(run.speed < least for run in document.runs):
        return None
    told = f"{name} runs below the least point, {scale.told(least)}"
    return f"{told}: the answer of `yds_cli round` is a schedule on the points"
