"""How long before its deadline each job was done, as values."""

from __future__ import annotations

import csv
import re
from fractions import Fraction
from math import inf
from typing import TYPE_CHECKING, Dict, Iterable, Iterator, List, NamedTuple, Optional, Sequence, Tuple

from yds._framed import COLOURS, EDGE, MISSED, SMALL, Choice, Frame, Groups, Key, grouped, in_words
from yds._pixels import as_many_as_fit, columns_of
from yds._scales import Units, span_told, time_scale
from yds._text import Fault, Line, counted, printable

if TYPE_CHECKING:
    from yds.jobs import JobRow

MOST_DOTS = 5000
_NUMBER = re.compile(r"-?[0-9]{1,30}(\.[0-9]{1,30})?").fullmatch
_LEFT_OUT = re.compile(r"(.*) \(left out: .*\)").fullmatch


class Slack(NamedTuple):
    """A job of the table of yds-jobs, in the document's units."""

    job: str
    release: Optional[Fraction]
    slack: Optional[Fraction]
    """The time from its end to its deadline; None where it isn't known, or where it never ended."""
    is_done: bool
    """False where it never ended."""
    is_left_out: bool
    """Whether the document hasn't it."""


class Dots(NamedTuple):
    """The dots of a group."""

    name: str
    colour: str
    places: List[Tuple[float, float]]


class Slacks(NamedTuple):
    """The picture, in the words of the axes."""

    frame: Frame
    dots: List[Dots]
    undone: List[float]
    """The releases of jobs that never ended."""
    rings: List[Tuple[float, float]]
    """Jobs that the document hasn't."""
    linear: Optional[float]
    """Below minus this slack the axis is logarithmic, so that a job that is very late doesn't flatten all others."""


def read_slacks(lines: Iterable[Line]) -> List[Slack]:
    """The rows of a table of `yds-jobs --form csv`."""
    heading: List[str] = []
    found = []
    for line, cells in _cells(lines):
        if not heading:
            heading = cells
            if heading[0] != "job" or "release" not in heading or "slack" not in heading:
                raise line.fault("no columns job, release and slack; is this the table of yds-jobs with --form csv?")
            continue
        if len(cells) != len(heading):
            raise line.fault(f"{len(cells)} columns, and the heading has {len(heading)}")
        row = dict(zip(heading, cells))
        found.append(_slack(line, row["job"], row["release"], row["slack"]))
    if not found:
        raise Fault("no job; is this the table of yds-jobs with --form csv?")
    return found


def _cells(lines: Iterable[Line]) -> Iterator[Tuple[Line, List[str]]]:
    for line in lines:
        fields = line.fields
        if not fields or fields[0].startswith("#"):
            continue
        if fields[0] in ("failed", "refused", "too-slow", "usage:"):
            raise line.fault(f"the input is an answer of no: {printable(line.text)}")
        try:
            yield line, next(csv.reader([line.text], strict=True))
        except csv.Error as fault:
            raise line.fault(f"no row of CSV: {fault}") from fault


def _slack(line: Line, job: str, release: str, slack: str) -> Slack:
    """A row. The slack of a job that isn't done is -inf, and of one without it isn't known."""
    absent = _LEFT_OUT(job)
    name = absent.group(1) if absent else job
    if not release or not slack:
        return Slack(name, None, None, True, bool(absent))
    if not _NUMBER(release) or not (_NUMBER(slack) or slack == "-inf"):
        raise line.fault(f"a job without a release or slack: {printable(line.text)}")
    is_done = slack != "-inf"
    return Slack(name, Fraction(release), Fraction(slack) if is_done else None, is_done, bool(absent))


def slack_of(row: JobRow) -> Slack:
    """The row of a job of `yds.jobs.table`."""
    release, slack, is_left_out = row.release, row.slack, bool(row.left_out)
    if release is None or slack is None or release == inf:
        return Slack(row.job, None, None, True, is_left_out)
    is_done = slack != -inf
    return Slack(row.job, Fraction(release), Fraction(slack) if is_done else None, is_done, is_left_out)


def slacks(table: Sequence[Slack], units: Units, choice: Choice) -> Slacks:
    """The picture of a table."""
    jobs = [one for one in table if one.release is not None and _is_in(one.release, choice)]
    unknown = sum(one.release is None for one in table)
    if not jobs:
        raise Fault("no job in this range" if unknown < len(table) else "no job of the table has a release and a slack")
    first, end = choice.range or (
        float(min(one.release or 0 for one in jobs)),
        float(max(one.release or 0 for one in jobs)),
    )
    end = end if end > first else first + 1
    known = [float(one.slack) for one in jobs if one.slack is not None]
    least, most = min([*known, 0.0]), max([*known, 0.0])
    time = time_scale(units, end, "release")
    linear = _linear(least, most)
    length = time_scale(units, linear or max(most, -least), "slack")
    groups = grouped(dict(enumerate(one.job for one in jobs)), choice.group)
    if len(groups.names) > len(COLOURS):
        groups = Groups(groups.kind, ["jobs"], dict.fromkeys(groups.of, 0))
    frame = Frame("How long before its deadline each job was done", (0, 0), (0, 0), time.label, length.label)
    columns = columns_of(first, end, choice.inner(frame.left, frame.right))
    is_least = len(jobs) > MOST_DOTS
    dots = [Dots(name, groups.colour(place), []) for place, name in enumerate(groups.names)]
    seen: Dict[Tuple[int, int], Tuple[float, float]] = {}
    for place, one in enumerate(jobs):
        if one.slack is None or one.release is None:
            continue
        dot = float(one.release) * time.factor, float(one.slack) * length.factor
        if is_least:
            cell = groups.of[place], columns.of(float(one.release))
            seen[cell] = min(seen.get(cell, dot), dot, key=lambda found: found[1])
        else:
            dots[groups.of[place]].places.append(dot)
    for (group, _), dot in sorted(seen.items()):
        dots[group].places.append(dot)
    undone = [float(one.release) * time.factor for one in jobs if not one.is_done and one.release is not None]
    rings = [
        (float(one.release) * time.factor, float(one.slack) * length.factor)
        for one in jobs
        if one.is_left_out and one.slack is not None and one.release is not None
    ]
    edge = (end - first) * 0.01
    frame = frame._replace(
        title=frame.title + (": the least of each column of pixels" if is_least else ""),
        x=((first - edge) * time.factor, (end + edge) * time.factor),
        y=tuple(number * length.factor for number in _range(least, most, linear)),  # type: ignore[arg-type]
        key=_key(groups, bool(undone), bool(rings)),
        notes=_notes(jobs, unknown, units, choice),
    )
    if linear is not None:
        frame = frame._replace(hints=[f"below {length.told(-linear)} the axis is logarithmic"])
    told = f"{counted(len(known), 'job', 'jobs')}, the least slack {length.told(least) if known else 'unknown'}"
    return Slacks(in_words(frame, told), dots, undone, rings, None if linear is None else linear * length.factor)


def _is_in(release: Fraction, choice: Choice) -> bool:
    return choice.range is None or choice.range.start <= release <= choice.range.end


def _linear(least: float, most: float) -> Optional[float]:
    """Down to which lateness the axis is linear; None where it is throughout."""
    return most if 0 < most * 2 < -least else None


def _range(least: float, most: float, linear: Optional[float]) -> Tuple[float, float]:
    pad = (most - least) * 0.06 if most > least else 1.0
    if linear is not None:
        return least * 1.3, most * 1.1
    return least - pad if least < 0 else 0.0, most + pad


def _key(groups: Groups, has_undone: bool, has_rings: bool) -> List[Key]:
    key = [one._replace(look="dot") for one in groups.keys()] if len(groups.names) > 1 else []
    key += [Key("cross", MISSED, "not done")] if has_undone else []
    return key + ([Key("ring", EDGE, "left out of the document")] if has_rings else [])


def _notes(jobs: Sequence[Slack], unknown: int, units: Units, choice: Choice) -> List[str]:
    """Which jobs were late, the latest first, which weren't done, and of how many it isn't known."""
    width = choice.width - 110
    late = sorted((one.slack, one.job) for one in jobs if one.slack is not None and one.slack < 0)
    undone = [one.job for one in jobs if not one.is_done]
    texts = [f"{name} by {span_told(units, -slack)}" for slack, name in late]
    notes = [f"late: {as_many_as_fit(texts, width, SMALL)}"] if texts else []
    notes += [f"not done: {as_many_as_fit(undone, width, SMALL)}"] if undone else []
    return notes + ([f"{counted(unknown, 'job', 'jobs')} of unknown slack, not drawn"] if unknown else [])
