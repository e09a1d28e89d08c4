"""What answers look like in a notebook: pictures in SVG and tables in HTML, without another package."""

from __future__ import annotations

from html import escape
from typing import TYPE_CHECKING, Iterable, List, Sequence, Tuple

from yds._shown import counted

if TYPE_CHECKING:
    from yds.results import Comparison, Curve, Report
    from yds.rows import Job, Slot

MOST_ROWS = 40
MOST_SLOTS = 2000
_ROW, _LEFT, _WIDTH = 16, 80, 720


def svg(jobs: Sequence[Job], slots: Sequence[Slot]) -> str:
    """The jobs' windows, and in them the slots, the darker the faster. What isn't shown is told below."""
    shown = jobs[:MOST_ROWS]
    rows = {job.name: row for row, job in enumerate(shown)}
    own = [slot for slot in slots if slot.job in rows]
    first = min([*(job.release for job in shown), *(slot.start for slot in own)])
    last = max([*(job.deadline for job in shown), *(slot.end for slot in own)])
    scale = (_WIDTH - _LEFT - 10) / float(last - first)

    def bar(row: int, start: object, end: object, height: int, look: str, title: str) -> str:
        left = _LEFT + float(start - first) * scale  # type: ignore[operator]
        wide = max(float(end - start) * scale, 0.5)  # type: ignore[operator]
        top = row * _ROW + (_ROW - height) // 2
        return (
            f'<rect x="{left:.1f}" y="{top}" width="{wide:.1f}" height="{height}" {look}>'
            f"<title>{escape(title)}</title></rect>"
        )

    body: List[str] = []
    for row, job in enumerate(shown):
        name = job.name if len(job.name) <= 12 else job.name[:11] + "\u2026"
        body.append(f'<text x="2" y="{row * _ROW + 12}">{escape(name)}</text>')
        title = f"{job.name}: work {job.work} from {job.release} to {job.deadline}"
        body.append(bar(row, job.release, job.deadline, 6, 'fill="#999" fill-opacity="0.4"', title))
    running = [slot for slot in own if slot.end > slot.start]
    top = float(max((slot.speed for slot in running), default=0)) or 1.0
    for slot in running[:MOST_SLOTS]:
        look = f'fill="#1f5f99" fill-opacity="{0.25 + 0.75 * float(slot.speed) / top:.2f}"'
        title = f"{slot.job}: {slot.start} to {slot.end} at speed {slot.speed}"
        body.append(bar(rows[slot.job], slot.start, slot.end, 12, look, title))
    line = len(shown) * _ROW + 13
    body.append(f'<text x="{_LEFT}" y="{line}">{escape(str(first))}</text>')
    body.append(f'<text x="{_WIDTH - 10}" y="{line}" text-anchor="end">{escape(str(last))}</text>')
    more = _more([(len(jobs) - len(shown), "job"), (len(running) - MOST_SLOTS, "slot")])
    body.append(f'<text x="{(_WIDTH + _LEFT) // 2}" y="{line}" text-anchor="middle">{more}</text>' if more else "")
    height = line + 5
    return (
        f'<svg xmlns="http://www.w3.org/2000/svg" width="{_WIDTH}" height="{height}" '
        f'viewBox="0 0 {_WIDTH} {height}" font-family="sans-serif" font-size="10" fill="currentColor">'
        f"{''.join(body)}</svg>"
    )


def _more(left_out: Sequence[Tuple[int, str]]) -> str:
    """What isn't shown."""
    told = [f"{count:,} more {thing}" + ("s" if count > 1 else "") for count, thing in left_out if count > 0]
    return f"and {', '.join(told)}" if told else ""


def report(told: Report) -> str:
    """The levels of a report."""
    jobs = f"{counted(told.jobs, 'job')}, work {told.work}, {told.start} to {told.end}, idle {told.idle}"
    rows = [(place, level.work, level.length, level.speed) for place, level in enumerate(told.levels)]
    return _table(f"Report of {jobs}", ("level", "work", "length", "speed"), rows, "level")


def curve(told: Curve) -> str:
    """The breaks of a curve."""
    caption = "Curve: the least work above each speed"
    return _table(caption, ("speed", "least work above it"), told.breaks, "break")


def comparison(told: Comparison) -> str:
    """The energies of the plan and of both policies, and how long each is at each point."""
    sides = (("plan", told.plan), ("avr", told.avr), ("oa", told.oa))
    speeds = sorted({speed for _, side in sides for speed in side.times or {}})
    least = told.plan.energy
    rows: List[Tuple[object, ...]] = []
    for name, side in sides:
        rounded = "" if side.rounded is None else side.rounded
        if side.energy is None or side.times is None:
            rows.append((name, "too slow", "", *("" for _ in speeds), rounded))
        else:
            ratio = f"{float(side.energy / least):.4f}" if least else ""
            rows.append((name, side.energy, ratio, *(side.times.get(speed, 0) for speed in speeds), rounded))
    heads = ("", "energy", "times the least", *(f"time at {speed}" for speed in speeds), "rounded")
    return _table("Comparison", heads, rows, "row")


def _table(caption: str, heads: Sequence[str], rows: Sequence[Iterable[object]], thing: str) -> str:
    """A table in HTML, of so many rows at most; how many there are more stands below."""
    lines = [f"<caption>{escape(caption)}</caption>", _row("th", heads)]
    lines += [_row("td", row) for row in rows[:MOST_ROWS]]
    more = _more([(len(rows) - MOST_ROWS, thing)])
    if more:
        lines.append(f'<tr><td colspan="{len(heads)}">{more}</td></tr>')
    return f"<table>{''.join(lines)}</table>"


def _row(cell: str, values: Iterable[object]) -> str:
    return "<tr>" + "".join(f"<{cell}>{escape(str(value))}</{cell}>" for value in values) + "</tr>"
