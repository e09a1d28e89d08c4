"""What an answer looks like in one line, at Python's prompt and in a notebook."""

from __future__ import annotations

from typing import TYPE_CHECKING, List, Optional

if TYPE_CHECKING:
    from yds.results import Comparison, Curve, Judgement, Report, Side, TooSlow, Trial, Verdict
    from yds.rows import Rows


def counted(number: int, thing: str) -> str:
    """So many things.

    >>> counted(1, "job"), counted(3, "job")
    ('1 job', '3 jobs')
    """
    return f"{number} {thing}" if number == 1 else f"{number} {thing}s"


def document(kind: str, rows: Rows, more: List[str]) -> str:
    """A document: its jobs, how many other rows there are, and what an answer tells beside them."""
    jobs = counted(len(rows.jobs), "job")
    if rows.jobs:
        start, end = min(job.release for job in rows.jobs), max(job.deadline for job in rows.jobs)
        jobs = f"{jobs}, work {sum(job.work for job in rows.jobs)}, {start} to {end}"
    parts = [(len(rows.points), "point"), (len(rows.slots), "slot"), (len(rows.levels), "level")]
    told = ", ".join([*(counted(number, thing) for number, thing in parts if number), *more])
    return f"<{kind} of {jobs}: {told}>" if told else f"<{kind} of {jobs}>"


def verdict(told: Verdict) -> str:
    """A verdict: its cause, and the slot or the job."""
    return f"<Verdict {cause(told)}>"


def cause(told: Verdict) -> str:
    """The cause with what it is about."""
    if told.cause == "work":
        return f"work: {told.job} is given {told.given} of {told.wanted}"
    slot = told.slot
    if slot is None:
        return told.cause
    about = {
        "backward": f"runs from {slot.start} to {slot.end}",
        "overlap": f"begins at {slot.start}, the one before ends at {told.previous_end}",
        "early": f"begins at {slot.start}, release {told.release}",
        "late": f"ends at {slot.end}, deadline {told.deadline}",
        "off-point": f"gives {slot.work} from {slot.start} to {slot.end}, at no point's speed",
    }
    return f"{told.cause}: slot {told.index} of {told.job} {about.get(told.cause, '')}"


def judgement(told: Judgement) -> str:
    """A judgement: accepted, or the condition that fails and where."""
    if told.condition is None:
        return "<Judgement accepted>"
    where: Optional[str] = None
    if told.verdict is not None:
        where = cause(told.verdict)
    elif told.slot is not None:
        where = f"slot {told.index} of {told.slot.job} has the speed {told.slot.speed}, its level {told.wanted}"
    elif told.level is not None:
        where = f"level {told.level}"
    elif told.job is not None:
        where = f"job {told.job}"
    return f"<Judgement {told.condition}: {where}>"


def too_slow(told: TooSlow) -> str:
    """A no: the speed that is needed and the top."""
    return f"<TooSlow: work {told.work} in {told.length} needs the speed {told.needed}, the top is {told.top}>"


def report(told: Report) -> str:
    """A report: its jobs and its levels."""
    jobs = f"{counted(told.jobs, 'job')}, work {told.work}, {told.start} to {told.end}"
    return f"<Report of {jobs}: {counted(len(told.levels), 'level')}, peak {told.peak}, idle {told.idle}>"


def curve(told: Curve) -> str:
    """A curve: how many breaks it has, and its two ends."""
    if not told.breaks:
        return "<Curve of 0 breaks>"
    first, last = told.breaks[0], told.breaks[-1]
    return (
        f"<Curve of {counted(len(told.breaks), 'break')}: {first.excess} above the speed {first.speed}, "
        f"{last.excess} above {last.speed}>"
    )


def comparison(told: Comparison) -> str:
    """A comparison: each side's energy."""
    return f"<Comparison: plan {_side(told.plan)}, avr {_side(told.avr)}, oa {_side(told.oa)}>"


def _side(side: Side) -> str:
    spent = "too slow" if side.energy is None else f"energy {side.energy}"
    return f"{spent} (rounded {side.rounded})" if side.rounded else spent


def trial(told: Trial) -> str:
    """A trial: its counts and its peak."""
    peak = "none" if told.peak is None else f"{told.peak[0]}/{told.peak[1]}"
    return (
        f"<Trial of {counted(told.jobs, 'job')}: {counted(told.levels, 'level')}, "
        f"{counted(told.slots, 'slot')}, peak {peak}>"
    )
