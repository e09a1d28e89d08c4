"""The sections of a page that need no picture: the verdict, the tasks, the energies, the misses, and how to repeat it."""

from __future__ import annotations

from fractions import Fraction
from math import inf
from typing import List, NamedTuple, Optional, Sequence, Tuple

from yds._beside_least import LEAST, RAN, Bar, Energies
from yds._by_task import TaskRow
from yds._comments import IDLE_THREADS, OTHERS, Missing, unknown_works, workless
from yds._facts import Facts, Missed
from yds._lacking import CLOCK, HOLES, NOT_WHOLE, SWITCHES
from yds._least import judged
from yds._markup import LINE_FEED, NONE, Markup, Scale, element, exactly, join, number, of_bytes, percent, shown, table
from yds._text import counted, printable

MOST_MISSES, MOST_TASKS, MOST_COMMENTS, MOST_UNJUDGED = 200, 100, 200, 100
WRONG_UNIT = 4
"""A deadline that is so many times the period, or so small a part of it, is told."""


class Origin(NamedTuple):
    """Where a page comes from, so that it can be repeated."""

    command: str
    """As one types it."""
    inputs: Sequence[Tuple[str, int, str]]
    """Name, bytes and SHA-256 of each."""
    versions: Sequence[str]


def section(name: str, title: str, *children: object) -> Markup:
    """A part of the page that can be folded."""
    return element("details", element("summary", element("h2", title)), *children, id=name, open="")


def verdict_line(facts: Facts) -> Tuple[str, Markup]:
    """The verdict in a line, with the word for its colour: yes, no, or open."""
    jobs, missed = len(facts.given.jobs), facts.missed
    if facts.is_another_fault:
        late = f"; {len(missed):,} of {jobs:,} jobs missed their deadlines, and others may have" if missed else ""
        rest = late or ", and whether deadlines were met isn't told"
        return "no", Markup(element("span", f"The schedule has a fault: {facts.audit.verdict}{rest}"))
    if missed:
        worst = facts.worst[0].missed
        told = f"{len(missed):,} of {_all_jobs(facts):,} jobs missed {'its deadline' if len(missed) == 1 else 'their deadlines'}"
        return "no", join([told, f", the worst {shown(worst.miss.job)}", lateness(worst, facts.scale)])
    judged_jobs = f"{jobs:,} jobs" if jobs > 1 else "job"
    if facts.given.lacking.may_hide:
        found = facts.given.lacking.found
        untold = "no line of the trace tells of some time" if CLOCK in found else "a processor tells nothing at the end"
        holes = "events were lost" if HOLES in found else untold
        told = f"As far as the trace shows, no deadline was missed by the {judged_jobs} that could be judged; {holes}"
        return "open", Markup(element("span", f"{told}, so others may hide a miss"))
    if facts.may_hide:
        told = f"No deadline was missed by the {judged_jobs} that could be judged; others may hide a miss"
        return "open", Markup(element("span", told))
    return "yes", Markup(
        element("span", f"Every deadline was met, by {'all ' if jobs > 1 else 'the one '}{judged_jobs}")
    )


def _all_jobs(facts: Facts) -> int:
    """The jobs of the document, and those that comments tell to be late and that aren't in it."""
    return len(facts.given.jobs) + sum(one.miss.job not in facts.given.jobs for one in facts.missed)


def lateness(missed: Missed, scale: Scale) -> Markup:
    """By how much it was late, as after a job's name."""
    if missed.row.late == inf:
        if not missed.late:
            return Markup(", which never ended")
        return join([", which hadn't ended ", scale.length(missed.late), " after its deadline"])
    if missed.late is None:
        return Markup(", late by an unknown time")
    return join([", late by at least " if missed.at_least else ", late by ", scale.length(missed.late)])


def unjudged(facts: Facts) -> Markup:
    """What wasn't judged, and whether it can hide a miss."""
    rows: List[Sequence[object]] = [
        (
            of_bytes(one.told),
            element("b", "yes") if one.hides else "no",
            element("span", of_bytes(one.why), class_="told"),
        )
        for one in facts.unjudged[:MOST_UNJUDGED]
    ]
    if facts.audit.workless:
        told = workless(len(facts.audit.workless), facts.audit.workless[0])[2:]
        rows.append((told, "no", element("span", "there was nothing to do", class_="told")))
    if not rows:
        return element("p", "Nothing in the document tells of a job that wasn't judged.", class_="told")
    more = len(facts.unjudged) - MOST_UNJUDGED
    after = [element("p", f"and {more:,} more", class_="told")] if more > 0 else []
    return join([table("What couldn't be judged", ("What", "Can it hide a miss?", "Why"), rows, "unjudged"), *after])


# --- Tasks.


def tasks(facts: Facts) -> Markup:
    """A row for each task."""
    scale, every = facts.scale, facts.tasks
    unit = scale.time_unit
    heads = [
        "task", "jobs", "missed", "frames lost", f"median response ({unit})", f"95 in 100 ({unit})",
        f"greatest ({unit})", f"least slack ({unit})", f"period as measured ({unit})", f"deadline as given ({unit})",
        f"ran ({unit})", "of the time", "left out",
    ]  # fmt: skip
    kept = sorted(sorted(every, key=lambda row: -row.missed)[:MOST_TASKS], key=every.index)
    whole = facts.given.end - facts.given.start
    rows = [_task(row, scale, whole) for row in kept]
    if len(every) > 1:
        rows.append(_task(facts.all_jobs._replace(name="all"), scale, whole))
    told = [
        "A response is the time from release to end; 95 in 100 of them are at most the second number. Frames lost are begins that were passed over: due a period after "
        "the one before, while its job hadn't ended. The period is the median distance of begins."
    ]
    if len(every) > MOST_TASKS:
        told.append(f" Of {len(every):,} tasks these are the {MOST_TASKS} that missed most; the last row has all.")
    return join([table(join(told), heads, rows, "by-task"), *_unlike(facts)])


def _task(row: TaskRow, scale: Scale, whole: Fraction) -> List[object]:
    deadline: object = join([scale.time(length) for length in row.deadlines], " to ") if row.deadlines else NONE
    unknown = f" ({row.unknown} unknown)" if row.unknown else ""
    return [
        shown(row.name, 64),
        row.jobs,
        element("b", row.missed, class_="no") if row.missed else 0,
        NONE if row.lost is None else row.lost,
        join([scale.time(row.median), unknown]),
        scale.time(row.most),
        scale.time(row.greatest),
        scale.time(row.slack),
        scale.time(row.period),
        deadline,
        scale.time(row.ran),
        share(row.ran, whole),
        row.left_out,
    ]


def share(part: Fraction, whole: Fraction) -> Markup:
    """A part of the whole in hundredths, with the exact part behind it."""
    return (
        NONE
        if not whole
        else number(exactly(part / whole), f"{exactly(part / whole)} of the whole", percent(part / whole))
    )


def _unlike(facts: Facts) -> List[Markup]:
    """Deadlines that are far from the period."""
    found = []
    for row in facts.tasks[:MOST_TASKS]:
        if not row.period or not row.deadlines:
            continue
        period, least, most = Fraction(row.period), row.deadlines[0], row.deadlines[-1]
        if most >= WRONG_UNIT * period or least * WRONG_UNIT <= period:
            far = (
                f"{float(Fraction(most) / period):.3g} times"
                if most >= period
                else f"a {float(period / least):.3g}th of"
            )
            told = f"The deadline of {shown(row.name, 64)} is {far} its period. Is it in another unit?"
            found.append(element("p", told, class_="open"))
    return found


# --- Energies.


def energies(facts: Facts) -> Markup:
    """Bars with numbers, a sentence, and the time at each point."""
    told = facts.energies
    if told is None:
        text = (
            "The document has no points, so no energy is told. Give the points before it: yds-page points.txt trace.txt"
        )
        return element("p", text)
    scale = facts.scale
    parts = [*_sentence(facts, told), _bars(told, scale), _times(facts, told)]
    beside = [text for text in told.told if not text.startswith((OTHERS, SWITCHES, IDLE_THREADS))]
    parts += [element("p", of_bytes(text), class_="told") for text in beside]
    return join([*parts, *_of_others(facts)])


def _sentence(facts: Facts, told: Energies) -> List[Markup]:
    """How much more than the least was spent."""
    parts: List[object] = []
    ran = next((bar for bar in told.bars if bar.name == RAN and bar.energy is not None), None)
    if told.too_slow is not None:
        parts.append(
            element(
                "p",
                "No schedule on these points meets all deadlines: within ",
                facts.scale.length(told.too_slow.length),
                " there is more work than the top point does.",
            )
        )
    if told.bounds is not None and ran is not None and ran.energy is not None:
        for_whom = f"with {told.moved}" if told.moved else "for these jobs alone"
        words = judged(ran.energy, told.bounds, Fraction(10**9))[1]
        parts.append(element("p", element("b", f"It {words}"), f", {for_whom}."))
    return [join(parts)]


def more_than_least(facts: Facts) -> str:
    """How much more than the least was spent, in hundredths; empty where that isn't known."""
    told = facts.energies
    if told is None or told.bounds is None or not told.bounds[0]:
        return ""
    ran = [bar.energy for bar in told.bars if bar.name == RAN and bar.energy is not None]
    moved = f", with {told.moved}" if told.moved else ""
    return percent(ran[0] / told.bounds[1] - 1) + moved if ran else ""


def _bars(told: Energies, scale: Scale) -> Markup:
    most = max((bar.energy for bar in told.bars if bar.energy is not None), default=Fraction(0))
    least = told.bounds[0] if told.bounds else None
    rows = [_bar(bar, most, least, scale) for bar in told.bars]
    return element("ul", *rows, class_="bars", id="energies")


def _bar(bar: Bar, most: Fraction, least: Optional[Fraction], scale: Scale) -> Markup:
    if bar.overload is not None:
        start, end = scale.moment(bar.overload.start), scale.moment(bar.overload.end)
        slow = ["the top point is too slow for it, from ", start, " to ", end, f" ({scale.moment_unit})"]
        return element("li", f"{bar.name}: ", *slow)
    if bar.energy is None:
        return element("li", f"{bar.name}: not known")
    more = ""
    if least and bar.name != LEAST:
        more = (
            f", {percent(bar.energy / least - 1)} more than the least"
            if bar.energy >= least
            else ", less than the least"
        )
    wide = f"width: {float(bar.energy / most * 100):.2f}%" if most else "width: 0"
    after = f" ({'; '.join(shown(text) for text in bar.told)})" if bar.told else ""
    inner = element("i", style=wide, aria_hidden="true")
    return element(
        "li",
        f"{bar.name}: ",
        scale.energy(bar.energy),
        more,
        after,
        inner,
        class_="least" if bar.name == LEAST else None,
    )


def _times(facts: Facts, told: Energies) -> Markup:
    """How long each side is at each point."""
    scale = facts.scale
    sides = [bar for bar in told.bars if bar.times]
    if not sides:
        return Markup("")
    rows = [
        [scale.speed(speed), power, *(scale.time(bar.times.get(speed, Fraction(0))) for bar in sides)]
        for speed, power in facts.given.points
    ]
    heads = [f"point ({scale.speed_unit})", "power", *(f"{bar.name} ({scale.time_unit})" for bar in sides)]
    return table("The time at each point", heads, rows, "times")


def _of_others(facts: Facts) -> List[Markup]:
    """For how long other threads had the processor while a job waited, where the document tells it."""
    ran = sum((span.length for span in facts.given.others.all), Fraction(0))
    found = beside_others(facts)
    if ran:
        waited = f" {facts.scale.time_unit} while a job waited. "
        least = "The least is that of these jobs on a processor that has nothing else to do."
        told = ["Other threads had the processor for ", facts.scale.time(ran), waited, least]
        found.insert(0, element("p", *told, class_="told"))
    return found


def beside_others(facts: Facts) -> List[Markup]:
    """What is said wherever the time of others is told: what of it is missing, and which threads are taken for idle."""
    lacks = facts.given.lacking.told(SWITCHES)
    found = [element("p", f"{lacks}: {NOT_WHOLE}.", class_="told")] if lacks else []
    per = facts.given.ticks or 1
    for name, ticks in facts.given.idle.ticks.items():
        head = [IDLE_THREADS, of_bytes(printable(name))]
        if ticks:
            length = facts.scale.time(Fraction(ticks, per))
            rest = [", which had the processor for ", length, f" {facts.scale.time_unit} while a job waited."]
        else:
            rest = [", which no comment names."]
        found.append(element("p", *head, *rest, class_="told"))
    return found


def speeds(facts: Facts) -> Markup:
    """The least constant speed, and what the top point leaves."""
    report = facts.asked.report()
    scale = facts.scale
    if report is None:
        return element("p", "The least constant speed isn't told: the document is above the program's limits.")
    moved = len(facts.given.moved)
    which = f", with {counted(moved, 'deadline', 'deadlines')} moved to where late jobs ended," if moved else ""
    speed = element("b", scale.with_speed(report.peak))
    parts: List[object] = [f"The least constant speed that meets every deadline{which} is ", speed]
    if len(facts.given.points) > 1:
        top = Fraction(facts.given.points[-1][0])
        if top >= report.peak:
            parts += [
                ". The top point, ",
                scale.with_speed(top),
                ", leaves ",
                element("b", share(top - report.peak, top)),
            ]
        else:
            parts += [
                ". The top point, ",
                scale.with_speed(top),
                ", is too slow by ",
                element("b", scale.with_speed(report.peak - top)),
            ]
    missing = Missing()
    for text in facts.given.comments:
        missing.take(text)
    if missing.unknown:
        parts.append(f". {unknown_works(len(missing.unknown), of_bytes(missing.unknown[0]))}")
    return element("p", *parts, ".", id="least-speed")


# --- Misses.


def misses(facts: Facts) -> Markup:
    """All misses, the first of them."""
    if not facts.missed:
        return element("p", "None.")
    scale = facts.scale
    unit = scale.moment_unit
    heads = ["job", f"released ({unit})", f"due ({unit})", f"ended ({unit})", f"late by ({scale.time_unit})", "told by"]
    rows = [
        [
            shown(one.miss.job, 64),
            scale.moment(one.row.release),
            scale.moment(one.row.deadline),
            scale.moment(one.row.end),
            join(["at least " if one.at_least and one.late is not None else "", scale.time(one.late)]),
            element("span", of_bytes(one.miss.text), class_="told"),
        ]
        for one in facts.missed[:MOST_MISSES]
    ]
    caption = "The missed deadlines, in the order in which they were due"
    if len(facts.missed) > MOST_MISSES:
        caption += f": the first {MOST_MISSES} of {len(facts.missed):,}. yds-misses tells all"
    return table(caption, heads, rows, "all-misses")


# --- Comments, and how to repeat it.


def comments(facts: Facts) -> Markup:
    """The document's comments, the first of them."""
    told = facts.given.comments
    if not told:
        return element("p", "The document has none.")
    lines = [of_bytes(shown_line(text)) for text in told[:MOST_COMMENTS]]
    if len(told) > MOST_COMMENTS:
        lines.append(f"and {counted(len(told) - MOST_COMMENTS, 'more line', 'more lines')}")
    return element("pre", join(lines, LINE_FEED))


def shown_line(text: str) -> str:
    """A comment, cut where it is long."""
    return text if len(text) <= 300 else text[:298] + ".."


def repeat(origin: Origin) -> Markup:
    """The command, the inputs and the versions."""
    rows = [(shown(name), f"{size:,}", element("code", digest)) for name, size, digest in origin.inputs]
    return join(
        [
            element("pre", shown(origin.command, 2000)),
            table("What was read", ("name", "bytes", "SHA-256"), rows, "inputs"),
            element("ul", *(element("li", text) for text in origin.versions)),
        ]
    )
