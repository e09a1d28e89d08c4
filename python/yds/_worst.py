"""The worst misses of a page: where their time went, and whether the top speed would have met them."""

from __future__ import annotations

from fractions import Fraction
from math import inf
from typing import Callable, List, Optional, Sequence, Tuple

from yds._at_top import NO, OTHERWISE, YES, AtTop, Refusal
from yds._facts import Facts, Worst
from yds._markup import Markup, Scale, element, join, of_bytes, shown, table
from yds._sections import beside_others, lateness, share
from yds._text import counted
from yds._waited import Shares, Waited
from yds.jobs import Number

MOST_SHARES = 8
_NEVER = {"run first": "never run", "ended": "not ended"}


def heading(one: Worst, scale: Scale) -> Markup:
    """The job, and by how much it was late."""
    return element("h3", shown(one.missed.miss.job, 64), lateness(one.missed, scale))


def when(one: Worst, scale: Scale) -> Markup:
    """Release, deadline and end, on the trace's clock where it is known."""
    row = one.missed.row
    parts = [join([name, " at ", scale.moment(time)]) for name, time in _times(one) if time != inf]
    parts += [Markup(_NEVER[name]) for name, time in _times(one) if time == inf]
    unit = scale.moment_unit
    if row.deadline is None:
        parts.append(Markup("when it was due isn't known"))
    return element("p", join(parts, ", "), f" ({unit}).")


def _times(one: Worst) -> List[Tuple[str, Optional[Number]]]:
    row = one.missed.row
    named = [("Released", row.release), ("due", row.deadline), ("run first", row.begin), ("ended", row.end)]
    return [(name, time) for name, time in named if time is not None]


def where(went: Waited, scale: Scale) -> Markup:
    """The table of where its time went."""
    rows: List[Sequence[object]] = []

    def add(what: object, time: Fraction) -> None:
        rows.append((what, scale.time(time), share(time, went.length)))

    add("ran", went.running)
    for speed, time in sorted(went.ran, key=lambda pair: -pair[1])[:MOST_SHARES]:
        add(_part(join(["at ", scale.with_speed(speed)])), time)
    _add_shares(add, "waited for listed tasks", went.listed)
    _add_shares(add, "waited for others", went.others)
    add("nobody is told to have run", went.untold)
    head = ("from release to end", f"time ({scale.time_unit})", "share")
    return join([table("Where its time went", head, rows), _first_run(went, scale)])


def _part(what: object) -> Markup:
    """The name of a row that is a part of one above."""
    return element("span", what, class_="part")


def _add_shares(add: Callable[[object, Fraction], None], what: str, shares: Shares) -> None:
    """A row for all, and one for each name."""
    add(what, sum((time for _, time in shares), Fraction(0)))
    for name, time in shares[:MOST_SHARES]:
        add(_part(shown(of_bytes(name), 64)), time)
    rest = shares[MOST_SHARES:]
    if rest:
        add(_part(counted(len(rest), "more", "more")), sum((time for _, time in rest), Fraction(0)))


def _first_run(went: Waited, scale: Scale) -> Markup:
    if went.first_run is None:
        return element("p", "It never ran.")
    told = [
        element("p", "From wake-up to first run: ", scale.length(went.first_run), ", which is part of these waits.")
    ]
    if went.untold:
        text = (
            "For the time in which nobody is told to have run, the document doesn't say who had the processor, or that it "
            "was idle."
        )
        told.append(element("p", text, class_="told"))
    return join(told)


def _refused(one: AtTop, refusal: Refusal, scale: Scale) -> Markup:
    """That even the top speed throughout can't meet it, and in which time there is too much work."""
    return element(
        "p",
        element("b", "Top speed throughout: no. "),
        "Jobs that are due by then have the work ",
        refusal.work,
        " within ",
        scale.length(refusal.end - refusal.start),
        ", from ",
        scale.moment(refusal.start),
        " to ",
        scale.moment(refusal.end),
        ", and ",
        scale.with_speed(one.top),
        f" does {one.top * (refusal.end - refusal.start)} there, whatever the order (",
        element("code", "yds_cli admit"),
        ").",
    )


def top_told(one: AtTop, due: int, scale: Scale) -> Markup:
    """Whether the top speed throughout would have met it."""
    top = scale.with_speed(one.top)
    when_at_top: List[object] = []
    if one.end is not None:
        late = one.end - due
        ends = scale.length(abs(late))
        side = "before" if late <= 0 else "after"
        when_at_top = [
            "In the same order, with the same waits for others, it would have ended ",
            ends,
            f" {side} its deadline",
        ]
    if one.verdict == YES:
        return element(
            "p",
            element("b", "Top speed throughout: it would have been met. "),
            *when_at_top,
            " at ",
            top,
            " or earlier.",
        )
    if one.verdict == NO and one.refusal is not None:
        return _refused(one, one.refusal, scale)
    if one.verdict == OTHERWISE:
        return element(
            "p",
            element("b", "Top speed throughout: not with these waits. "),
            *when_at_top,
            " at ",
            top,
            ". Without the waits for others, and in another order, the listed jobs that are due by then can be served (",
            element("code", "yds_cli admit"),
            ").",
        )
    why = "its work isn't" if one.end is None else "the jobs that are due by then are more than a document holds"
    told = f"Whether the top speed throughout would have met it isn't known: {why}."
    return element("p", *when_at_top, ". " if when_at_top else "", told, class_="told")


def worst(facts: Facts, one: Worst, picture: Markup) -> Markup:
    """One of the worst misses."""
    scale = facts.scale
    parts: List[object] = [heading(one, scale), when(one, scale), picture]
    if one.went is not None:
        parts += [where(one.went, scale), *beside_others(facts)]
    else:
        parts.append(
            element(
                "p",
                "Its runs aren't in the document, so where its time went can't be told: ",
                of_bytes(one.missed.miss.text),
            )
        )
    if one.at_top is not None:
        parts.append(top_told(one.at_top, facts.given.due(one.missed.miss.job), scale))
    return element("article", *parts)
