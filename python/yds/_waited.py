"""Where the time of a job went, from its release to its end: it ran, or waited, and for whom."""

from __future__ import annotations

from fractions import Fraction
from typing import Dict, Iterable, Iterator, List, NamedTuple, Optional, Sequence, Tuple

from yds._gathered import Gathered, Span
from yds._timeline import task_of

Shares = List[Tuple[str, Fraction]]
"""Names with units of time, the longest first."""


class Waited(NamedTuple):
    """Where the time from a job's release to its end went, in units of time. The parts make the whole."""

    start: Fraction
    end: Fraction
    ran: List[Tuple[Fraction, Fraction]]
    """Speed and time, at rising speeds."""
    listed: Shares
    """The tasks of the document's other jobs that ran meanwhile."""
    others: Shares
    """Threads that aren't listed, by the comments `# other`."""
    untold: Fraction
    """For the rest nothing in the document tells who ran, or that nobody did."""
    first_run: Optional[Fraction]
    """How long it waited from its release to its first run; None where it never ran."""
    own_work: Fraction
    listed_work: Fraction
    """Units of work that it did, and that the listed ones did meanwhile."""

    @property
    def length(self) -> Fraction:
        """From release to end."""
        return self.end - self.start

    @property
    def running(self) -> Fraction:
        """How long it ran."""
        return sum((time for _, time in self.ran), Fraction(0))

    def end_at(self, top: int) -> Fraction:
        """When it would have ended with each listed job at this speed: in the same order, with the same other waits.

        It ends then or earlier. A job that would run before its release makes way for this one, and what was left to
        do at the release was less.
        """
        rest = self.length - self.running - sum((time for _, time in self.listed), Fraction(0))
        return self.start + rest + (self.own_work + self.listed_work) / top


def waited(given: Gathered, job: str, end: Fraction, begin: Optional[Fraction] = None) -> Waited:
    """Where the time of this job went, which ended at this time, or was last seen then.

    begin is when it began, where that isn't the begin of its first slot.
    """
    start = Fraction(given.jobs[job].release)
    spans = given.slots.within(start, end)
    own = [span for span in spans if span.name == job]
    listed = [span for span in spans if span.name != job]
    others = _between(start, end, spans, given.others.within(start, end))
    speeds: Dict[Fraction, Fraction] = {}
    for span in own:
        speeds[span.speed] = speeds.get(span.speed, Fraction(0)) + span.length
    told = sum((span.length for span in [*spans, *others]), Fraction(0))
    first = min([span.start for span in own] + ([] if begin is None else [begin]), default=None)
    return Waited(
        start,
        end,
        sorted(speeds.items()),
        _shares((task_of(span.name), span.length) for span in listed),
        _shares((span.name, span.length) for span in others),
        end - start - told,
        None if first is None else first - start,
        sum((span.work for span in own), Fraction(0)),
        sum((span.work for span in listed), Fraction(0)),
    )


def _between(start: Fraction, end: Fraction, listed: Sequence[Span], others: Sequence[Span]) -> List[Span]:
    """What of the others lies in time that no listed span has, and no other before it."""
    found: List[Span] = []
    now, place = start, 0
    for first, last in _gaps(start, end, listed):
        while place < len(others) and others[place].start < last:
            span = others[place]
            begin, close = max(first, span.start, now), min(last, span.end)
            if begin < close:
                found.append(Span(begin, close, span.name, Fraction(0)))
                now = close
            if span.end > last:
                break
            place += 1
    return found


def _gaps(start: Fraction, end: Fraction, spans: Sequence[Span]) -> Iterator[Tuple[Fraction, Fraction]]:
    """The times from start to end that no span has."""
    now = start
    for span in spans:
        if now < span.start:
            yield now, span.start
        now = max(now, span.end)
    if now < end:
        yield now, end


def _shares(parts: Iterable[Tuple[str, Fraction]]) -> Shares:
    sums: Dict[str, Fraction] = {}
    for name, length in parts:
        sums[name] = sums.get(name, Fraction(0)) + length
    return sorted(sums.items(), key=lambda share: (-share[1], share[0]))
