"""The answers to the parts as one answer."""

from __future__ import annotations

from fractions import Fraction
from typing import Iterator, NamedTuple, Optional, Sequence, Tuple

from yds._answers import Answers
from yds._heads import PartsError, Text
from yds._lacking import of_parts
from yds._missed_of_parts import MissedOfParts
from yds._sides import Sides
from yds._texts import Tables, Texts
from yds._verdicts import Verdict, judgement


class Whole(NamedTuple):
    """The answer to the whole."""

    yes: bool
    """Whether no part says no, none is too slow, and no deadline is missed."""
    lines: Iterator[bytes]
    """Its lines."""
    told: Tuple[str, ...]
    """The answers of no, each with its part."""
    is_open: bool = False
    """Whether deadlines are met as far as the trace shows, which isn't a yes to all jobs."""


def put_together(parts: Sequence[Text], answers: Sequence[Text], grid: Optional[int]) -> Whole:
    """The answer to the whole; grid is that of compare, if it is known.

    PartsError is raised where some part has none, or where they can't be put together.
    """
    given = Answers(parts, answers)
    given.classify()
    if given.family == "no-table":
        return _no(given, [b"refused no-table\n"])
    if given.too_slow:
        return _no(given, _too_slow(given))
    if given.family == "audit":
        line = Verdict(given).line
        beside = [text.encode("latin-1") for text in of_parts(parts).whole().beside_verdict()]
        return Whole(line == b"feasible", iter([text + b"\n" for text in [*beside, line]]), tuple(given.told))
    if given.family == "misses":
        missed = MissedOfParts(given)
        lines = iter([line + b"\n" for line in missed.lines()])
        return Whole(not missed.misses, lines, tuple(given.told), missed.is_open)
    if given.family == "energies":
        sides = Sides(given, grid)
        return Whole(not sides.missed, sides.lines(), tuple(given.told))
    if given.open_cuts:
        raise PartsError(
            f"windows are open at {given.open_cuts} of {len(given.parts) - 1} cuts, and so answers of this kind don't "
            "make one of the whole; those of audit and compare do, and yds.parts.bounds tells between which energies "
            "the least lies"
        )
    if given.family == "report":
        return Whole(True, Tables(given).lines(), tuple(given.told))
    if given.family == "text":
        return Whole(True, Texts(given).lines(), tuple(given.told))
    line = judgement(given)
    return Whole(line == b"accepted", iter([line + b"\n"]), tuple(given.told))


def _no(given: Answers, lines: Sequence[bytes]) -> Whole:
    return Whole(False, iter(lines), tuple(given.told))


def _too_slow(given: Answers) -> Sequence[bytes]:
    """The parts' fastest stretches. Where no window is open at the cuts, they are the first level of the whole."""
    if given.family not in ("", "text", "energies"):
        raise PartsError("the answers are of more than one kind: some tell that the top point is too slow")
    fastest = max(Fraction(one.work, one.length) for one in given.too_slow)
    same = [one for one in given.too_slow if Fraction(one.work, one.length) == fastest]
    line = b"too-slow work %d length %d top %d\n"
    if not given.open_cuts:
        return [line % (sum(one.work for one in same), sum(one.length for one in same), same[-1].top)]
    comment = b"# that is of part %d by itself; windows are open at %d cuts, and the whole may need a higher speed\n"
    return [line % same[0][1:], comment % (same[0].part + 1, given.open_cuts)]
