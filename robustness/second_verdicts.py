"""second_verdicts.py: the verdicts of `audit` and the judgements of `check`, by the definitions, for second_answers.py.

It follows Audit, AuditAnswer, Judgement and Proper of crates/yds_model/specs: the first cause that holds, slot by slot and
then job by job; and the first of the conditions K1 to K7 that fails, with its first place. It shares no code with the
crates nor with python/yds.
"""

from collections import Counter
from fractions import Fraction
from typing import Iterator, Optional

from second_documents import Document, Level, Piece, Point, Slot, over


def speed_of(slot: Slot) -> Fraction:
    """The speed of a slot that takes time."""
    return slot.work.value / (slot.end.value - slot.begin.value)


def slot_fault(document: Document, table: Optional[list[Point]], place: int) -> Optional[str]:
    """The first cause for which a slot doesn't stand; None where it does."""
    slot = document.slots[place]
    job, before = document.jobs[slot.job], document.slots[place - 1] if place else None
    begin, end, named = slot.begin.text(), slot.end.text(), f"slot {place + 1} {document.name(slot.job)}"
    if slot.end.value <= slot.begin.value:
        return f"backward {named} {begin} {end}"
    if before is not None and slot.begin.value < before.end.value:
        return f"overlap {named} {begin} previous {before.end.text()}"
    if slot.begin.value < job.release:
        return f"early {named} {begin} release {job.release}"
    if slot.end.value > job.deadline:
        return f"late {named} {end} deadline {job.deadline}"
    if table is not None and speed_of(slot) not in [point.speed for point in table]:
        return f"off-point {named} {begin} {end} {slot.work.text()}"
    return None


def work_fault(document: Document, number: int) -> Optional[str]:
    """What is told where a job doesn't get just its work: the sum in the job's grain. None where it does."""
    works = [slot.work for slot in document.slots if slot.job == number]
    given, wanted = sum((work.value for work in works), Fraction(0)), document.jobs[number].work
    if given == wanted:
        return None
    grain = max((work.den for work in works), default=1)
    return f"work {document.name(number)} given {over(given, grain).text()} wanted {wanted}"


def verdict(document: Document, table: Optional[list[Point]]) -> Optional[str]:
    """The first cause for which the slots aren't feasible, or aren't on the table; None where they are."""
    faults = (slot_fault(document, table, place) for place in range(len(document.slots)))
    works = (work_fault(document, number) for number in range(len(document.jobs)))
    return next((fault for each in (faults, works) for fault in each if fault), None)


# # The conditions of a certificate


def pieces_stand(levels: list[Level], place: int) -> bool:
    """Whether a level has pieces, in order, which overlap no earlier level's (K2)."""
    pieces = levels[place].pieces
    earlier = [piece for level in levels[:place] for piece in level.pieces]
    in_order = all(piece.begin < piece.end for piece in pieces) and all(one.end <= next_.begin for one, next_ in zip(pieces, pieces[1:]))
    return bool(pieces) and in_order and all(one.end <= other.begin or other.end <= one.begin for one in pieces for other in earlier)


def sums_agree(document: Document, level: Level) -> bool:
    """Whether a level's work and length are those of its members and pieces (K4)."""
    work = sum(document.jobs[number].work for number in level.members)
    return level.work == work and level.length == sum(piece.end - piece.begin for piece in level.pieces)


def is_covered(begin: int, end: int, pieces: list[Piece]) -> bool:
    """Whether pieces have all of the time between two times."""
    for piece in sorted(pieces):
        if piece.begin <= begin < piece.end:
            begin = piece.end
    return begin >= end


def window_covered(document: Document, number: int) -> bool:
    """Whether the pieces of its own and of earlier levels cover a job's window (K6)."""
    job, pieces = document.jobs[number], list[Piece]()
    for level in document.levels:
        pieces += level.pieces
        if number in level.members and not is_covered(job.release, job.deadline, pieces):
            return False
    return True


def judgement(document: Document) -> Optional[str]:
    """The first condition that fails, with its place; None where the certificate is proper."""
    return next(failures(document), None)


def failures(document: Document) -> Iterator[str]:
    """The conditions that fail, in the order in which they are tried."""
    jobs, levels = document.jobs, document.levels
    cause = verdict(document, None)
    if cause:
        yield f"K1 {cause}"
    yield from (f"K2 level {place + 1}" for place in range(len(levels)) if not pieces_stand(levels, place))
    counts = Counter(number for level in levels for number in level.members)
    yield from (f"K3 job {document.name(number)}" for number, job in enumerate(jobs) if counts[number] > 1 or (job.work and not counts[number]))
    yield from (f"K4 level {place}" for place, level in enumerate(levels, 1) if not sums_agree(document, level))
    pairs = enumerate(zip(levels, levels[1:]), 2)
    yield from (f"K5 level {place}" for place, (one, later) in pairs if later.speed > one.speed)
    yield from (f"K6 job {document.name(number)}" for number in range(len(jobs)) if not window_covered(document, number))
    for place, slot in enumerate(document.slots, 1):
        if any(slot.job in level.members and speed_of(slot) != level.speed for level in levels):
            yield f"K7 slot {place}"
