"""The lines of slots: how they are spelled, and how those that the library wrote or has read are read here."""

from __future__ import annotations

import gc
import math
import re
from contextlib import contextmanager
from fractions import Fraction
from itertools import repeat
from typing import Any, Dict, Iterable, Iterator, List, NamedTuple, Optional, Sequence, Tuple

from yds import _fractions
from yds._forms import Form, are_names, read
from yds._spelling import lines_of, read_fraction
from yds.rows import Exact, Slot


class Columns(NamedTuple):
    """Rows of slots by columns: names, and exact numbers."""

    jobs: Sequence[str] = ()
    starts: Sequence[Exact] = ()
    ends: Sequence[Exact] = ()
    works: Sequence[Exact] = ()

    @classmethod
    def of(cls, form: Form, rows: Iterable[Any]) -> Columns:
        """The rows' columns. Where all is exact already, kinds are looked at, and no value by itself."""
        found = _exact(rows) if isinstance(rows, (list, tuple)) else None
        return cls(*zip(*read(form, rows))) if found is None else found

    def in_order(self, order: Sequence[int]) -> Columns:
        """The rows at these places."""
        jobs, *numbers = self
        return Columns([jobs[place] for place in order], *([column[place] for place in order] for column in numbers))


def _exact(rows: Sequence[Any]) -> Optional[Columns]:
    """The columns, if each row is a tuple of a name and three numbers that are ints or Fractions."""
    if not set(map(type, rows)) <= {tuple, Slot} or set(map(len, rows)) != {4}:
        return None
    found = Columns(*zip(*rows))
    kinds = {*map(type, found.starts), *map(type, found.ends), *map(type, found.works)}
    return found if kinds <= {int, Fraction} and are_names(set(found.jobs)) else None


class Spelled(NamedTuple):
    """The lines of slots, and whether each ends after its start and begins where the one before ends, or later."""

    lines: bytes
    in_turn: bool


def spelled(columns: Columns) -> Spelled:
    """The slots, each with its ends over one denominator, and the works of each job over one denominator."""
    if not columns.jobs:
        return Spelled(b"", True)
    starts, ends, in_turn = _ends(columns.starts, columns.ends)
    rows = map(" ".join, zip(columns.jobs, starts, ends, _works(columns.jobs, columns.works)))
    return Spelled(("slot " + "\nslot ".join(rows) + "\n").encode("ascii"), in_turn)


def _ends(starts: Sequence[Exact], ends: Sequence[Exact]) -> Tuple[List[str], List[str], bool]:
    """The words of both, over one denominator where neither is whole, and whether the slots are in turn.

    Most slots begin where the one before ends, and that is spelled once.
    """
    firsts, lasts, in_turn = [], [], True
    before: Optional[Exact] = None
    end, grain, word = -1, 0, ""
    for first, last in zip(starts, ends):
        if first is before:
            start, other = end, grain
        else:
            start, other = first.as_integer_ratio()
            if start != end or other != grain:
                in_turn = in_turn and start * grain >= end * other
                word = f"{start // other}+{start % other}/{other}" if other != 1 else f"{start}"
        end, grain = last.as_integer_ratio()
        final = f"{end // grain}+{end % grain}/{grain}" if grain != 1 else f"{end}"
        if start * grain >= end * other:
            in_turn = False
        if grain == other or grain == 1 or other == 1:
            firsts.append(word)
            lasts.append(final)
        else:
            whole = math.lcm(grain, other)
            firsts.append(fraction(start * (whole // other), whole))
            lasts.append(fraction(end * (whole // grain), whole))
        before, word = last, final
    return firsts, lasts, in_turn


def _works(jobs: Sequence[str], works: Sequence[Exact]) -> List[str]:
    """The words of the works, those of a job over one denominator."""
    ratios = [work.as_integer_ratio() for work in works]
    grains: Dict[str, int] = {}
    for job, (_, grain) in zip(jobs, ratios):
        before = grains.setdefault(job, grain)
        if before != grain:
            grains[job] = math.lcm(before, grain)
    words = []
    for job, (work, grain) in zip(jobs, ratios):
        if grain != 1:
            whole = grains[job]
            if whole != grain:
                work *= whole // grain
            words.append(f"{work // whole}+{work % whole}/{whole}")
        else:
            words.append(f"{work}")
    return words


def fraction(parts: int, whole: int) -> str:
    """The spelling of so many parts of a whole: W, or W+N/D."""
    above, rest = divmod(parts, whole)
    return f"{above}+{rest}/{whole}" if rest else str(above)


_SLOT = re.compile(r"^[ \t\r]*slot" + 4 * r"[ \t\r]+([!-~]+)", re.MULTILINE)


class Own(Tuple[Slot, ...]):
    """The slots of an answer, in the order of their times, and the lines in which they stand there."""

    lines: Optional[bytes] = None

    def __reduce__(self) -> Tuple[Any, ...]:
        """What is pickled and copied: the slots alone."""
        return tuple, (tuple(self),)


def own_slots(text: bytes) -> Tuple[Slot, ...]:
    """The slots of an answer. Its lines stand together, but in a stored text with comments between them, or blanks."""
    lines = _own_lines(text)
    count = lines.count(b"\nslot ") + lines.startswith(b"slot ")
    if lines.count(b"\n") != count or (text.count(b"slot") != count and len(_slot_rows(text)) != count):
        return read_slots(text)
    found: List[Slot] = []
    with _without_collector():
        for piece in _pieces(lines):
            words = piece.decode("latin-1").split()
            found += _slots(words[1::5], words[2::5], words[3::5], words[4::5])
        slots = Own(found)
    slots.lines = lines
    return slots


def _own_lines(text: bytes) -> bytes:
    """From the first line of a slot to the last."""
    start = 0 if text.startswith(b"slot ") else text.find(b"\nslot ") + 1
    if not start and not text.startswith(b"slot "):
        return b""
    return text[start : text.find(b"\n", text.rfind(b"\nslot ") + 1) + 1]


def _pieces(lines: bytes, size: int = 1 << 14) -> Iterator[bytes]:
    """So many bytes of whole lines at a time: what is made of them is used again before it leaves the cache."""
    start = 0
    while start < len(lines):
        end = lines.find(b"\n", start + size) + 1 or len(lines)
        yield lines[start:end]
        start = end


def _slot_rows(text: bytes) -> List[Tuple[str, str, str, str]]:
    """The fields of each slot's line."""
    return _SLOT.findall(text.decode("latin-1"))


def read_slots(text: bytes) -> Tuple[Slot, ...]:
    """The slots and runs of a text."""
    if b"run" not in text and b"ticks" not in text:
        with _without_collector():
            columns = [list(column) for column in zip(*_slot_rows(text))] or [[], [], [], []]
            return tuple(_slots(*columns))
    slots: List[Slot] = []
    ticks = 1
    for kind, *rest in lines_of(text, b"slot", b"ticks", b"run"):
        if kind == b"slot":
            job, start, end, work = rest
            slots.append(Slot(job.decode("ascii"), *map(read_fraction, (start, end, work))))
        elif kind == b"ticks":
            ticks = int(rest[0])
        else:
            slots.append(_run(rest, ticks))
    return tuple(slots)


@contextmanager
def _without_collector() -> Iterator[None]:
    """Python's collector of cycles looks at all that is made, again and again, and Fractions make no cycle."""
    if not gc.isenabled():
        yield
        return
    gc.disable()
    try:
        yield
    finally:
        gc.enable()


def _slots(jobs: List[str], starts: List[str], ends: List[str], works: List[str]) -> Iterator[Slot]:
    """The slots of these words. Most begin where the one before ends, and that is read once."""
    read = _fractions.read
    ended = read(ends)
    began = read(starts[:1]) + ended[:-1]
    if starts[1:] != ends[:-1]:
        others = [place for place in range(1, len(ends)) if starts[place] != ends[place - 1]]
        for place, start in zip(others, read([starts[place] for place in others])):
            began[place] = start
    return map(tuple.__new__, repeat(Slot), zip(jobs, began, ended, read(works)))


def _run(rest: Sequence[bytes], ticks: int) -> Slot:
    """The slot of a run: its ticks as times, and its speed times its time as work."""
    start, end, speed = (int(word) for word in rest[1:])
    work = Fraction(speed * max(end - start, 0), ticks)
    return Slot(rest[0].decode("ascii"), Fraction(start, ticks), Fraction(end, ticks), work)
