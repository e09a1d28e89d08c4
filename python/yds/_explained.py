"""What check found where it says K2 to K7, and what it expected."""

from __future__ import annotations

from fractions import Fraction
from typing import Dict, Iterable, List, Optional, Sequence, Tuple

from yds._text import Fault, Job, Line, Rows, Slot

_CONDITIONS = ("K1", "K2", "K3", "K4", "K5", "K6", "K7", "accepted", "refused")
_SIZES = {"level": 3, "piece": 3, "member": 2}


class _Level:
    """A level, with its pieces and members."""

    def __init__(self, work: int, length: int) -> None:
        self.work, self.length = work, length
        self.pieces: List[Tuple[int, int]] = []
        self.members: List[str] = []

    @property
    def speed(self) -> Fraction:
        return Fraction(self.work, self.length)


class Judged:
    """A document with slots and levels, and what check says of it."""

    def __init__(self) -> None:
        self._jobs: Dict[str, Job] = {}
        self._slots: List[Slot] = []
        self._levels: List[_Level] = []
        self._verdict: Optional[List[str]] = None

    def read(self, lines: Iterable[Line]) -> None:
        """Reads the document, and after it the answer of check."""
        rows = Rows()
        for line in lines:
            fields = line.fields
            if fields and fields[0] in _CONDITIONS:
                self._verdict = fields
                continue
            row = rows.row(line)
            if isinstance(row, Job):
                self._jobs[row.name] = row
            elif isinstance(row, Slot):
                self._slots.append(row)
            elif row is not None and fields[0] in _SIZES:
                self._take(line, fields)
        rows.end()

    def _take(self, line: Line, fields: Sequence[str]) -> None:
        kind = fields[0]
        if len(fields) != _SIZES[kind]:
            raise line.fault(f"a {kind} of {len(fields) - 1} fields", min(len(fields), _SIZES[kind]))
        numbers = (
            [] if kind == "member" else [int(field) for field in fields[1:] if field.isdigit() and len(field) <= 30]
        )
        if kind != "member" and len(numbers) != 2:
            raise line.fault(f"a {kind} needs two whole numbers", 1)
        if kind == "level":
            if not numbers[1]:
                raise line.fault("a level has a length above 0", 2)
            self._levels.append(_Level(*numbers))
        elif not self._levels:
            raise line.fault(f"a {kind} before any level", 0)
        elif kind == "piece":
            self._levels[-1].pieces.append((numbers[0], numbers[1]))
        else:
            self._levels[-1].members.append(fields[1])

    def told(self) -> List[str]:
        """The lines that explain the verdict."""
        if self._verdict is None:
            raise Fault("no answer of check; give the document, and after it the answer")
        condition = self._verdict[0]
        if condition in ("K1", "accepted", "refused"):
            return [" ".join(self._verdict)]
        if not self._levels or not self._slots:
            raise Fault("no level or no slot; give the document that was judged, and after it the answer")
        if len(self._verdict) != 3:
            raise Fault(f"{' '.join(self._verdict)} is no answer of check")
        if condition in ("K3", "K6"):
            return (
                self._member_lines(self._job(self._verdict[2])) if condition == "K3" else self._cover(self._verdict[2])
            )
        number = self._number(self._verdict[2], len(self._slots) if condition == "K7" else len(self._levels))
        explain = {"K2": self._pieces, "K4": self._sums, "K5": self._order, "K7": self._speed}
        return explain[condition](number)

    def _job(self, name: str) -> Job:
        if name not in self._jobs:
            raise Fault(f"no job {name}: the answer isn't to this document")
        return self._jobs[name]

    def _number(self, text: str, most: int) -> int:
        if not text.isdigit() or not 1 <= int(text) <= most:
            raise Fault(f"there is no {text} in the document: the answer isn't to it")
        return int(text)

    def _of_level(self, number: int) -> str:
        level = self._levels[number - 1]
        return f"level {number} has the work {level.work} and the length {level.length}"

    def _level_of(self, name: str) -> int:
        """The number of the first level that has the job as a member."""
        found = [number for number, level in enumerate(self._levels, 1) if name in level.members]
        if not found:
            raise Fault(f"{name} is in no level: the answer isn't to this document")
        return found[0]

    def _pieces(self, number: int) -> List[str]:
        level = self._levels[number - 1]
        told: List[str] = []
        last: Optional[Tuple[int, int]] = None
        for start, end in level.pieces:
            piece = f"the piece {start} {end} of level {number}"
            if end <= start:
                told.append(f"{piece} ends before it has begun")
            elif last is not None and start < last[1]:
                told.append(f"{piece} begins before the piece {last[0]} {last[1]} above it has ended")
            for before, other in enumerate(self._levels[: number - 1], 1):
                over = [one for one in other.pieces if start < one[1] and one[0] < end]
                told += [f"{piece} overlaps the piece {one[0]} {one[1]} of level {before}" for one in over]
            last = start, end
        return told if level.pieces else [f"level {number} has no piece; expected at least one"]

    def _member_lines(self, job: Job) -> List[str]:
        times = sum(level.members.count(job.name) for level in self._levels)
        expected = "one" if job.work else "none or one"
        return [f"the job {job.name} needs {job.work}: found in {times} member lines, expected in {expected}"]

    def _sums(self, number: int) -> List[str]:
        level = self._levels[number - 1]
        works = sum(self._jobs[name].work for name in level.members if name in self._jobs)
        lengths = sum(end - start for start, end in level.pieces)
        members = "".join(f" {name}" for name in level.members)
        return [
            f"work: the level's line says {level.work}, and its members{members} need {works} together",
            f"length: the level's line says {level.length}, and its pieces are {lengths} long together",
        ]

    def _order(self, number: int) -> List[str]:
        if number < 2:
            raise Fault("the first level has none before it: the answer isn't to this document")
        level, before = self._levels[number - 1], self._levels[number - 2]
        return [
            f"{self._of_level(number)}: found the speed {digits(level.speed)}",
            f"{self._of_level(number - 1)}: expected at most the speed {digits(before.speed)}",
        ]

    def _cover(self, name: str) -> List[str]:
        """The first time of a job's window that no piece of its own and earlier levels covers, and where that ends."""
        job, number = self._job(name), self._level_of(name)
        pieces = [piece for level in self._levels[:number] for piece in level.pieces]
        now = job.release
        while now < job.deadline:
            further = max((end for start, end in pieces if start <= now < end), default=now)
            if further == now:
                break
            now = further
        until = min([job.deadline, *(start for start, _ in pieces if start > now)])
        return [
            f"the window of {name} is {job.release} to {job.deadline}, and its level is {number}",
            f"no piece of the levels 1 to {number} has the time from {now} to {until}",
        ]

    def _speed(self, number: int) -> List[str]:
        slot = self._slots[number - 1]
        level_number = self._level_of(slot.job)
        found, expected = digits(slot.speed), digits(self._levels[level_number - 1].speed)
        same = ", which isn't the same in exact fractions" if found == expected else ""
        return [
            f"{' '.join(slot.line.fields)}: found the speed {found}",
            f"{self._of_level(level_number)}: expected the speed {expected}{same}",
        ]


def digits(value: Fraction) -> str:
    """The number as a decimal of 15 digits."""
    return f"{float(value):.15g}"
