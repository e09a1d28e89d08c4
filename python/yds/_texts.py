"""The texts of plan, round, avr and oa, and the tables of report, of parts between which no window is open."""

from __future__ import annotations

import heapq
import re
from fractions import Fraction
from itertools import groupby
from typing import BinaryIO, Dict, Iterator, List, NamedTuple, Tuple

from yds._answers import Answers, printable
from yds._heads import lines_of, opened
from yds._spelled import lowest, moved
from yds._spelling import read_fraction

_RANKS = {
    b"job": (1, 5),
    b"point": (2, 3),
    b"slot": (3, 5),
    b"level": (4, 3),
    b"piece": (4, 3),
    b"member": (4, 2),
    b"grid": (5, 3),
    b"energy": (6, 2),
}
"""Of each kind of line its place in the order of kinds, and its number of fields."""
_FIRST_NUMBER = {b"job": 2, b"point": 1, b"level": 1, b"piece": 1, b"grid": 1}
"""Of each kind of line the first of its fields that are whole numbers."""
OPEN_FILES = 200
"""With more parts than this, each text is opened anew for each of its levels."""


_FRACTION = rb"[0-9]+(\+[0-9]+/[1-9][0-9]*)?"
_SLOT = re.compile(rb"slot \S+ %b %b %b\n" % ((_FRACTION,) * 3)).fullmatch
_ENERGY = re.compile(rb"energy %b\n" % _FRACTION).fullmatch


class Totals:
    """What the answer to a part has in all, by which it is seen to be whole."""

    def __init__(self) -> None:
        self.before = self.jobs = self.work = self.latest = self.workers = 0
        self.members = self.level_work = self.lengths = self.pieces = 0
        self.first = 0
        self.points: List[bytes] = []
        self.grid: List[bytes] = []
        self.energy: List[bytes] = []

    def take(self, line: bytes) -> bool:
        """Counts a line in; False where it is none of such an answer in this place."""
        fields = line.split()
        kind = fields[0] if fields else b""
        rank, wanted = _RANKS.get(kind, (0, 0))
        if len(fields) != wanted or not self._stands(kind, rank):
            return False
        self.before = rank
        if not all(map(bytes.isdigit, fields[_FIRST_NUMBER.get(kind, wanted) :])):
            return False
        if kind == b"job":
            self.first = self.first if self.jobs else int(fields[2])
            self.jobs += 1
            self.work += int(fields[4])
            self.latest = max(self.latest, int(fields[3]))
            self.workers += fields[4] != b"0"
        elif kind == b"point":
            self.points.append(line)
        elif kind == b"level":
            self.level_work += int(fields[1])
            self.lengths += int(fields[2])
        elif kind == b"piece":
            self.pieces += int(fields[2]) - int(fields[1])
        elif kind == b"member":
            self.members += 1
        elif kind == b"grid":
            self.grid = fields[1:]
        elif kind == b"energy":
            self.energy = fields[1:]
        return True

    def _stands(self, kind: bytes, rank: int) -> bool:
        if kind in (b"piece", b"member"):
            return self.before == 4
        if kind in (b"grid", b"energy"):
            return self.before <= 3
        return 0 < rank and self.before <= rank

    @property
    def form(self) -> str:
        """Which of the three forms of text it is."""
        return "run" if self.grid else "rounding" if self.energy else "plan"

    def has_levels(self) -> bool:
        """Whether the levels are those of all jobs."""
        return (self.level_work, self.members, self.pieces) == (self.work, self.workers, self.lengths)


def _is_row(row: List[bytes]) -> bool:
    """Whether these are number, work, length and speed of a level."""
    if len(row) != 4 or not all(field.isdigit() for field in row[:3]) or not int(row[2]):
        return False
    return row[3] == lowest(Fraction(int(row[1]), int(row[2])))


def _takes(totals: Totals, line: bytes) -> bool:
    """Whether the line is one of such an answer in this place. Then it is counted in."""
    if line.startswith(b"slot ") and not _SLOT(line):
        return False
    if line.startswith(b"energy ") and not _ENERGY(line):
        return False
    return totals.take(line)


class Texts:
    """The texts of all parts as one."""

    def __init__(self, answers: Answers) -> None:
        self._answers = answers
        self._rounded = 0
        self._energy = Fraction(0)
        self._first = Totals()
        for place in range(len(answers.parts)):
            self._read(place)
        answers.stop_at_faults()

    def _read(self, place: int) -> None:
        answers = self._answers
        head = answers.heads[place]
        totals = Totals()
        jobs = (line.split() for line in lines_of(answers.parts[place]) if line.startswith(b"job "))
        for line in lines_of(answers.answers[place]):
            if line.startswith(b"job ") and line.split() != next(jobs, None):
                return answers.refuse(place, f"the jobs aren't those of {answers.part_name(place)}")
            if not _takes(totals, line):
                return answers.refuse(place, f'"{printable(line)}" is no line of plan, round, avr or oa in this place')
        if totals.first + head.shift != head.start:
            return answers.refuse(place, f"the first release isn't that of {answers.part_name(place)}")
        if (totals.jobs, totals.latest + head.shift) != (head.jobs, head.end):
            return answers.refuse(place, f"the jobs aren't those of {answers.part_name(place)}")
        if totals.form == "plan" and not totals.has_levels():
            text = f"isn't whole: the levels have {totals.level_work} of the jobs' work of {totals.work}"
            return answers.refuse(place, text)
        self._first = totals if place == 0 else self._first
        if (totals.form, totals.grid[:1]) != (self._first.form, self._first.grid[:1]):
            return answers.refuse(place, "another kind of answer than that to part 1")
        if totals.points != self._first.points:
            return answers.refuse(place, "other points than those of part 1")
        self._rounded += int(totals.grid[1]) if totals.grid else 0
        self._energy += read_fraction(totals.energy[0]) if totals.energy else 0

    def lines(self) -> Iterator[bytes]:
        """The lines of the whole."""
        yield from self._lines_of(b"job ")
        yield from self._first.points
        yield from self._lines_of(b"slot ")
        yield from merged_levels(self._answers)
        if self._first.form == "run":
            yield b"grid %b %d\n" % (self._first.grid[0], self._rounded)
        if self._first.form == "rounding":
            answers = self._answers
            idle = answers.end - answers.start - answers.horizons
            yield b"energy %b\n" % lowest(self._energy + idle * int(self._first.points[0].split()[2]))

    def _lines_of(self, kind: bytes) -> Iterator[bytes]:
        """The lines of this kind, jobs or slots, with the times of the whole."""
        for answer, head in zip(self._answers.answers, self._answers.heads):
            for line in lines_of(answer):
                if line.startswith(kind):
                    yield _moved_line(line, head.shift) if head.shift else line
                elif kind == b"job ":
                    break


def _moved_line(line: bytes, by: int) -> bytes:
    kind, name, start, end, work = line.split()
    return b"%b %b %b %b %b\n" % (kind, name, moved(start, by), moved(end, by), work)


class LevelAt(NamedTuple):
    """A level of a part's plan, and where its lines stand in the text."""

    work: int
    length: int
    place: int
    pieces: int
    members: int
    end: int


class _Levels:
    """The levels of one part's plan, at falling speeds."""

    def __init__(self, answers: Answers, place: int, keep: bool) -> None:
        self._text = answers.answers[place]
        self._keep = keep
        self._source: List[BinaryIO] = []
        self.place = place
        self.shift = answers.heads[place].shift

    def read(self, start: int, end: int) -> bytes:
        """These bytes of the text."""
        source = self._source.pop() if self._source else opened(self._text)
        source.seek(start)
        found = source.read(end - start)
        if self._keep:
            self._source.append(source)
        else:
            source.close()
        return found

    def close(self) -> None:
        """Closes the text."""
        for source in self._source:
            source.close()

    def __iter__(self) -> Iterator[LevelAt]:
        at = 0
        level: List[int] = []
        pieces = members = 0
        for line in lines_of(self._text):
            kind = line[:6]
            if kind == b"level ":
                if level:
                    yield LevelAt(level[0], level[1], self.place, pieces, members or at, at)
                level = [int(field) for field in line.split()[1:]]
                pieces, members = at + len(line), 0
            elif kind == b"member" and level and not members:
                members = at
            at += len(line)
        if level:
            yield LevelAt(level[0], level[1], self.place, pieces, members or at, at)


def merged_levels(answers: Answers) -> Iterator[bytes]:
    """The levels of all parts at falling speeds; those of one speed are one. Pieces that touch are one."""
    count = len(answers.parts)
    levels = [_Levels(answers, place, count <= OPEN_FILES) for place in range(count)]
    held = list(_in_turn(levels)) if count > OPEN_FILES else None
    streams = heapq.merge(*levels, key=_falling) if held is None else iter(sorted(held, key=_falling))
    for _, group in groupby(streams, lambda level: Fraction(level.work, level.length)):
        same = list(group)
        yield b"level %d %d\n" % (sum(level.work for level in same), sum(level.length for level in same))
        yield from _pieces((levels[level.place], level) for level in same)
        for level in same:
            yield levels[level.place].read(level.members, level.end)
    for one in levels:
        one.close()


def _in_turn(levels: List[_Levels]) -> Iterator[LevelAt]:
    for one in levels:
        yield from one


def _falling(level: LevelAt) -> Tuple[Fraction, int]:
    return Fraction(-level.work, level.length), level.place


def _pieces(found: Iterator[Tuple[_Levels, LevelAt]]) -> Iterator[bytes]:
    start = end = -1
    for levels, level in found:
        for line in levels.read(level.pieces, level.members).splitlines():
            _, first, last = line.split()
            if int(first) + levels.shift == end:
                end = int(last) + levels.shift
                continue
            if end >= 0:
                yield b"piece %d %d\n" % (start, end)
            start, end = int(first) + levels.shift, int(last) + levels.shift
    if end >= 0:
        yield b"piece %d %d\n" % (start, end)


class Tables:
    """The tables of report as one."""

    def __init__(self, answers: Answers) -> None:
        self._answers = answers
        self._work = self._lengths = 0
        self._rows: Dict[Fraction, List[int]] = {}
        for place in range(len(answers.parts)):
            self._read(place)
        answers.stop_at_faults()

    def _read(self, place: int) -> None:
        answers = self._answers
        head = answers.heads[place]
        lines = [line.split() for line in lines_of(answers.answers[place])]
        first = [int(field) for field in lines[0][1::2]]
        if [first[0], first[2] + head.shift, first[3] + head.shift] != [head.jobs, head.start, head.end]:
            return answers.refuse(place, f"isn't the report of {answers.part_name(place)}")
        work = lengths = 0
        for row in lines[1:-1]:
            if not _is_row(row):
                return answers.refuse(place, f'"{printable(b" ".join(row))}" is no line of a report in this place')
            found = self._rows.setdefault(Fraction(int(row[1]), int(row[2])), [0, 0])
            found[0] += int(row[1])
            found[1] += int(row[2])
            work += int(row[1])
            lengths += int(row[2])
        idle = lines[-1]
        rest = head.end - head.start - lengths
        if work != first[1] or idle != [b"idle", b"%d" % rest]:
            return answers.refuse(place, "isn't whole: levels or the idle time are missing")
        self._work += work
        self._lengths += lengths

    def lines(self) -> Iterator[bytes]:
        """The lines of the whole."""
        answers = self._answers
        yield b"jobs %d work %d from %d to %d\n" % (answers.heads[-1].final, self._work, answers.start, answers.end)
        for number, (speed, (work, length)) in enumerate(sorted(self._rows.items(), reverse=True), 1):
            yield b"%5d %10d %10d %b\n" % (number, work, length, lowest(speed))
        yield b"idle %d\n" % (answers.end - answers.start - self._lengths)
