"""The lines of compare and yds-energy for the parts, added up.

Where no window is open at the cuts, what the plan and the policies' runs spend adds up, with idle time over the horizon
of all jobs. Where windows are open, what a given schedule spends still does; of the plan and of Average Rate only a
lower bound is known then.
"""

from __future__ import annotations

import re
from fractions import Fraction
from typing import Dict, Iterator, List, Optional, Tuple

from yds._answers import SIDE, Answers, printable
from yds._heads import lines_of
from yds._lacking import lack_of, of_parts
from yds._rates import first_rounded
from yds._spelled import lowest, moved
from yds._spelling import read_fraction

_MISSES = re.compile(rb"# (\S+) misses ([0-9]+) deadlines?, the first (\S+)")
_ROUNDED = b"# rounded to thousandths"
RUNS = (b"avr", b"oa")
OWN = (b"plan", *RUNS)
"""The sides that are compare's own; others are schedules that were given."""


class Side:
    """What one side has in all parts together."""

    def __init__(self, name: bytes, points: int) -> None:
        self.name = name
        self.energy = Fraction(0)
        self.times = [Fraction(0)] * points
        self.rounded: Optional[int] = None
        self.slow: List[Tuple[int, bytes]] = []
        self.misses = 0
        self.first_miss = b""


class Sides:
    """The lines of all sides."""

    def __init__(self, answers: Answers, grid: Optional[int]) -> None:
        """grid is that of compare; None where it isn't known."""
        self._answers = answers
        self._grid = grid
        self._sides: Dict[bytes, Side] = {}
        self._comments: List[bytes] = []
        self._lacking = of_parts(answers.parts).whole()
        self._rounded_parts = 0
        points = [line.split() for line in lines_of(answers.parts[0]) if line.startswith(b"point ")]
        self._speeds = [point[1] for point in points]
        self._idle_power = int(points[0][2]) if points else 0
        self._extents: List[Tuple[Fraction, Fraction]] = []
        for place in range(len(answers.parts)):
            self._read(place)
        answers.stop_at_faults()
        for side in self._sides.values():
            if not side.slow:
                self._add_idle_time(side)
        answers.stop_at_faults()

    @property
    def missed(self) -> bool:
        """Whether a side missed a deadline."""
        return any(side.misses for side in self._sides.values())

    # --- Lines in.

    def _read(self, place: int) -> None:
        seen: Dict[bytes, List[bytes]] = {}
        for line in lines_of(self._answers.answers[place]):
            line = line.rstrip(b"\n")
            fields = line.split()
            if line.startswith(b"#"):
                self._take_comment(place, line)
            elif not SIDE.fullmatch(line) or not self._take(place, fields, line, seen):
                self._answers.refuse(place, f'"{printable(line)}" is no line of compare or yds-energy in this place')
                return
        for side in self._sides.values():
            if not self._is_whole(side, seen.get(side.name, [])):
                self._answers.refuse(place, f"isn't whole: lines of {printable(side.name)} are missing")

    def _take_comment(self, place: int, line: bytes) -> None:
        found = _MISSES.fullmatch(line)
        if lack_of(line.decode("latin-1")) is not None:
            return
        if line == _ROUNDED:
            self._rounded_parts += 1
        elif found is not None and found.group(1) in self._sides:
            side = self._sides[found.group(1)]
            self._answers.tell(place, printable(line[2:]))
            side.first_miss = side.first_miss or found.group(3)
            side.misses += int(found.group(2))
        else:
            self._comments.append(b"# part %d: %b\n" % (place + 1, line[2:]))

    def _take(self, place: int, fields: List[bytes], line: bytes, seen: Dict[bytes, List[bytes]]) -> bool:
        name, kind = fields[:2]
        if name not in self._sides:
            if place:
                return False
            self._sides[name] = Side(name, len(self._speeds))
        side = self._sides[name]
        kinds = seen.setdefault(name, [])
        number = kinds.count(kind)
        kinds.append(kind)
        if kind == b"time" and len(fields) == 4:
            if number >= len(self._speeds) or fields[2] != self._speeds[number]:
                return False
            side.times[number] += read_fraction(fields[3])
            return True
        if number:
            return False
        if kind == b"energy" and len(fields) == 3:
            side.energy += read_fraction(fields[2])
        elif kind == b"rounded" and len(fields) == 3:
            side.rounded = (side.rounded or 0) + int(fields[2])
        elif kind == b"too-slow" and len(fields) == 10:
            self._answers.tell(place, printable(line))
            shift = self._answers.heads[place].shift
            fields[5], fields[7] = moved(fields[5], shift), moved(fields[7], shift)
            side.slow.append((place, b" ".join(fields)))
        else:
            return False
        return True

    def _is_whole(self, side: Side, kinds: List[bytes]) -> bool:
        if (side.rounded is not None) != (b"rounded" in kinds):
            return False
        if b"too-slow" in kinds:
            return b"energy" not in kinds
        return b"energy" in kinds and kinds.count(b"time") == len(self._speeds)

    # --- Idle time.

    def _add_idle_time(self, side: Side) -> None:
        """Between the parts nothing runs, which costs the power of the first point.

        A side of yds-energy counts from the first release or slot of its part to the last deadline or slot's end. Where
        these reach into another part, the time that both count is taken away.
        """
        answers = self._answers
        time = sum(side.times, Fraction(0))
        own, horizon = Fraction(answers.horizons), Fraction(answers.end - answers.start)
        if time != own:
            extents = self._read_extents()
            own = sum((end - start for start, end in extents), Fraction(0))
            horizon = max(end for _, end in extents) - min(start for start, _ in extents)
            if time != own and not self._near_enough(time, own):
                text = f"the times of {printable(side.name)} in all parts aren't those of the parts' jobs and slots"
                return answers.refuse(0, text)
        exact = not (answers.open_cuts and side.name in OWN)
        if exact and side.times[0] + horizon - own < 0:
            return answers.refuse(0, f"the slots of {printable(side.name)} overlap those of another part")
        side.times[0] += horizon - own
        side.energy += (horizon - own) * self._idle_power

    def _near_enough(self, time: Fraction, own: Fraction) -> bool:
        """Times that yds-energy has rounded add up to the parts' time within half a thousandth each."""
        return self._rounded_parts > 0 and abs(time - own) * 2000 <= self._rounded_parts * len(self._speeds)

    def _read_extents(self) -> List[Tuple[Fraction, Fraction]]:
        """From the first release or slot's begin to the last deadline or slot's end of each part."""
        if not self._extents:
            self._extents = [self._extent(place) for place in range(len(self._answers.parts))]
        return self._extents

    def _extent(self, place: int) -> Tuple[Fraction, Fraction]:
        head = self._answers.heads[place]
        start, end = Fraction(head.start), Fraction(head.end)
        ticks = 1
        for line in lines_of(self._answers.parts[place]):
            fields = line.split()
            if fields and fields[0] == b"ticks":
                ticks = int(fields[1])
            elif fields and fields[0] in (b"slot", b"run"):
                scale = ticks if fields[0] == b"run" else 1
                start = min(start, read_fraction(fields[2]) / scale + head.shift)
                end = max(end, read_fraction(fields[3]) / scale + head.shift)
        return start, end

    # --- Lines out.

    def lines(self) -> Iterator[bytes]:
        """The lines of the whole."""
        for side in self._sides.values():
            is_open = self._answers.open_cuts and side.name in OWN
            yield from self._open_lines(side) if is_open else self._side_lines(side)
        for side in self._sides.values():
            if side.misses:
                plural = b"" if side.misses == 1 else b"s"
                yield b"# %b misses %d deadline%b, the first %b\n" % (side.name, side.misses, plural, side.first_miss)
        if self._rounded_parts:
            parts = len(self._answers.parts)
            yield _ROUNDED + (b", in %d of %d parts\n" % (self._rounded_parts, parts) if parts > 1 else b"\n")
        yield from self._comments
        for text in self._lacking.beside_energy():
            yield text.encode("latin-1") + b"\n"

    def _side_lines(self, side: Side) -> Iterator[bytes]:
        if side.slow:
            yield side.slow[0][1] + b"\n"
        else:
            yield b"%b energy %b\n" % (side.name, lowest(side.energy))
            for speed, time in zip(self._speeds, side.times):
                yield b"%b time %b %b\n" % (side.name, speed, lowest(time))
        if side.rounded is not None:
            yield b"%b rounded %d\n" % (side.name, side.rounded)

    def _open_lines(self, side: Side) -> Iterator[bytes]:
        """A side of compare where windows are open: a lower bound, or the words that there is none."""
        cuts = self._answers.open_cuts
        where = b"windows are open at %d of %d cuts" % (cuts, len(self._answers.parts) - 1)
        if side.name == b"oa":
            yield b"# oa: no bound of its energy, since %b\n" % where
        elif side.slow:
            place, line = side.slow[0]
            yield b"# %b: too slow, in part %d by itself: %b\n" % (side.name, place + 1, line)
        elif side.name == b"avr" and self._rounds(side):
            yield b"# avr: no bound of its energy, since %b and %b\n" % (where, self._rounds(side))
        else:
            yield b"%b at-least %b\n" % (side.name, lowest(side.energy))
            yield b"# %b: its energy is at least that, and may be above, since %b\n" % (side.name, where)

    def _rounds(self, side: Side) -> bytes:
        """Why it isn't known that the run of all jobs rounds nowhere; nothing where it doesn't."""
        if side.rounded:
            return b"the runs of the parts rounded up %d times; take a finer grid" % side.rounded
        if self._grid is None:
            return b"only with compare's grid, as --grid G, can be told whether the run of all jobs rounds up"
        found = first_rounded(self._answers.parts, self._grid)
        if found is None:
            return b""
        return b"the run of all jobs would round up, first for job %b at %d; take a finer grid" % found
