"""Between which energies the least of a long document lies, where windows are open at its cuts.

Below: the jobs are put into groups, each job with its whole window, and what each group spends at least is added, with
idle time over the horizon of all jobs in place of theirs. Nothing is asked of the powers for that. Above: the windows
over a cut are shortened to one side of it, so the groups' plans make a schedule of all jobs.
"""

from __future__ import annotations

import re
from fractions import Fraction
from math import ceil, floor
from typing import Dict, Iterable, Iterator, List, NamedTuple, Optional, Sequence, Set, Tuple

from yds._answers import printable
from yds._heads import MOST_JOBS, MOST_TIME, PartsError, Text, lines_of, read_head
from yds._program import Answer
from yds._spelled import lowest
from yds._spelling import read_fraction

_ENERGY = re.compile(rb"[0-9]{1,60}(\+[0-9]{1,60}/[1-9][0-9]{0,59})?").fullmatch
PLACES = 16
"""At most so many cuts are tried at the end of a group."""
AROUND = 40
"""How near two bounds come at a cut is looked at on so many jobs on either side of it."""


class Job(NamedTuple):
    """A job of the long document, and its window between the cuts that were made."""

    release: int
    deadline: int
    work: int
    begin: int
    """Its release, or the cut before which its window isn't used."""


class Cut(NamedTuple):
    """A cut of a group at this time: the jobs before it and those behind it."""

    time: int
    before: List[Job]
    behind: List[Job]


class Spent(NamedTuple):
    """What a side spends on the whole."""

    side: bytes
    energy: Fraction


def read_spent(text: Text) -> List[Spent]:
    """The sides whose energy the lines tell, as yds-whole writes them of yds-energy. PartsError where there is none."""
    rows = [line.split() for line in lines_of(text)]
    found = [Spent(row[0], _energy(row[2])) for row in rows if len(row) == 3 and row[1] == b"energy" and row[0] != b"#"]
    if not found:
        raise PartsError("no line SIDE energy E, as yds-whole writes of the answers of yds-energy")
    return found


def _energy(text: bytes) -> Fraction:
    if _ENERGY(text) is None:
        raise PartsError(f"{printable(text)} is no energy W or W+N/D")
    return read_fraction(text)


class Bounds(NamedTuple):
    """The least energy of a long document on its points is at least the lower bound and at most the upper."""

    lower: Optional[Fraction]
    """None where the top point is too slow."""
    upper: Optional[Fraction]
    """None where none was found."""
    told: Tuple[str, ...]
    """Why there is none, and what was done."""

    def lines(self) -> Iterator[bytes]:
        """What a command writes."""
        if self.lower is not None:
            yield b"plan at-least %b\n" % lowest(self.lower)
        if self.upper is not None:
            yield b"plan at-most %b\n" % lowest(self.upper)
        for text in self.told:
            yield b"# %b\n" % text.encode("ascii", "replace")

    def waste(self, spent: Spent) -> bytes:
        """The line that says how much more a side spends than the least, in 100, rounded away from what is between.

        >>> Bounds(Fraction(80), Fraction(90), ()).waste(Spent(b"governor", Fraction(100)))
        b'governor waste 11.11 25.00\\n'
        """
        if not self.lower or not self.upper:
            why = b"an upper bound" if self.lower else b"a lower bound above 0"
            return b"# %b: what it wastes isn't known, without %b\n" % (spent.side, why)
        if spent.energy < self.lower:
            less = "spends less than the least energy of these jobs; it has other jobs, or doesn't do all of their work"
            raise PartsError(f"{printable(spent.side)} {less}")
        least = max((spent.energy / self.upper - 1) * 10000, Fraction(0))
        most = (spent.energy / self.lower - 1) * 10000
        return b"%b waste %b %b\n" % (spent.side, _in_hundred(floor(least)), _in_hundred(ceil(most)))


class _TooSlow(Exception):
    """The top point is too slow for a group."""


class Search:
    """Goes through the jobs of all parts once, a group at a time."""

    def __init__(self, parts: Sequence[Text], answer: Answer, jobs: int) -> None:
        self._answer = answer
        self._most = jobs
        self._points = [line for line in lines_of(parts[0]) if line.startswith(b"point ")]
        self._hull = _hull([(int(line.split()[1]), int(line.split()[2])) for line in self._points])
        self._jobs = _jobs_of(parts)
        self._idle_power = int(self._points[0].split()[2]) if self._points else 0
        self._lower = self._upper = Fraction(0)
        self._start: Optional[int] = None
        self._end = 0
        self._open_cuts = self._cuts = 0
        self._too_slow = ""

    def bounds(self) -> Bounds:
        """Both bounds."""
        if not self._points:
            raise PartsError("the parts have no points, and an energy needs them")
        try:
            self._go_through()
        except _TooSlow as fault:
            return Bounds(None, None, (f"the top point is too slow: {fault}",))
        assert self._start is not None
        idle = (self._end - self._start) * self._idle_power
        told = f"{self._cuts + 1} groups of at most {self._most} jobs; "
        told += f"windows are open at {self._open_cuts} of {self._cuts} cuts"
        if self._too_slow:
            return Bounds(self._lower + idle, None, (self._too_slow, told))
        return Bounds(self._lower + idle, self._upper + idle, (told,))

    def _go_through(self) -> None:
        held: List[Job] = []
        following = next(self._jobs, None)
        while held or following is not None:
            latest = max((job.deadline for job in held), default=0)
            while following is not None and len(held) < self._most + AROUND:
                latest = max(latest, following.deadline)
                if held and latest - held[0].release > MOST_TIME:
                    break
                held.append(following)
                self._start = following.release if self._start is None else min(self._start, following.release)
                self._end = max(self._end, following.deadline)
                following = next(self._jobs, None)
            held.sort(key=lambda job: (job.begin, job.release))
            if following is None and len(held) <= self._most:
                self._add(held)
                return
            most = min(self._most, len(held))
            until = held[most].release if following is None or most < len(held) else following.release
            held = self._cut(held, most, until)

    def _cut(self, held: List[Job], most: int, until: int) -> List[Job]:
        """Adds a group of at most so many jobs, which is cut by then, and gives the jobs behind the cut."""
        self._cuts += 1
        place = _closed_place(held, most, until)
        if place:
            self._add(held[:place])
            return held[place:]
        self._open_cuts += 1
        if not self._too_slow:
            for cut in self._nearest(held, most, until):
                upper = self._least([(job.begin, min(job.deadline, cut.time), job.work) for job in cut.before])
                if upper is not None:
                    self._upper += upper
                    self._add_lower(cut.before)
                    return cut.behind
            self._too_slow = (
                "there is no upper bound: with the windows over a cut shortened to one side of it, the top point is too "
                f"slow for the jobs from {held[0].begin} to {until}, at each cut that was tried"
            )
        self._add_lower(held[:most])
        return held[most:]

    def _add(self, group: List[Job]) -> None:
        """A group behind which nothing is cut."""
        self._add_lower(group)
        if self._too_slow:
            return
        upper = self._least([(job.begin, job.deadline, job.work) for job in group])
        if upper is not None:
            self._upper += upper
            return
        end = max(job.deadline for job in group)
        self._too_slow = (
            "there is no upper bound: with windows shortened at the cut before, the top point is too slow for the jobs "
            f"from {group[0].begin} to {end}"
        )

    def _add_lower(self, group: List[Job]) -> None:
        lower = self._least([(job.release, job.deadline, job.work) for job in group])
        if lower is None:
            start, end = min(job.release for job in group), max(job.deadline for job in group)
            raise _TooSlow(f"no schedule meets the deadlines of the jobs from {start} to {end}, even of these alone")
        self._lower += lower

    def _least(self, windows: Sequence[Tuple[int, int, int]]) -> Optional[Fraction]:
        """What these jobs spend at least above idle time over their horizon; None where the top point is too slow."""
        start, end = min(window[0] for window in windows), max(window[1] for window in windows)
        text = _spelled_jobs(windows, start) + b"".join(self._points)
        status, told = self._answer(["round"], text)
        if status == 1 and told.startswith(b"too-slow"):
            return None
        last = told.rstrip(b"\n").rsplit(b"\n", 1)[-1]
        if status != 0 or not last.startswith(b"energy "):
            raise PartsError(f"no answer for the jobs from {start} to {end}: {_shown(told)}")
        return read_fraction(last.split()[1]) - (end - start) * self._idle_power

    def _plan(self, windows: Sequence[Tuple[int, int, int]]) -> Iterator[Tuple[int, float, float, float]]:
        """The slots of these jobs' plan: job, begin, end and work. They choose a cut, and no number is told of them."""
        start = min(window[0] for window in windows)
        status, told = self._answer(["plan"], _spelled_jobs(windows, start))
        if status != 0:
            raise PartsError(f"no plan for the jobs from {start} on: {_shown(told)}")
        for line in told.split(b"\n"):
            if line.startswith(b"slot "):
                _, name, begin, end, work = line.split()
                yield int(name[1:]), _rounded(begin) + start, _rounded(end) + start, _rounded(work)

    # --- Cuts.

    def _nearest(self, held: List[Job], most: int, until: int) -> Iterator[Cut]:
        """The cuts that are tried, that at which both bounds come nearest first.

        A job whose window is open at a cut goes to the side that has more of its work in the plan of the jobs around.
        Where that is too slow at each place, all such jobs go before the cut, or all behind it.
        """
        tail = max(most // 10, min(PLACES, most - 1), 1)
        known = max(most - tail - 4 * AROUND, 0)
        slots = [
            (job + known, begin, end, work)
            for job, begin, end, work in self._plan([(job.begin, job.deadline, job.work) for job in held[known:]])
        ]
        times = _places(slots, held[most - tail].begin, until)
        for lean in (0, 1, -1):
            cuts = [_cut_at(held, slots, time, lean) for time in times]
            cuts = [cut for cut in cuts if 0 < len(cut.before) <= most]
            apart = enumerate(self._apart(cuts))
            for _, number in sorted((far, number) for number, far in apart if far is not None):
                yield cuts[number]

    def _apart(self, cuts: Sequence[Cut]) -> Iterator[Optional[float]]:
        """How far apart both bounds are at each cut, on the jobs around it; None where the top point is too slow."""
        texts: List[Tuple[int, List[Tuple[int, int, int]]]] = []
        for number, cut in enumerate(cuts):
            before, behind = cut.before[-AROUND:], cut.behind[:AROUND]
            short = [(job.begin, min(job.deadline, cut.time), job.work) for job in before]
            short += [(max(job.begin, cut.time), job.deadline, job.work) for job in behind]
            texts.append((number, short))
            for side in filter(None, (before, behind)):
                texts.append((number, [(job.begin, job.deadline, job.work) for job in side]))
        spent = self._spent([windows for _, windows in texts])
        apart: List[Optional[float]] = [0.0] * len(cuts)
        seen = set()
        for (number, _), energy in zip(texts, spent):
            total = apart[number]
            if energy is None or total is None:
                apart[number] = None
            else:
                apart[number] = total - energy if number in seen else total + energy
            seen.add(number)
        return iter(apart)

    def _spent(self, texts: Sequence[List[Tuple[int, int, int]]]) -> List[Optional[float]]:
        """What each of these sets of jobs spends above idle time, about; they are planned one after another."""
        spent: List[Optional[float]] = [0.0] * len(texts)
        for batch in _batches(texts, MOST_JOBS):
            windows: List[Tuple[int, int, int]] = []
            owner: List[int] = []
            at = 0
            for number in batch:
                on = at - min(window[0] for window in texts[number])
                windows += [(release + on, deadline + on, work) for release, deadline, work in texts[number]]
                owner += [number] * len(texts[number])
                at = max(window[1] for window in windows[-len(texts[number]) :])
            for job, begin, end, work in self._plan(windows):
                power = self._power(work / (end - begin))
                total = spent[owner[job]]
                if power is None or total is None:
                    spent[owner[job]] = None
                else:
                    spent[owner[job]] = total + (end - begin) * (power - self._idle_power)
        return spent

    def _power(self, speed: float) -> Optional[float]:
        """The power of the lower hull at this speed; None above the top point."""
        for (slow, low), (fast, high) in zip(self._hull, self._hull[1:]):
            if speed <= fast * (1 + 1e-9):
                return low + (high - low) * (speed - slow) / (fast - slow)
        return None


def _jobs_of(parts: Sequence[Text]) -> Iterator[Job]:
    """The jobs of all parts, in the times of the whole."""
    processors: Set[Optional[int]] = set()
    for number, part in enumerate(parts, 1):
        shift: Optional[int] = None
        for line in lines_of(part):
            if shift is None:
                head = read_head(line)
                processors.add(None if head is None else head.cpu)
                if len(processors) > 1:
                    raise PartsError(f"part {number} is of another processor; give those of one (yds-whole --cpu N)")
                if head is None or head.number != number:
                    raise PartsError(f"part {number} has no head line of its number")
                shift = head.shift
            elif line.startswith(b"job "):
                _, _, release, deadline, work = line.split()
                yield Job(int(release) + shift, int(deadline) + shift, int(work), int(release) + shift)


def _closed_place(held: List[Job], most: int, until: int) -> int:
    """The last of so many places in the list before which no window is open; 0 where there is none."""
    found = latest = 0
    for place in range(most + 1):
        if place and (held[place].release if place < most else until) >= latest:
            found = place
        if place < most:
            latest = max(latest, held[place].deadline)
    return found


def _places(slots: Iterable[Tuple[int, float, float, float]], start: int, end: int) -> List[int]:
    """At most 16 times behind the start and up to the end, first those that part no job's slots."""
    slots = list(slots)
    last_end: Dict[int, float] = {job: end for job, _, end, _ in slots}
    started: Set[int] = set()
    quiet: List[int] = []
    others = [end]
    for job, _, slot_end, _ in slots:
        if slot_end < last_end[job]:
            started.add(job)
        else:
            started.discard(job)
        time = int(slot_end + 0.5)
        if start < time <= end:
            (others if started else quiet).append(time)
    times = _spread(sorted(set(quiet)), PLACES)
    return times + _spread(sorted(set(others) - set(times)), PLACES - len(times))


def _cut_at(held: List[Job], slots: Iterable[Tuple[int, float, float, float]], time: int, lean: int) -> Cut:
    """The cut at this time. A job whose window is open there goes to the side that has more of its work in the plan,
    or before the cut where lean is 1, or behind it where lean is -1."""
    balance: Dict[int, float] = {}
    for number, begin, end, work in slots:
        if held[number].begin < time < held[number].deadline:
            share = work * (min(max((time - begin) / (end - begin), 0.0), 1.0) - 0.5)
            balance[number] = balance.get(number, 0.0) + share
    before: List[Job] = []
    behind: List[Job] = []
    for place, job in enumerate(held):
        if job.begin < time and (job.deadline <= time or (lean or balance.get(place, 0.0)) >= 0):
            before.append(job)
        else:
            behind.append(job._replace(begin=max(job.begin, time)))
    return Cut(time, before, behind)


def _spread(times: List[int], most: int) -> List[int]:
    """At most so many of them, evenly."""
    if len(times) <= most:
        return times
    return [times[(number * (len(times) - 1)) // max(most - 1, 1)] for number in range(most)]


def _batches(texts: Sequence[List[Tuple[int, int, int]]], most: int) -> Iterator[List[int]]:
    """The numbers of the texts, in lists that are within a document's limits together."""
    batch: List[int] = []
    size = length = 0
    for number, windows in enumerate(texts):
        own = max(window[1] for window in windows) - min(window[0] for window in windows)
        if batch and (size + len(windows) > most or length + own > MOST_TIME):
            yield batch
            batch, size, length = [], 0, 0
        batch.append(number)
        size += len(windows)
        length += own
    if batch:
        yield batch


def _spelled_jobs(windows: Iterable[Tuple[int, int, int]], start: int) -> bytes:
    return b"".join(
        b"job j%d %d %d %d\n" % (number, release - start, deadline - start, work)
        for number, (release, deadline, work) in enumerate(windows)
    )


def _in_hundred(hundredths: int) -> bytes:
    return b"%d.%02d" % divmod(hundredths, 100)


def _shown(answer: bytes) -> str:
    """The begin of an answer that can't be taken."""
    return printable(answer.split(b"\n")[0]) or "nothing"


def _rounded(text: bytes) -> float:
    """The number, as near as a float comes."""
    whole, _, rest = text.partition(b"+")
    if not rest:
        return float(int(whole))
    parts, _, denominator = rest.partition(b"/")
    return int(whole) + int(parts) / int(denominator)


def _hull(points: Sequence[Tuple[int, int]]) -> List[Tuple[int, int]]:
    """The lower hull of the points."""
    hull: List[Tuple[int, int]] = []
    for point in points:
        while len(hull) > 1 and _is_above(hull[-2], hull[-1], point):
            hull.pop()
        hull.append(point)
    return hull


def _is_above(left: Tuple[int, int], middle: Tuple[int, int], right: Tuple[int, int]) -> bool:
    return (middle[1] - left[1]) * (right[0] - left[0]) >= (right[1] - left[1]) * (middle[0] - left[0])
