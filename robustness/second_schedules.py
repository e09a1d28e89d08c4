"""second_schedules.py: plans, policies, admission and rounded plans by the definitions, for second_answers.py.

A plan is made by the textbook's stages, with fractions: of the jobs that are left, the interval of the greatest intensity
runs at that intensity, and its time is taken away. What runs when is told by one rule for all schedules: each stretch
between neighbouring event points has a speed, and the pending job runs there that is due first. It shares no code with
the crates nor with python/yds.
"""

from fractions import Fraction
from math import ceil, gcd, lcm
from typing import Callable, Iterator, NamedTuple, Optional

from second_documents import Job, Level, Piece, Point, Slot, hull_of, over

# # Event points, and earliest deadline first


def stretches_of(jobs: list[Job]) -> list[Piece]:
    """The stretches between neighbouring event points."""
    times = sorted({time for job in jobs for time in (job.release, job.deadline)})
    return [Piece(begin, end) for begin, end in zip(times, times[1:])]


class Served(NamedTuple):
    """A job runs from one time to another, and gets so much work: the values, in a stretch."""

    stretch: Piece
    job: int
    begin: Fraction
    end: Fraction
    work: Fraction


class Run:
    """A schedule that is made stretch by stretch."""

    def __init__(self, jobs: list[Job]) -> None:
        self.jobs = jobs
        self.left = [Fraction(job.work) for job in jobs]
        self.served: list[Served] = []

    def pending(self, time: int) -> list[int]:
        """The jobs that are released by a time and not done, the one that is due first in front."""
        found = [number for number, job in enumerate(self.jobs) if job.release <= time and self.left[number]]
        return sorted(found, key=lambda number: (self.jobs[number].deadline, number))

    def serve(self, stretch: Piece, work: Fraction) -> None:
        """Does so much work in a stretch, which it fills at one speed."""
        speed, time = work / (stretch.end - stretch.begin), Fraction(stretch.begin)
        for number in self.pending(stretch.begin):
            part = min(work, self.left[number])
            if part:
                self.served.append(Served(stretch, number, time, time + part / speed, part))
                time, work = time + part / speed, work - part
                self.left[number] -= part


# # The plan


def free_within(free: list[Piece], begin: int, end: int) -> list[Piece]:
    """What of the free time lies between two times."""
    cut = [Piece(max(begin, piece.begin), min(end, piece.end)) for piece in free]
    return [piece for piece in cut if piece.begin < piece.end]


def length_of(pieces: list[Piece]) -> int:
    """How long pieces are together."""
    return sum(piece.end - piece.begin for piece in pieces)


def without(free: list[Piece], taken: list[Piece]) -> list[Piece]:
    """The free time without some pieces of it."""
    for piece in taken:
        free = [part for one in free for part in (Piece(one.begin, min(one.end, piece.begin)), Piece(max(one.begin, piece.end), one.end))
                if part.begin < part.end]
    return free


class Stage(NamedTuple):
    """A critical interval: its jobs, and the time in which they run."""

    members: list[int]
    pieces: list[Piece]


def critical_of(windows: list[Piece], works: list[int]) -> Piece:
    """Of windows in contracted time, an interval of the greatest intensity from a begin to an end: work by length."""
    by_end = sorted((window.end, window.begin, work) for window, work in zip(windows, works))
    found, most, length = windows[0], 0, 1
    for begin in {window.begin for window in windows}:
        inside = 0
        for end, released, work in by_end:
            if released >= begin:
                inside += work
                if inside * length > most * (end - begin):
                    found, most, length = Piece(begin, end), inside, end - begin
    return found


def stages_of(jobs: list[Job]) -> Iterator[Stage]:
    """The stages of the textbook: the critical interval of the jobs that are left, in time without the earlier ones."""
    waiting = [number for number, job in enumerate(jobs) if job.work]
    free = [Piece(0, max((job.deadline for job in jobs), default=0))]
    while waiting:
        before = {time: length_of(free_within(free, 0, time)) for number in waiting for time in jobs[number][:2]}
        windows = [Piece(before[jobs[number].release], before[jobs[number].deadline]) for number in waiting]
        found = critical_of(windows, [jobs[number].work for number in waiting])
        members = [number for number, window in zip(waiting, windows) if found.begin <= window.begin and window.end <= found.end]
        begin, end = min(jobs[number].release for number in members), max(jobs[number].deadline for number in members)
        pieces = free_within(free, begin, end)
        yield Stage(members, pieces)
        free = without(free, pieces)
        waiting = [number for number in waiting if number not in members]


def joined(pieces: list[Piece]) -> list[Piece]:
    """The pieces in order, those that touch as one."""
    found: list[Piece] = []
    for piece in sorted(pieces):
        if found and found[-1].end == piece.begin:
            piece = Piece(found.pop().begin, piece.end)
        found.append(piece)
    return found


def levels_of(jobs: list[Job]) -> list[Level]:
    """The levels of the plan: stages of one speed are one level."""
    levels: list[Level] = []
    for stage in stages_of(jobs):
        work, length = sum(jobs[number].work for number in stage.members), length_of(stage.pieces)
        level = Level(work, length, stage.pieces, stage.members)
        if levels and levels[-1].speed == level.speed:
            last = levels.pop()
            level = Level(last.work + work, last.length + length, last.pieces + level.pieces, last.members + level.members)
        levels.append(level)
    return [Level(level.work, level.length, joined(level.pieces), sorted(level.members)) for level in levels]


class Plan(NamedTuple):
    """A plan: its levels, and what is served in each stretch at the speed of one of them."""

    jobs: list[Job]
    levels: list[Level]
    served: list[Served]

    def level_of(self, job: int) -> Level:
        """The level of which a job is a member."""
        return next(level for level in self.levels if job in level.members)

    def slots(self) -> list[Slot]:
        """Its slots: ends over the numerator of the level's speed, works over its denominator."""
        found: list[Slot] = []
        for one in self.served:
            speed = self.level_of(one.job).speed
            found.append(slot_of(one, speed.numerator, speed.denominator))
        return found


def slot_of(one: Served, ends: int, works: int) -> Slot:
    """What is served as a slot, with these denominators."""
    return Slot(one.job, over(one.begin, ends), over(one.end, ends), over(one.work, works))


def plan_of(jobs: list[Job]) -> Plan:
    """The plan of jobs."""
    levels = levels_of(jobs)
    run = Run(jobs)
    for stretch in stretches_of(jobs):
        speeds = [level.speed for level in levels if any(piece.begin <= stretch.begin < piece.end for piece in level.pieces)]
        if speeds:
            run.serve(stretch, speeds[0] * (stretch.end - stretch.begin))
    return Plan(jobs, levels, run.served)


# # The policies on a grid, and admission


class GridRun(NamedTuple):
    """A run that serves whole units of one part in `grid`: what is served, and at how many event points it rounded."""

    jobs: list[Job]
    grid: int
    served: list[Served]
    rounded: int

    def units_in(self, stretch: Piece) -> int:
        """How many units a stretch serves."""
        return int(self.grid * sum(one.work for one in self.served if one.stretch == stretch))

    def slots(self) -> list[Slot]:
        """Its slots: ends over the stretch's units without what they have in common with its length, works over the grid."""
        found: list[Slot] = []
        for one in self.served:
            units = self.units_in(one.stretch)
            found.append(slot_of(one, units // gcd(units, one.stretch.end - one.stretch.begin), self.grid))
        return found


class Wish(NamedTuple):
    """How many units a policy wants to serve in a stretch, and whether it rounded."""

    units: int
    rounded: bool


def grid_run(jobs: list[Job], grid: int, wish_of: Callable[[Run, Piece], Wish]) -> GridRun:
    """The run that serves in each stretch what is wished, but no more than what is pending."""
    run, rounded = Run(jobs), 0
    for stretch in stretches_of(jobs):
        wish = wish_of(run, stretch)
        rounded += wish.rounded
        pending = sum((run.left[number] for number in run.pending(stretch.begin)), Fraction(0))
        run.serve(stretch, min(Fraction(wish.units, grid), pending))
    return GridRun(jobs, grid, run.served, rounded)


def average_rate(jobs: list[Job], grid: int) -> GridRun:
    """The run of Average Rate: the sum of the parts of the jobs in whose windows the stretch is, each rounded up."""

    def wish_of(run: Run, stretch: Piece) -> Wish:
        """The units of a stretch."""
        parts = [Fraction(grid * job.work * (stretch.end - stretch.begin), job.deadline - job.release)
                 for job in run.jobs if job.release <= stretch.begin < job.deadline]
        return Wish(sum(map(ceil, parts)), any(part.denominator > 1 for part in parts))

    return grid_run(jobs, grid, wish_of)


def optimal_available(jobs: list[Job], grid: int) -> GridRun:
    """The run of Optimal Available: the greatest that a deadline asks of the stretch, rounded up."""

    def wish_of(run: Run, stretch: Piece) -> Wish:
        """The units of a stretch."""
        pending = run.pending(stretch.begin)
        asked = Fraction(0)
        for due in {run.jobs[number].deadline for number in pending}:
            work = sum(run.left[number] for number in pending if run.jobs[number].deadline <= due)
            asked = max(asked, grid * work * (stretch.end - stretch.begin) / Fraction(due - stretch.begin))
        return Wish(ceil(asked), asked.denominator > 1)

    return grid_run(jobs, grid, wish_of)


def at_top(jobs: list[Job], top: int) -> Optional[GridRun]:
    """The run at a top speed, or with all that is pending; None where a deadline is missed."""
    run = grid_run(jobs, 1, lambda _, stretch: Wish(top * (stretch.end - stretch.begin), False))
    done = [sum(one.work for one in run.served if one.job == number) for number in range(len(jobs))]
    return run if done == [job.work for job in jobs] and not any(one.end > jobs[one.job].deadline for one in run.served) else None


class Refusal(NamedTuple):
    """A job that isn't admitted, and the interval that shows it, with its work."""

    job: int
    begin: int
    end: int
    work: int


def overfull(jobs: list[Job], top: int) -> Iterator[tuple[int, int, int]]:
    """The intervals from a release to a deadline, by begin and then end, whose work exceeds what the top speed does."""
    for begin in sorted({job.release for job in jobs}):
        for end in sorted({job.deadline for job in jobs if job.deadline > begin}):
            work = sum(job.work for job in jobs if begin <= job.release and job.deadline <= end)
            if work > top * (end - begin):
                yield begin, end, work


def admission(jobs: list[Job], top: int) -> tuple[list[int], list[Refusal]]:
    """The numbers of the jobs that are admitted, and a refusal for each other job."""
    taken: list[int] = []
    refused: list[Refusal] = []
    for number in range(len(jobs)):
        competing = [jobs[each] for each in [*taken, number]]
        if at_top(competing, top) is not None:
            taken.append(number)
        else:
            refused.append(Refusal(number, *next(overfull(competing, top))))
    return taken, refused


# # The plan on points


class Rounded(NamedTuple):
    """The slots of a plan on points, and their energy."""

    slots: list[Slot]
    energy: Fraction


def neighbours(hull: list[Point], speed: Fraction) -> Optional[tuple[Point, Point]]:
    """The two points of a hull around a speed; None where it is a point's."""
    if any(point.speed == speed for point in hull):
        return None
    return next((low, high) for low, high in zip(hull, hull[1:]) if low.speed < speed < high.speed)


class Split(NamedTuple):
    """A stretch that runs at the faster point and then at the slower one."""

    stretch: Piece
    speed: Fraction
    low: Point
    high: Point

    @property
    def switch(self) -> Fraction:
        """When the slower point begins."""
        length = self.stretch.end - self.stretch.begin
        return self.stretch.begin + (self.speed - self.low.speed) * length / (self.high.speed - self.low.speed)

    def slots(self, planned: list[Served]) -> Iterator[Slot]:
        """What the plan does in the stretch, with the same works in the same order."""
        time = Fraction(self.stretch.begin)
        for one in planned:
            left = one.work
            for point, until in ((self.high, self.switch), (self.low, Fraction(self.stretch.end))):
                part = min(left, point.speed * max(Fraction(0), until - time))
                if part:
                    yield self.slot(point, one._replace(begin=time, end=time + part / point.speed, work=part))
                    time, left = time + part / point.speed, left - part

    def slot(self, point: Point, one: Served) -> Slot:
        """A slot at one of the two points, with its denominators."""
        gap = self.high.speed - self.low.speed
        return slot_of(one, self.speed.denominator * lcm(point.speed, gap), self.speed.denominator * gap)


def rounded(plan: Plan, points: list[Point]) -> Rounded:
    """The plan on the points."""
    slots: list[Slot] = []
    hull = hull_of(points)
    for stretch in stretches_of(plan.jobs):
        planned = [one for one in plan.served if one.stretch == stretch]
        speed = plan.level_of(planned[0].job).speed if planned else Fraction(0)
        around = neighbours(hull, speed)
        if around is None:
            slots += [slot_of(one, speed.numerator, speed.denominator) for one in planned]
        else:
            slots += Split(stretch, speed, *around).slots(planned)
    return Rounded(slots, energy_of(plan.jobs, points, slots))


def horizon(jobs: list[Job]) -> Piece:
    """From the first release to the last deadline; from 0 to 0 for no jobs."""
    return Piece(min((job.release for job in jobs), default=0), max((job.deadline for job in jobs), default=0))


def energy_of(jobs: list[Job], points: list[Point], slots: list[Slot]) -> Fraction:
    """Power times time of slots that run at points, with the first point's power for the time in which nothing runs."""
    power = {point.speed: point.power for point in points}
    all_time = horizon(jobs)
    idle, energy = Fraction(all_time.end - all_time.begin), Fraction(0)
    for slot in slots:
        time = slot.end.value - slot.begin.value
        idle, energy = idle - time, energy + power[int(slot.work.value / time)] * time
    return energy + idle * points[0].power


# # What is spent on points


class Spent(NamedTuple):
    """An energy, and the time at each point."""

    energy: Fraction
    times: list[Fraction]


def work_in(served: list[Served], stretch: Piece) -> Fraction:
    """How much work is done in a stretch."""
    return sum((one.work for one in served if one.stretch == stretch), Fraction(0))


def times_in(hull: list[Point], stretch: Piece, work: Fraction) -> Iterator[tuple[Point, Fraction]]:
    """For how long a stretch runs at which of the hull's points, so that it does this work."""
    length = stretch.end - stretch.begin
    if len(hull) == 1:
        yield hull[0], Fraction(length)
        return
    low, high = next((low, high) for low, high in zip(hull, hull[1:]) if work <= high.speed * length)
    fast = (work - low.speed * length) / (high.speed - low.speed)
    yield high, fast
    yield low, length - fast


def spent_on(jobs: list[Job], points: list[Point], served: list[Served]) -> Spent:
    """What a schedule spends where each stretch runs at one speed."""
    hull, times = hull_of(points), {point: Fraction(0) for point in points}
    for stretch in stretches_of(jobs):
        for point, time in times_in(hull, stretch, work_in(served, stretch)):
            times[point] += time
    return Spent(sum((point.power * time for point, time in times.items()), Fraction(0)), [times[point] for point in points])


def too_fast(jobs: list[Job], points: list[Point], served: list[Served]) -> Optional[Piece]:
    """The first stretch for which the top point is too slow."""
    top = points[-1].speed
    return next((stretch for stretch in stretches_of(jobs) if work_in(served, stretch) > top * (stretch.end - stretch.begin)), None)
