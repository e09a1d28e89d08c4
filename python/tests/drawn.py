"""Drawn documents of jobs, points and runs, and a naive reading of their parts that shares no code with the package."""

import random
from fractions import Fraction
from typing import List, NamedTuple, Optional, Tuple


class Drawn(NamedTuple):
    """A drawn document: its lines, and what was drawn into it."""

    lines: List[bytes]
    points: bool
    kinds: Tuple[str, ...]


def _runs(draw: random.Random, speeds: List[int]) -> Tuple[List[list], List[list], List[str]]:
    """Jobs that run one after the other, some in two pieces around the next one; and what was drawn."""
    jobs: List[list] = []
    runs: List[list] = []
    kinds = set()
    time = release = draw.randint(0, 50)
    slack = draw.choice([2, 10, 60])
    waiting: Optional[list] = None
    for number in range(draw.randint(4, 44)):
        release = min(draw.randint(release, max(release, time) + 2), max(release, time) + draw.choice([0, 0, 1, 30]))
        speed, units = draw.choice(speeds), draw.randint(1, 4)
        time = max(time, release)
        name, work, starved = b"j%d" % number, speed * units, draw.random() < 0.05
        if draw.random() < 0.1:
            units = work = 0
            kinds.add("work 0")
        elif starved:
            kinds.add("starved")
        else:
            runs.append([name, time, time + units, speed])
            time += units
        end = time
        if waiting is not None:
            runs.append([waiting[0], time, time + 1, waiting[4]])
            waiting[3] += waiting[4]
            time += 1
            waiting[2] = max(waiting[2], time + draw.randint(0, 3))
            waiting = None
        deadline = end + draw.randint(0, slack)
        if draw.random() < 0.05 and not starved:
            deadline = end - 1
            kinds.add("late")
        jobs.append([name, release, max(deadline, release + 1), work, speed])
        if units > 2 and not starved and draw.random() < 0.25:
            waiting = jobs[-1]
            kinds.add("in two pieces")
    return jobs, runs, sorted(kinds)


def _spoil(draw: random.Random, runs: List[list]) -> str:
    """One fault of the runs."""
    kind = draw.choice(["moved on", "moved back", "out of order", "longer", "missing", "other speed"])
    place = draw.randrange(len(runs))
    if kind == "out of order":
        runs.insert(draw.randrange(len(runs)), runs.pop(place))
    elif kind == "missing":
        del runs[place]
    elif kind == "other speed":
        runs[place][3] += 1
    elif kind == "longer":
        runs[place][2] += 1
    else:
        by = 5 if kind == "moved on" else -min(1, runs[place][1])
        runs[place][1] += by
        runs[place][2] += by
    return kind


def _table(draw: random.Random, speeds: List[int]) -> Tuple[List[Tuple[int, int]], str]:
    kind = draw.choice(["convex", "dear idling", "falling powers", "any powers", "too slow", "none"])
    if kind == "none":
        return [], kind
    if kind == "too slow":
        return [(0, 1), (1, 2)], kind
    fast = [*speeds, max(speeds) * 3]
    if kind == "convex":
        return [(0, draw.randint(0, 3))] + [(speed, 3 + speed**2) for speed in fast], kind
    if kind == "dear idling":
        return [(0, 200)] + [(speed, 3 + speed**2) for speed in fast], kind
    if kind == "falling powers":
        return [(0, 90)] + [(speed, 80 - 2 * speed + speed**2 // 9) for speed in fast], kind
    return [(0, draw.randint(0, 40))] + [(speed, draw.randint(0, 99)) for speed in fast], kind


def document(seed: int) -> Drawn:
    """The document of this seed."""
    draw = random.Random(seed)
    speeds = sorted(draw.sample(range(1, 8), draw.randint(1, 4)))
    jobs, runs, kinds = _runs(draw, speeds)
    points, table = _table(draw, speeds)
    if runs and draw.random() < 0.35:
        kinds.append(_spoil(draw, runs))
    ticks = draw.choice([1, 1, 10])
    lines = [b"job %b %d %d %d\n" % tuple(job[:4]) for job in jobs]
    lines += [b"point %d %d\n" % point for point in points]
    lines.append(b"ticks %d\n" % ticks)
    lines += [b"run %b %d %d %d\n" % (name, start * ticks, end * ticks, speed) for name, start, end, speed in runs]
    return Drawn(lines, bool(points), (*kinds, table))


class Seen(NamedTuple):
    """A part, as a naive reading sees it."""

    head: str
    jobs: List[List[str]]
    runs: List[List[str]]


def seen(part: bytes) -> Seen:
    """The rows of a part, each with the times of the whole."""
    lines = part.decode("ascii").split("\n")
    assert lines.pop() == ""
    shift = int(lines[0].split("shift ")[1].split(",")[0])
    ticks = [int(line.split()[1]) for line in lines if line.startswith("ticks ")]
    scale = ticks[0] if ticks else 1
    jobs, runs, number = [], [], 0
    for line in lines[1:]:
        fields = line.split()
        if line.startswith("job "):
            jobs.append([fields[1], str(int(fields[2]) + shift), str(int(fields[3]) + shift), fields[4]])
        elif line.startswith("# slot "):
            number = int(fields[2]) - 1
        elif line.startswith("run "):
            number += 1
            start, end = (str(int(field) + shift * scale) for field in fields[2:4])
            runs.append([str(number), fields[1], start, end, fields[4]])
    return Seen(lines[0], jobs, runs)


def is_quiet(before: List[Seen], behind: List[Seen]) -> bool:
    """Whether all runs of the jobs before come before all runs of those behind."""
    last = max((int(run[0]) for part in before for run in part.runs), default=0)
    return all(int(run[0]) > last for part in behind for run in part.runs)


def is_open(before: List[Seen], behind: List[Seen]) -> bool:
    """Whether a window is open at a cut between them."""
    latest = max(int(job[2]) for part in before for job in part.jobs)
    return min(int(job[1]) for part in behind for job in part.jobs) < latest


def number(text: bytes) -> Fraction:
    """The value of W or W+N/D."""
    whole, _, rest = text.decode("ascii").partition("+")
    return int(whole) + (Fraction(rest) if rest else Fraction(0))
