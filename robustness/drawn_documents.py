"""drawn_documents.py: draws documents, tasks and words for answers.py.

Each document is drawn for one form of command. Its jobs are of a shape: nested, in a chain, of one window, as steps, with
gaps, in units up to the limits; some have no work, and works are chosen so that several intervals have one intensity.
Points may be any rising table: convex, with points above the hull, falling, of one point, `0 0`. For the verdicts there
are slots and levels of the second program's own plan, which are true, or have a mistake. In one of five documents bytes,
fields or lines are changed, so that a line may be refused.
"""

import random
from fractions import Fraction
from math import ceil, lcm
from typing import Callable, Iterator, NamedTuple

from second_documents import Document, Job, Level, Piece, Point, Slot, Written, gaps_multiple, over
from second_schedules import Plan, average_rate, joined, optimal_available, plan_of, rounded, stretches_of

FORMS = (
    "plan", "avr", "oa", "admit", "round", "audit", "audit --points", "check", "report", "report --json", "curve", "compare",
    "expand", "trial",
)
"""The forms of command, by their words without numbers."""


class Drawn(NamedTuple):
    """Words and an input."""

    words: list[bytes]
    data: bytes


# # Jobs


def times_of(draw: random.Random) -> tuple[int, int]:
    """The length of the time in which jobs are drawn, and the work that fits a unit of it well."""
    length = draw.choice([4, 8, 12, 12, 20, 60, 360, 10_000, 1_000_000])
    return length, draw.choice([1, 2, 3, 6, 12, 100])


def windows(draw: random.Random, many: int, length: int) -> list[Piece]:
    """So many windows, of one of the shapes."""
    shape = draw.choice(["any", "any", "any", "nested", "chain", "one", "steps", "short", "begin", "end"])
    step = max(1, length // max(1, many))
    found: list[Piece] = []
    for number in range(many):
        begin = draw.randrange(length)
        end = draw.randint(begin + 1, length)
        if shape == "nested":
            begin, end = min(number, length - 1) // 2, max(length - number // 2, length // 2 + 1)
        elif shape == "chain":
            begin, end = number * step, number * step + step
        elif shape == "one":
            begin, end = 0, length
        elif shape == "steps":
            begin, end = number * step // 2, number * step // 2 + step
        elif shape == "short":
            end = begin + draw.randint(1, 3)
        elif shape == "begin":
            begin = 0
        elif shape == "end":
            end = length
        found.append(Piece(begin, max(end, begin + 1)))
    return found


def jobs_of(draw: random.Random) -> list[Job]:
    """Jobs. A few have no work, or the greatest."""
    many = draw.choice([0, 1, 1, 2, 2, 3, 3, 4, 4, 5, 5, 6, 7, 8, draw.randint(9, 16)]) if draw.random() < 0.99 else draw.randint(17, 60)
    length, rate = times_of(draw)
    tight = draw.random() < 0.3
    jobs: list[Job] = []
    for window in windows(draw, many, length):
        work = draw.randint(1, 3) * rate * (window.end - window.begin) if tight else draw.randint(1, 4 * rate * max(1, length // 8))
        work = draw.choice([work] * 12 + [0, 0, 1, 1_000_000])
        jobs.append(Job(window.begin, window.end, min(work, 1_000_000)))
    draw.shuffle(jobs)
    return moved(draw, jobs)


def moved(draw: random.Random, jobs: list[Job]) -> list[Job]:
    """The jobs later, or up to the greatest time."""
    last = max((job.deadline for job in jobs), default=0)
    shift = draw.choice([0, 0, 0, 1, 7, 1_000, draw.randrange(10**6), 10**9 - last])
    return [Job(job.release + shift, job.deadline + shift, job.work) for job in jobs]


ODD = [b"#", b"#a", b"job", b"slot", b"0", b"+", b"1+1/2", b"~" * 64, b"x" * 64, b"%s", b"a.1", b"\\", b'"', b"no", b"A", b"a"]
"""Names that nobody would choose."""


def names_of(draw: random.Random, many: int) -> list[bytes]:
    """So many different names."""
    plain = [b"j%d" % number if number > 25 else bytes([97 + number]) for number in range(many)]
    if draw.random() < 0.7:
        return plain
    odd = [name for name in draw.sample(ODD, min(len(ODD), many)) if name not in plain]
    named = odd + plain[len(odd) :]
    draw.shuffle(named)
    return named


# # Points


def points_of(draw: random.Random, plan: Plan) -> list[Point]:
    """A table: of rising speeds, some of which are around those of the plan's levels; or none."""
    if draw.random() < 0.04:
        return []
    speeds = {0}
    for level in plan.levels:
        speeds |= {speed for speed in (int(level.speed), ceil(level.speed)) if draw.random() < 0.6}
    peak = ceil(plan.levels[0].speed) if plan.levels else 3
    if draw.random() < 0.8:
        speeds.add(peak + draw.choice([0, 0, 1, 3, peak]))
    speeds |= {draw.randint(0, 2 * peak + 2) for _ in range(draw.choice([0, 0, 1, 2, 3, 5]))}
    if draw.random() < 0.004:
        speeds = set(range(draw.choice([40, 64]))) | {min(peak, 4_000)}
    points: list[Point] = []
    shape = draw.choice(["any", "square", "cube", "line", "falls", "low"])
    for speed in sorted(speed for speed in speeds if speed <= 4_000):
        power = {"any": draw.randrange(40), "square": speed**2 + 4, "cube": speed**3, "line": 3 * speed + 1,
                 "falls": max(0, 100 - 7 * speed), "low": draw.choice([0, 0, 1, 1_000_000])}[shape]
        point = Point(speed, min(power + draw.choice([0, 0, 0, 0, 1, 5]), 1_000_000))
        if gaps_multiple([*points, point]) <= 2**40 and len(points) < 64:
            points.append(point)
    return points


# # Slots and levels


def split(slot: Slot) -> list[Slot]:
    """A slot in two, at half of its time and work."""
    middle = (slot.begin.value + slot.end.value) / 2
    ends = lcm(slot.begin.den, slot.end.den, middle.denominator)
    works = 2 * slot.work.den
    half = slot.work.value / 2
    early, late = ((slot.begin.value, middle), (middle, slot.end.value))
    return [Slot(slot.job, over(begin, ends), over(end, ends), over(half, works)) for begin, end in (early, late)]


def changed_slots(draw: random.Random, slots: list[Slot]) -> list[Slot]:
    """Slots with a change, which mostly is a mistake."""
    if not slots:
        return slots
    place = draw.randrange(len(slots))
    slot = slots[place]
    other = draw.choice(slots)
    kind = draw.randrange(11)
    if kind == 0:
        return slots[:place] + slots[place + 1 :]
    if kind == 1:
        return slots[:place] + [slot, slot] + slots[place + 1 :]
    if kind == 2:
        return [*slots[:place], *split(slot), *slots[place + 1 :]]
    if kind == 3:
        return draw.sample(slots, len(slots))
    changed = {
        4: slot._replace(begin=slot.end, end=slot.begin),
        5: slot._replace(begin=Written(max(0, slot.begin.whole + draw.choice([-1, 1])), slot.begin.num, slot.begin.den)),
        6: slot._replace(end=Written(slot.end.whole + draw.choice([1, 3]), slot.end.num, slot.end.den)),
        7: slot._replace(work=Written(max(0, slot.work.whole + draw.choice([-1, 1])), slot.work.num, slot.work.den)),
        8: slot._replace(job=other.job),
        9: slot._replace(begin=Written(max(0, slot.begin.whole - 2), slot.begin.num, slot.begin.den),
                         end=Written(slot.end.whole + 2, slot.end.num, slot.end.den)),
        10: slot._replace(work=Written(slot.work.whole, 0 if slot.work.num else 1, 1 if slot.work.num else 3)),
    }[kind]
    return [*slots[:place], changed, *slots[place + 1 :]]


def changed_levels(draw: random.Random, document: Document, levels: list[Level]) -> list[Level]:
    """Levels with a change. Some are still proper."""
    if not levels:
        return levels
    place = draw.randrange(len(levels))
    level, apart = levels[place], levels[:place] + levels[place + 1 :]
    idle = [number for number, job in enumerate(document.jobs) if not job.work]
    kind = draw.randrange(15)
    if idle and draw.random() < 0.3:
        kind = draw.choice([10, 12, 12])
    elif apart and draw.random() < 0.5:
        kind = draw.choice([1, 13, 14] if len(apart) > 1 else [1, 1, 13])
    if kind == 0:
        return apart
    if kind == 1:
        return draw.sample(levels, len(levels))
    piece = draw.randrange(len(level.pieces)) if level.pieces else 0
    others = draw.sample(draw.choice(apart or levels).pieces, 1) if all(each.pieces for each in levels) else []
    changed = {
        2: lambda: level._replace(work=level.work + draw.choice([1, -1 if level.work > 1 else 1])),
        3: lambda: level._replace(length=level.length + 1),
        4: lambda: level._replace(pieces=level.pieces[:piece] + level.pieces[piece + 1 :]),
        5: lambda: level._replace(pieces=[part for one in reversed(level.pieces) for part in reversed(halves(one))]),
        6: lambda: level._replace(pieces=[part for one in level.pieces for part in halves(one)]),
        7: lambda: level._replace(members=level.members + [draw.randrange(len(document.jobs))]),
        8: lambda: level._replace(members=level.members[1:]),
        9: lambda: level._replace(pieces=[Piece(max(0, one.begin - 1), one.end) for one in level.pieces], length=level.length + len(level.pieces)),
        10: lambda: level._replace(members=level.members + idle),
        12: lambda: level._replace(members=level.members + idle + idle[:1]),
        13: lambda: level._replace(pieces=joined(sorted({*level.pieces, *others}))),
        14: lambda: level._replace(pieces=sorted([*level.pieces[:piece], *others, *level.pieces[piece + 1 :]])),
        11: lambda: level._replace(pieces=[Piece(one.begin, max(one.begin + 1, one.end - 1)) for one in level.pieces],
                                   length=max(1, level.length - len(level.pieces))),
    }[kind]()
    return [*levels[:place], changed, *levels[place + 1 :]]


def any_levels(draw: random.Random, document: Document) -> list[Level]:
    """Levels with true sums and falling speeds, whose members and pieces nobody planned."""
    many = draw.randint(1, 3)
    members: list[list[int]] = [[] for _ in range(many)]
    pieces: list[list[Piece]] = [[] for _ in range(many)]
    for number, job in enumerate(document.jobs):
        if job.work or draw.random() < 0.3:
            members[draw.randrange(many)].append(number)
    for stretch in stretches_of(document.jobs):
        pieces[draw.randrange(many)].append(stretch)
    works = [sum(document.jobs[number].work for number in each) for each in members]
    lengths = [sum(piece.end - piece.begin for piece in each) for each in pieces]
    levels = [Level(*each) for each in zip(works, lengths, pieces, members) if each[0] and each[1]]
    return sorted(levels, key=lambda level: -level.speed)


def halves(piece: Piece) -> list[Piece]:
    """A piece in two, if it is longer than a unit."""
    middle = (piece.begin + piece.end) // 2
    return [Piece(piece.begin, middle), Piece(middle, piece.end)] if middle > piece.begin else [piece]


def cut_levels(levels: list[Level], document: Document) -> list[Level]:
    """Levels of which each is several of the same speed, where its pieces or its members' windows are apart enough for that."""
    found: list[Level] = []
    for level in levels:
        parts: list[Level] = []
        alone = sorted(Piece(*document.jobs[number][:2]) for number in level.members)
        for piece in alone if joined(alone) == level.pieces else level.pieces:
            members = [number for number in level.members if piece.begin <= document.jobs[number].release and document.jobs[number].deadline <= piece.end]
            parts.append(Level(sum(document.jobs[number].work for number in members), piece.end - piece.begin, [piece], members))
        whole = sum(len(part.members) for part in parts) == len(level.members) and all(part.work for part in parts)
        found += parts if whole and all(part.speed == level.speed for part in parts) else [level]
    return found


def foreign_slots(draw: random.Random, document: Document) -> list[Slot]:
    """Slots that nobody planned."""
    found: list[Slot] = []
    for _ in range(draw.randint(0, 5)):
        if document.jobs:
            job = draw.randrange(len(document.jobs))
            begin = max(0, document.jobs[job].release + draw.choice([0, 0, 0, 1, -1]))
            den = draw.choice([1, 1, 3])
            end = over(Fraction(max(0, begin * den + draw.randint(-1, 8)), den), den)
            found.append(Slot(job, Written(begin), end, over(Fraction(draw.randint(0, 12)), 1)))
    return sorted(found, key=lambda slot: slot.begin.value) if draw.random() < 0.7 else found


def judged(draw: random.Random, document: Document, form: str) -> Document:
    """The document with slots and levels to be judged."""
    plan = plan_of(document.jobs)
    slots, levels = plan.slots(), plan.levels
    peak = plan.levels[0].speed if plan.levels else Fraction(0)
    if form == "audit --points" and document.points and peak <= document.points[-1].speed and draw.random() < 0.8:
        slots = rounded(plan, document.points).slots
    elif draw.random() < 0.15:
        policy = draw.choice([average_rate, optimal_available])
        slots = policy(document.jobs, draw.choice([1, 6, 720_720])).slots()
    elif draw.random() < 0.1:
        slots = foreign_slots(draw, document)
    foreign = draw.random() < 0.3
    if foreign:
        levels = any_levels(draw, document)
    elif draw.random() < 0.4:
        levels = cut_levels(levels, document)
    if draw.random() < 0.15:
        slots = [*slots, *idling(draw, document, slots)]
    if draw.random() < (0.1 if form == "check" else 0.7):
        for _ in range(draw.choice([1, 1, 2, 3])):
            slots = changed_slots(draw, slots)
    if draw.random() < (0.2 if foreign else 0.6):
        levels = changed_levels(draw, document, levels)
    document.slots, document.levels = fitting(slots), levels
    return document


def idling(draw: random.Random, document: Document, slots: list[Slot]) -> list[Slot]:
    """A slot without work behind the others, where a window is still open."""
    last = ceil(max((slot.end.value for slot in slots), default=Fraction(0)))
    late = [(number, job) for number, job in enumerate(document.jobs) if last < job.deadline]
    found = [Slot(number, Written(max(last, job.release)), Written(job.deadline), Written(0)) for number, job in late]
    return draw.sample(found, min(1, len(found)))


def fitting(slots: list[Slot]) -> list[Slot]:
    """The slots that a document can have: of one job none has a work with another denominator than an earlier one."""
    found: list[Slot] = []
    for slot in slots:
        same = all(one.work.den in (1, slot.work.den) or slot.work.den == 1 for one in found if one.job == slot.job)
        alike = slot.begin.den == slot.end.den or 1 in (slot.begin.den, slot.end.den)
        if same and alike and slot.end.whole <= 10**9:
            found.append(slot)
    return found


# # Texts


def run_lines(draw: random.Random, document: Document) -> Iterator[str]:
    """Slots as runs, where all have whole ends and a whole speed; else as they are."""
    ticks = draw.choice([1, 1, 3, 1000])
    yield f"ticks {ticks}"
    for slot in document.slots:
        ends = slot.begin.value * ticks, slot.end.value * ticks
        length = slot.end.value - slot.begin.value
        speed = slot.work.value / length if length > 0 else Fraction(1)
        if all(end.denominator == 1 for end in ends) and speed.denominator == 1:
            yield f"run {document.name(slot.job)} {ends[0]} {ends[1]} {speed}"
        else:
            yield f"slot {document.name(slot.job)} {slot.begin.text()} {slot.end.text()} {slot.work.text()}"


def any_runs(draw: random.Random, document: Document) -> Iterator[str]:
    """Runs between any ticks, one behind the other: about one for each job, of about its work."""
    ticks = draw.choice([1, 3, 6, 6, 12, 10_000, 1_000_000_000])
    yield f"ticks {ticks}"
    last, later = 0, sorted(enumerate(document.jobs), key=lambda each: each[1].release)
    for number, job in later:
        begin = max(last, job.release * ticks + draw.choice([0, 0, 1]))
        last = begin + draw.randint(1, max(1, job.deadline * ticks - begin)) if draw.random() < 0.5 else max(begin, job.deadline * ticks)
        length = Fraction(last - begin, ticks)
        yield f"run {document.name(number)} {begin} {last} {int(job.work / length) if length else 1}"


def text_of(draw: random.Random, document: Document, ticked: float) -> bytes:
    """A text of the document, not always the canonical one. `ticked` is the part of texts with runs that nobody planned."""
    lines = list(document.lines())
    if draw.random() < ticked:
        lines = [line for line in lines if not line.startswith("slot ")] + list(any_runs(draw, document))
    elif draw.random() < 0.25:
        lines = [line for line in lines if not line.startswith("slot ")] + list(run_lines(draw, document))
    if draw.random() < 0.3:
        first = [line for line in lines if line.startswith("point ")]
        lines = first + [line for line in lines if line not in first]
    if draw.random() < 0.2:
        lines.insert(draw.randint(0, len(lines)), draw.choice(["", "# a comment", "  \t", "#", "#job a 0 4"]))
    if draw.random() < 0.2:
        lines.append(draw.choice(["grid 6 0", "energy 3+1/2", "energy 5", "ticks 10", "grid 1000000 1000000"]))
    if draw.random() < 0.1:
        lines = [line.replace(" ", draw.choice(["  ", "\t", " \t "])) for line in lines]
    feed = "\r\n" if draw.random() < 0.1 else "\n"
    text = feed.join(lines) + ("" if draw.random() < 0.1 else feed if lines else "")
    return text.encode("ascii")


FIELDS = [
    "-1", "+1", "01", "1.5", "0x1", "1e3", "4000", "4001", "1000000", "1000001", "1000000000", "1000000001", "4000000000", "4000000001",
    "1000000000000", "1000000000001", "1000000000000000000", "1000000000000000001", "9" * 50, "0" * 5, "1+0/7", "1+1/2", "1+2/2",
    "0+1/1152921504606846976", "0+1/1152921504606846977", "1+1/0", "1+1", "1/2", "1+01/2", "1+1/2/3", "1+1+1/2", "a", "zz", "z" * 65,
    "\x7f", "\x80", "#", "0", "1", "2", "3", "job", "member", "0+1/3", "0+2/6",
]
LINES = [
    "job", "job zz 0 4", "job zz 0 4 8 9", "job zz 4 4 1", "job zz 5 4 1000001", "piece 0 4", "member a", "run a 0 1 1", "ticks 7", "ticks 0",
    "grid 1 0", "grid 0 0", "energy 1", "level 0 4", "level 4 0", "level 4 4", "slot a 0+1/3 1+1/7 1", "slot a 0 1 0+1/2", "slot a 0 1 0+1/3",
    "slot b 0 1 1", "slot zz 0 1 1", "point 0 0", "point 1 1", "point 4000 1", "point 4001 1", "horizon 5", "task a 0 1 1 1", "failed",
    "refused 1 1 BadName", "run a 0 1000001 1000000", "point 803 1", "point 1604 2", "point 2404 3", "point 3203 4", "member zz",
    "slot a 0 1 1000000000001", "slot a 1000000001 1 1", "run a 0 1 1000001", "run a 0 0 5", "run b 3 1 5", "Job a 0 4 8", "\ufeffjob q 0 1 1",
]


BEHIND = [
    "job {0} 0 4 8", "job zz 5 5 1", "job zz 6 5 1000001", "job zz 5 6 1000001", "slot {0} 0+1/3 1+1/7 1", "slot {0} 0+1/3 2 1", "slot {0} 0 1 0+1/2",
    "slot {0} 0 1 0+2/4", "slot {0} 0 1 3", "slot {0} 0 1 0+1/5", "run {0} 0 7 5", "run {0} 5 9 7", "run {0} 9 5 7", "run {1} 0 12 1",
    "run {0} 0 2000000 1000000",
    "ticks 6", "ticks 6", "ticks 4", "ticks 1", "member {0}", "member zz", "piece 3 4", "level 3 4", "point 0 0", "point 1 1", "point 4000 1", "slot zz 1 2 3",
    "slot {1} 0 1 0+1/2", "slot {1} 0 1 5", "slot {0} 0 1 0+1/2\nslot {0} 0 1 3\nslot {0} 0 1 0+1/3", "ticks 6\nrun {0} 0 7 5\nrun {0} 7 8 4",
 "grid 3 4", "energy 0+1/7", "energy 1", "slot {0} 0+0/9 1+0/7 1+0/5",
]
"""Lines that may stand behind a document, or may not; {0} and {1} are names of its jobs."""


def behind(draw: random.Random, data: bytes) -> bytes:
    """The text with some lines behind it."""
    names = [line.split()[1] for line in data.split(b"\n") if line.startswith(b"job ") and len(line.split()) > 1] or [b"zz"]
    lines = draw.sample(BEHIND, draw.randint(1, 5))
    one, other = draw.choice(names), draw.choice(names)
    texts = [line.encode().replace(b"{0}", one).replace(b"{1}", other) for line in lines]
    return data.rstrip(b"\n") + b"\n" + b"\n".join(texts) + b"\n"


def fine(draw: random.Random, data: bytes) -> bytes:
    """The text behind points whose gaps have a great common multiple, if all are of the hull."""
    speeds = sorted(draw.sample([803, 1604, 2404, 3203, 4000, 3989, 397, 2801], draw.randint(4, 8)))
    bend = draw.choice([0, 0, 1])
    points = [b"point 0 0\n", *(b"point %d %d\n" % (speed, bend * draw.randrange(900) + speed * speed // 20) for speed in speeds)]
    return b"".join(points) + data


def broken(draw: random.Random, data: bytes) -> bytes:
    """The text with one change or two."""
    chance = draw.random()
    if chance < 0.5:
        return behind(draw, data)
    if chance < 0.55:
        return fine(draw, data)
    for _ in range(draw.choice([1, 1, 1, 2])):
        lines = data.split(b"\n")
        place = draw.randrange(len(lines))
        fields = lines[place].split(b" ")
        kind = draw.randrange(7)
        if kind == 0:
            fields[draw.randrange(len(fields))] = draw.choice(FIELDS).encode("latin-1")
        elif kind == 1:
            fields.insert(draw.randint(0, len(fields)), draw.choice(FIELDS).encode("latin-1"))
        elif kind == 2:
            del fields[draw.randrange(len(fields))]
        elif kind == 3:
            lines.insert(place, lines[draw.randrange(len(lines))])
            place += 1
        elif kind == 4:
            lines.insert(place, draw.choice(LINES).encode())
            place += 1
        elif kind == 5:
            return data[: draw.randint(0, len(data))]
        else:
            at = draw.randint(0, len(data))
            return data[:at] + bytes([draw.choice([0, 9, 10, 13, 32, 35, 43, 47, 48, 57, 255])]) + data[at + draw.randint(0, 1) :]
        lines[place] = b" ".join(fields)
        data = b"\n".join(lines)
    return data


# # Of each form


def grid_of(draw: random.Random, jobs: list[Job]) -> int:
    """A grid, often one on which Average Rate doesn't round."""
    even = lcm(*(job.deadline - job.release for job in jobs))
    return draw.choice([1, 1, 2, 3, 6, 7, 60, 720_720, 1_000_000, draw.randint(1, 1_000_000), even if even <= 1_000_000 else 1])


def top_of(draw: random.Random, jobs: list[Job]) -> int:
    """A top speed, mostly around that of the plan."""
    plan = plan_of(jobs)
    peak = ceil(plan.levels[0].speed) if plan.levels else 1
    second = ceil(plan.levels[-1].speed) if plan.levels else 1
    top = draw.choice([peak, peak, peak - 1, peak - 1, peak // 2, second, second + 1, draw.randint(1, peak + 1), 1, 1_000_000])
    return min(max(1, top), 1_000_000)


def words_of(draw: random.Random, form: str, jobs: list[Job]) -> list[bytes]:
    """The words of a form."""
    words = form.encode().split()
    if form in ("avr", "oa", "compare"):
        return [*words, b"--grid", b"%d" % grid_of(draw, jobs)]
    return [*words, b"%d" % top_of(draw, jobs)] if form == "admit" else words


def document_drawn(draw: random.Random, form: str) -> Drawn:
    """A document for a form."""
    jobs = jobs_of(draw)
    if form == "check" and len(plan_of(jobs).levels) < 3 and draw.random() < 0.7:
        jobs = jobs_of(draw)
    document = Document(names_of(draw, len(jobs)), jobs)
    if form in ("round", "compare", "audit --points") or draw.random() < 0.2:
        document.points = points_of(draw, plan_of(jobs))
    if form.startswith(("audit", "check")) or draw.random() < 0.15:
        document = judged(draw, document, form)
    words = words_of(draw, form, jobs)
    data = text_of(draw, document, {"audit": 0.15, "audit --points": 0.1, "check": 0.04}.get(form, 0.01))
    return Drawn(words, broken(draw, data) if draw.random() < 0.2 else data)


def tasks_drawn(draw: random.Random) -> Drawn:
    """Tasks for `expand`."""
    period = draw.choice([1, 2, 3, 4, 6, 12, 1_000])
    horizon = draw.choice([period, 12, 24, period * 10, draw.randint(1, 100), 10**9])
    names = names_of(draw, draw.choice([0, 1, 1, 2, 2, 3, 5]))
    lines = [f"horizon {horizon}"]
    even = draw.random() < 0.4
    for name in names:
        each = max(draw.choice([period, 2 * period, 5, horizon]), horizon // draw.choice([3, 40, 40, 40, 3_000, 5_000]))
        offset, deadline = (0, each) if even else (draw.choice([0, 0, 1, horizon, 10**9]), draw.choice([1, each, each, each + 1, horizon]))
        work = draw.choice([0, 1, 3, 1_000_000])
        lines.append(f"task {name.decode()[: draw.choice([59, 59, 64])]} {offset} {each} {deadline} {work}")
    if draw.random() < 0.1:
        lines[0], lines[-1] = lines[-1], lines[0]
    data = ("\n".join(lines) + "\n").encode()
    return Drawn([b"expand"], broken(draw, data) if draw.random() < 0.2 else data)


def trial_drawn(draw: random.Random) -> Drawn:
    """A trial. What it is given isn't read."""
    many = draw.choice([0, 1, 2, 3, draw.randint(4, 12), draw.randint(4, 12), draw.randint(12, 40)])
    if draw.random() < 0.01:
        many = draw.randint(60, 120)
    seed = draw.choice([0, 1, 4_294_967_295, draw.randrange(2**32), draw.randrange(2**32), draw.randrange(2**32)])
    return Drawn([b"trial", b"%d" % seed, b"%d" % many], draw.choice([b"", b"job a 0 4 8\n"]))


WRONG = [b"0", b"00", b"01", b"-1", b"1.5", b"1000001", b"4294967296", b"1001", b"", b"plan", b"--grid", b"--points", b"--json", b"--help", b"PLAN", b"9" * 50]
"""Words that are out of place at most places."""
EDGES = [b"0", b"0", b"00", b"07", b"1000000", b"1000001", b"1000", b"1001", b"7", b"9" * 50, b"+1", b"1 "]
"""Words in the place of a number."""


def mistaken(draw: random.Random, words: list[bytes]) -> list[bytes]:
    """Words of which most ask for nothing."""
    if len(words) > 1 and draw.random() < 0.4:
        return [*words[:-1], draw.choice(EDGES)]
    place = draw.randrange(len(words))
    changes: list[Callable[[], list[bytes]]] = [
        lambda: words[:place] + [draw.choice(WRONG)] + words[place + 1 :],
        lambda: words[:place] + words[place + 1 :],
        lambda: words[:place] + [draw.choice(WRONG)] + words[place:],
        lambda: words + [draw.choice(WRONG)],
        lambda: [*words[:-2], draw.choice([b"0", b"4294967295", b"4294967296", b"-grid", b"--grid="]), words[-1]],
    ]
    return draw.choice(changes)()


def drawn(form: str, seed: int, number: int) -> Drawn:
    """The input of this number for a form. One in sixteen has words with a mistake."""
    draw = random.Random(f"{form} {seed} {number}")
    made = tasks_drawn(draw) if form == "expand" else trial_drawn(draw) if form == "trial" else document_drawn(draw, form)
    return made._replace(words=mistaken(draw, made.words)) if draw.random() < 0.0625 else made


# # Documents beyond the limits


def great() -> Iterator[Drawn]:
    """Documents with one line more than there may be of a kind, and with just so many; and one byte too many."""
    job, head = b"job a 0 4 8\n", b"job a 0 4 8\nlevel 8 4\nticks 1\n"
    jobs = [b"job j%d %d %d 1\n" % (number, number, number + 1) for number in range(4_001)]
    yield Drawn([b"audit"], b"".join(jobs))
    yield Drawn([b"audit"], b"".join(jobs[:4_000]))
    yield Drawn([b"curve"], b"".join(b"point %d %d\n" % (speed, speed) for speed in range(65)))
    yield Drawn([b"curve"], b"".join(b"point %d %d\n" % (speed, speed) for speed in range(64)))
    for line in (b"slot a 0 4 8\n", b"level 8 4\n", b"piece 0 4\n", b"member a\n", b"run a 0 4 2\n"):
        already = line.startswith(b"level")
        yield Drawn([b"report"], head + line * (100_001 - already))
        yield Drawn([b"report"], head + line * (100_000 - already))
    yield Drawn([b"plan"], job + b"#" * (8_388_608 - len(job)))
    yield Drawn([b"plan"], job + b"#" * (8_388_609 - len(job)))
    tasks = [b"task t%d 0 4 4 1\n" % number for number in range(4_001)]
    yield Drawn([b"expand"], b"horizon 3\n" + b"".join(tasks))
    yield Drawn([b"expand"], b"horizon 4\n" + b"".join(tasks[:4_000]))
    yield Drawn([b"expand"], b"horizon 4000\ntask a 0 1 1 1\n")
    yield Drawn([b"expand"], b"horizon 4001\ntask a 0 1 1 1\n")
    yield Drawn([b"expand"], b"#" * 8_388_609)
