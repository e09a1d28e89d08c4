"""second_documents.py: the second reading of documents and of tasks, and the text of a document, for second_answers.py.

It follows docs/format.md and Reading, TaskReading, Text and Within of crates/yds_model/specs. It reads an input line by
line and tells the first fault with its line, column and reason. It shares no code with the crates nor with python/yds.
"""

from dataclasses import dataclass, field
from fractions import Fraction
from math import lcm
from typing import Callable, Iterator, NamedTuple, Optional

MOST_BYTES = 8_388_608
MOST_JOBS, MOST_POINTS, MOST_TASKS, MOST_OTHERS = 4_000, 64, 4_000, 100_000
MOST_TIME, MOST_WORK, MOST_SPEED, MOST_POWER = 1_000_000_000, 1_000_000, 4_000, 1_000_000
MOST_GAPS, MOST_DENOMINATOR = 2**40, 2**60
MOST_SLOT_WORK, MOST_ENERGY = 10**12, 10**18
MOST_LEVEL_WORK, MOST_LEVEL_LENGTH = 4_000_000_000, 1_000_000_000
MOST_TICKS, MOST_RUN_SPEED, MOST_GRID, MOST_ROUNDED = 1_000_000_000, 1_000_000, 1_000_000, 1_000_000
MOST_NAME, MOST_TASK_NAME = 64, 59

# # What a document has


class Written(NamedTuple):
    """A fraction as it is written: whole + num/den."""

    whole: int
    num: int = 0
    den: int = 1

    @property
    def value(self) -> Fraction:
        """Its value."""
        return self.whole + Fraction(self.num, self.den)

    def text(self) -> str:
        """How it is spelled."""
        return f"{self.whole}+{self.num}/{self.den}" if self.num else str(self.whole)


def over(value: Fraction, den: int) -> Written:
    """A value in parts of this denominator, of which it has to be a whole number; whole where no part is left."""
    parts = value * den
    if parts.denominator != 1:
        raise ValueError(f"{value} is no number of parts of {den}")
    whole, num = divmod(int(parts), den)
    return Written(whole, num, den) if num else Written(whole)


def lowest(value: Fraction) -> Written:
    """A value in lowest terms."""
    return over(value, value.denominator)


class Job(NamedTuple):
    """A job."""

    release: int
    deadline: int
    work: int


class Point(NamedTuple):
    """An operating point."""

    speed: int
    power: int


class Slot(NamedTuple):
    """The job of this number runs, and gets so much work."""

    job: int
    begin: Written
    end: Written
    work: Written


class Piece(NamedTuple):
    """A piece of time between whole numbers."""

    begin: int
    end: int


class Level(NamedTuple):
    """A level of a certificate."""

    work: int
    length: int
    pieces: list[Piece]
    members: list[int]

    @property
    def speed(self) -> Fraction:
        """Its speed."""
        return Fraction(self.work, self.length)


@dataclass
class Document:
    """A document. A name stands at the place of its job."""

    names: list[bytes] = field(default_factory=list)
    jobs: list[Job] = field(default_factory=list)
    points: list[Point] = field(default_factory=list)
    slots: list[Slot] = field(default_factory=list)
    levels: list[Level] = field(default_factory=list)
    grid: Optional[tuple[int, int]] = None
    energy: Optional[Written] = None

    def name(self, job: int) -> str:
        """The name of a job. A name is ASCII."""
        return self.names[job].decode("ascii")

    def text(self) -> str:
        """The one text that the program writes of it."""
        return "".join(line + "\n" for line in self.lines())

    def lines(self) -> Iterator[str]:
        """Its lines, in the order of their kinds."""
        for number, job in enumerate(self.jobs):
            yield f"job {self.name(number)} {job.release} {job.deadline} {job.work}"
        for point in self.points:
            yield f"point {point.speed} {point.power}"
        for slot in self.slots:
            yield f"slot {self.name(slot.job)} {slot.begin.text()} {slot.end.text()} {slot.work.text()}"
        for level in self.levels:
            yield f"level {level.work} {level.length}"
            yield from (f"piece {piece.begin} {piece.end}" for piece in level.pieces)
            yield from (f"member {self.name(number)}" for number in level.members)
        if self.grid is not None:
            yield f"grid {self.grid[0]} {self.grid[1]}"
        if self.energy is not None:
            yield f"energy {self.energy.text()}"


# # The lower hull of points


def is_above(low: Point, high: Point, point: Point) -> bool:
    """Whether a point lies above the line between two others around it."""
    return (point.power - low.power) * (high.speed - low.speed) > (high.power - low.power) * (point.speed - low.speed)


def hull_of(points: list[Point]) -> list[Point]:
    """The points that lie above no line between an earlier and a later one."""
    return [
        point
        for place, point in enumerate(points)
        if not any(is_above(low, high, point) for low in points[:place] for high in points[place + 1 :])
    ]


def gaps_multiple(points: list[Point]) -> int:
    """The least common multiple of the gaps between the speeds of the hull."""
    hull = hull_of(points)
    return lcm(*(high.speed - low.speed for low, high in zip(hull, hull[1:])))


# # Lines, fields and spellings


class Field(NamedTuple):
    """A field of a line, with the column of its first byte."""

    column: int
    text: bytes


class Refused(Exception):
    """The first fault of an input: its line, its column and its reason. Within a line the line is still unknown."""

    def __init__(self, column: int, reason: str, line: int = 0) -> None:
        super().__init__(reason)
        self.line, self.column, self.reason = line, column, reason

    def text(self) -> str:
        """The line that is answered."""
        return f"refused {self.line} {self.column} {self.reason}\n"


def fields_of(line: bytes) -> list[Field]:
    """The longest runs of bytes other than space and tab."""
    found: list[Field] = []
    column = 1
    for text in line.replace(b"\t", b" ").split(b" "):
        if text:
            found.append(Field(column, text))
        column += len(text) + 1
    return found


def lines_of(data: bytes) -> Iterator[tuple[int, list[Field]]]:
    """The lines with a field, without comments, by their numbers."""
    lines = data.split(b"\n")
    for number, line in enumerate(lines if lines[-1] else lines[:-1], 1):
        fields = fields_of(line.removesuffix(b"\r"))
        if fields and not fields[0].text.startswith(b"#"):
            yield number, fields


def demand(holds: bool, column: int, reason: str) -> None:
    """Refuses a line at this column where something doesn't hold."""
    if not holds:
        raise Refused(column, reason)


def demand_fields(fields: list[Field], wanted: int) -> None:
    """Refuses a line that hasn't just so many fields behind its kind."""
    if len(fields) > wanted + 1:
        raise Refused(fields[wanted + 1].column, "FieldCount")
    demand(len(fields) == wanted + 1, fields[-1].column + len(fields[-1].text), "FieldCount")


def is_number(text: bytes) -> bool:
    """Whether it is `0`, or a digit from 1 to 9 and any digits."""
    return text == b"0" or (text[:1] != b"0" and text.isdigit())


def value_of(text: bytes) -> int:
    """The value of a number of any length. Python's own conversion refuses more than 4,300 digits."""
    return int(text) if len(text) <= 40 else 10**40


def number(one: Field, least: int, most: int) -> int:
    """The number that a field spells."""
    demand(is_number(one.text), one.column, "BadNumber")
    demand(least <= value_of(one.text) <= most, one.column, "OutOfRange")
    return int(one.text)


def fraction(one: Field, most: int) -> Written:
    """The fraction that a field spells."""
    whole, plus, rest = one.text.partition(b"+")
    num, slash, den = rest.partition(b"/")
    if not plus:
        return Written(number(one, 0, most))
    demand(bool(slash) and all(map(is_number, (whole, num, den))), one.column, "BadNumber")
    fits = value_of(whole) <= most and 1 <= value_of(den) <= MOST_DENOMINATOR and value_of(num) < value_of(den)
    demand(fits, one.column, "OutOfRange")
    return Written(int(whole), int(num), int(den)) if int(num) else Written(int(whole))


def demand_name(one: Field, most: int) -> None:
    """Refuses a field that isn't a name of at most so many bytes."""
    demand(len(one.text) <= most and all(0x21 <= byte <= 0x7E for byte in one.text), one.column, "BadName")


# # A document, line by line


def are_alike(one: int, other: int) -> bool:
    """Whether two denominators are the same, or one of them is that of a whole number."""
    return one == other or 1 in (one, other)


FIELDS = {
    "job": 4, "point": 2, "slot": 4, "level": 2, "piece": 2, "member": 1, "ticks": 1, "run": 4, "grid": 2, "energy": 1,
}
"""The kinds of line, and how many fields each has behind its kind."""


class Reader:
    """Reads a document. It keeps what the lines said so far."""

    def __init__(self) -> None:
        self.document = Document()
        self.numbers: dict[bytes, int] = {}
        self.grains: dict[int, set[int]] = {}
        self.pieces = self.members = 0
        self.ticks: Optional[int] = None

    def read(self, fields: list[Field]) -> None:
        """One line more."""
        first = fields[0]
        kind = first.text.decode("latin-1")
        demand(kind in FIELDS, first.column, "UnknownKind")
        demand(self.may_follow(kind), first.column, "Misplaced")
        demand(self.has_room(kind), first.column, "TooMany")
        demand_fields(fields, FIELDS[kind])
        read: Callable[..., None] = getattr(self, f"read_{kind}")
        read(*fields[1:])

    def may_follow(self, kind: str) -> bool:
        """Whether a line of this kind may stand here."""
        if kind in ("piece", "member"):
            return bool(self.document.levels)
        once = {"ticks": self.ticks, "grid": self.document.grid, "energy": self.document.energy}
        return self.ticks is not None if kind == "run" else once.get(kind) is None

    def has_room(self, kind: str) -> bool:
        """Whether there may be one line more of this kind."""
        document = self.document
        counts = {
            "job": (len(document.jobs), MOST_JOBS),
            "point": (len(document.points), MOST_POINTS),
            "slot": (len(document.slots), MOST_OTHERS),
            "run": (len(document.slots), MOST_OTHERS),
            "level": (len(document.levels), MOST_OTHERS),
            "piece": (self.pieces, MOST_OTHERS),
            "member": (self.members, MOST_OTHERS),
        }
        count, most = counts.get(kind, (0, 1))
        return count < most

    def known(self, name: Field) -> int:
        """The number of the job of this name."""
        demand_name(name, MOST_NAME)
        demand(name.text in self.numbers, name.column, "UnknownName")
        return self.numbers[name.text]

    def read_job(self, name: Field, release: Field, deadline: Field, work: Field) -> None:
        """A job, of a new name."""
        demand_name(name, MOST_NAME)
        demand(name.text not in self.numbers, name.column, "DuplicateName")
        job = Job(number(release, 0, MOST_TIME), number(deadline, 0, MOST_TIME), number(work, 0, MOST_WORK))
        demand(job.release < job.deadline, deadline.column, "EmptyWindow")
        self.numbers[name.text] = len(self.document.jobs)
        self.document.names.append(name.text)
        self.document.jobs.append(job)

    def read_point(self, speed: Field, power: Field) -> None:
        """A point, faster than the one before it."""
        points = self.document.points
        point = Point(number(speed, 0, MOST_SPEED), number(power, 0, MOST_POWER))
        if points:
            demand(point.speed > points[-1].speed, speed.column, "NotRising")
        else:
            demand(point.speed == 0, speed.column, "NoIdle")
        demand(gaps_multiple([*points, point]) <= MOST_GAPS, speed.column, "GapsTooFine")
        points.append(point)

    def add_slot(self, slot: Slot, column: int) -> None:
        """A slot, whose work is alike with the earlier works of its job."""
        earlier = self.grains.setdefault(slot.job, set())
        demand(all(are_alike(slot.work.den, other) for other in earlier), column, "MixedGrain")
        earlier.add(slot.work.den)
        self.document.slots.append(slot)

    def read_slot(self, name: Field, begin: Field, end: Field, work: Field) -> None:
        """A slot."""
        job = self.known(name)
        slot = Slot(job, fraction(begin, MOST_TIME), fraction(end, MOST_TIME), fraction(work, MOST_SLOT_WORK))
        demand(are_alike(slot.begin.den, slot.end.den), end.column, "MixedEnds")
        self.add_slot(slot, work.column)

    def read_run(self, name: Field, begin: Field, end: Field, speed: Field) -> None:
        """A run, which is the slot of that speed."""
        ticks = self.ticks or 1
        job = self.known(name)
        ends = number(begin, 0, MOST_TIME * ticks), number(end, 0, MOST_TIME * ticks)
        done = Fraction(number(speed, 0, MOST_RUN_SPEED) * max(0, ends[1] - ends[0]), ticks)
        demand(int(done) <= MOST_SLOT_WORK, speed.column, "OutOfRange")
        begins, ended = (over(Fraction(tick, ticks), ticks) for tick in ends)
        self.add_slot(Slot(job, begins, ended, over(done, ticks)), speed.column)

    def read_level(self, work: Field, length: Field) -> None:
        """A level, which has no pieces and members yet."""
        level = Level(number(work, 1, MOST_LEVEL_WORK), number(length, 1, MOST_LEVEL_LENGTH), [], [])
        self.document.levels.append(level)

    def read_piece(self, begin: Field, end: Field) -> None:
        """A piece of the last level."""
        piece = Piece(number(begin, 0, MOST_TIME), number(end, 0, MOST_TIME))
        self.pieces += 1
        self.document.levels[-1].pieces.append(piece)

    def read_member(self, name: Field) -> None:
        """A member of the last level."""
        job = self.known(name)
        self.members += 1
        self.document.levels[-1].members.append(job)

    def read_ticks(self, ticks: Field) -> None:
        """So many ticks are a unit of time."""
        self.ticks = number(ticks, 1, MOST_TICKS)

    def read_grid(self, grid: Field, rounded: Field) -> None:
        """What a policy's run says of its grid."""
        self.document.grid = number(grid, 1, MOST_GRID), number(rounded, 0, MOST_ROUNDED)

    def read_energy(self, energy: Field) -> None:
        """What a rounded plan says of its energy."""
        self.document.energy = fraction(energy, MOST_ENERGY)


def document_of(data: bytes) -> Document:
    """The document that the bytes are. Raises `Refused` for the first fault."""
    reader = Reader()
    read_all(data, reader.read)
    return reader.document


def read_all(data: bytes, read: Callable[[list[Field]], None]) -> None:
    """Reads each line, and tells the line of the first fault."""
    for line, fields in lines_of(data):
        try:
            read(fields)
        except Refused as refused:
            raise Refused(refused.column, refused.reason, line) from None


# # Tasks


class Task(NamedTuple):
    """A periodic task."""

    name: bytes
    offset: int
    period: int
    deadline: int
    work: int

    def count(self, horizon: int) -> int:
        """How many of its jobs are due by the horizon."""
        left = horizon - self.offset - self.deadline
        return left // self.period + 1 if left >= 0 else 0

    def fills(self, horizon: int) -> bool:
        """Whether its jobs follow one another without a gap from 0 to the horizon."""
        return self.offset == 0 and self.deadline == self.period and horizon % self.period == 0


class TaskReader:
    """Reads tasks. It keeps what the lines said so far."""

    def __init__(self) -> None:
        self.horizon: Optional[int] = None
        self.tasks: list[Task] = []

    def read(self, fields: list[Field]) -> None:
        """One line more."""
        kind = fields[0]
        demand(kind.text in (b"horizon", b"task"), kind.column, "UnknownKind")
        demand((self.horizon is None) == (kind.text == b"horizon"), kind.column, "Misplaced")
        if kind.text == b"horizon":
            demand_fields(fields, 1)
            self.horizon = number(fields[1], 1, MOST_TIME)
        else:
            demand(len(self.tasks) < MOST_TASKS, kind.column, "TooMany")
            demand_fields(fields, 5)
            self.read_task(*fields[1:])

    def read_task(self, name: Field, offset: Field, period: Field, deadline: Field, work: Field) -> None:
        """A task, of a new name."""
        demand_name(name, MOST_TASK_NAME)
        demand(all(task.name != name.text for task in self.tasks), name.column, "DuplicateName")
        times = number(offset, 0, MOST_TIME), number(period, 1, MOST_TIME), number(deadline, 1, MOST_TIME)
        self.tasks.append(Task(name.text, *times, number(work, 0, MOST_WORK)))
        demand(self.count() <= MOST_JOBS, period.column, "TooManyJobs")

    def count(self) -> int:
        """How many jobs all tasks have."""
        return sum(task.count(self.horizon or 0) for task in self.tasks)

    def lines(self) -> Iterator[str]:
        """The lines of `expand`: the jobs, task by task, and their one level."""
        horizon = self.horizon or 0
        for task in self.tasks:
            for k in range(task.count(horizon)):
                release = task.offset + k * task.period
                yield f"job {task.name.decode('ascii')}.{k} {release} {release + task.deadline} {task.work}"
        if any(task.work for task in self.tasks) and all(task.fills(horizon) for task in self.tasks):
            yield f"# one level {sum(task.work * task.count(horizon) for task in self.tasks)} {horizon}"


def tasks_of(data: bytes) -> TaskReader:
    """The tasks that the bytes are. Raises `Refused` for the first fault."""
    reader = TaskReader()
    read_all(data, reader.read)
    return reader
