"""Documents, and the answers that are documents themselves."""

from __future__ import annotations

from fractions import Fraction
from functools import cached_property
from itertools import zip_longest
from typing import Any, ClassVar, Dict, Iterable, List, NamedTuple, Optional, Sequence, Tuple, Type, TypeVar, Union

from yds import _draws, _shown, _slots, _spelling
from yds._forms import JOBS, POINTS, SLOTS, TASKS, name, read
from yds._library import Answer, Status, answer, as_bytes
from yds._measured import Measured
from yds._numbers import Decimalish, Units, integer, whole
from yds._powers import Span
from yds.errors import OutOfMemory, Refused, UsageError
from yds.results import Comparison, Curve, Judgement, Refusal, Report, TooSlow, Trial, Verdict
from yds.rows import Job, JobLike, Level, Point, PointLike, Rows, Slot, SlotLike, TaskLike

FINE_GRID = 720720
"""So many parts of a unit of work do the policies count in, where nothing is said: it has all divisors up to 16."""

GRIDS = "a grid is from 1 to 1,000,000"
TOPS = "a top speed is from 1 to 1,000,000"

DecimalRow = Tuple[str, Decimalish, Decimalish, Decimalish]
D = TypeVar("D", bound="Document")
A = TypeVar("A", bound="_Answered")


def _ask(words: Sequence[str], text: bytes, limit: Optional[str] = None) -> Answer:
    """The library's answer, which is a yes or a no; what is neither is raised, with the limit of a number in words."""
    answered = answer(words, text)
    if answered.status is Status.REFUSED:
        raise Refused(answered.text, text)
    if answered.status is Status.MEMORY:
        raise OutOfMemory
    if answered.status not in (Status.DONE, Status.NO):
        raise UsageError(words, limit)
    return answered


class Document(Measured):
    """Jobs for one processor of variable speed, and perhaps its operating points, slots of a schedule, and levels.

    Times, works and speeds are in units of your choice, with work = speed * time. Rows are tuples of these fields:

      jobs    name, release, deadline, work: whole numbers
      points  speed, power: whole numbers, the first of speed 0, at rising speeds
      slots   job, start, end, work: ints or Fractions of any denominators
      levels  Level rows, as those of a plan

    The library reads the document when a command is called. Then a fault raises Refused, with its line in `text`.

    >>> document = Document(jobs=[("a", 0, 12, 4), ("b", 2, 10, 8), ("c", 4, 6, 6)])
    >>> print(document.report(), end="")
    jobs 3 work 18 from 0 to 12
        1          6          2 3
        2          8          6 1+1/3
        3          4          4 1
    idle 0
    """

    _text: bytes
    _written = False

    def __init__(
        self,
        jobs: Iterable[JobLike] = (),
        points: Iterable[PointLike] = (),
        slots: Iterable[SlotLike] = (),
        levels: Iterable[Level] = (),
    ) -> None:
        head = _spelling.joined(_spelling.lines("job", JOBS, jobs), _spelling.lines("point", POINTS, points))
        lines = _slots.spelled(_slots.Columns.of(SLOTS, slots)).lines
        self.__dict__.update(_text=head + lines + _spelling.joined(_spelling.level_lines(levels)), _head=head)

    @classmethod
    def from_text(cls: Type[D], text: Union[bytes, str]) -> D:
        """A document in the form of docs/format.md, as the program reads it. The text is kept as it is.

        >>> Document.from_text("job a 0 4 8\\n").plan().slots
        (Slot(job='a', start=Fraction(0, 1), end=Fraction(4, 1), work=Fraction(8, 1)),)
        """
        return cls._made(text.encode("utf-8") if isinstance(text, str) else as_bytes(text))

    @classmethod
    def from_decimal(
        cls: Type[D],
        jobs: Iterable[DecimalRow],
        points: Iterable[PointLike] = (),
        slots: Iterable[DecimalRow] = (),
        *,
        denominator: int,
        most: Optional[Decimalish] = None,
    ) -> D:
        """A document of times and works that may be decimals: floats, Decimals, or texts.

        They are counted in units of 1/denominator, each rounded to the nearest; half a unit goes to the even number.
        So speeds stay what they are, and the points with them, and energies come in units of 1/denominator too.

        ValueError is raised where a number is below 0, where a work above 0 would come to no unit, and, if most is
        given, where a number is moved by more than that (in units of time and work, as the rows are).

        >>> Document.from_decimal([("frame", 0, 16.667, 3.25)], denominator=1000).jobs
        (Job(name='frame', release=0, deadline=16667, work=3250),)
        """
        units = Units(denominator, most)
        takes = (name, units.time, units.time, units.work)
        return cls(read(JOBS._replace(takes=takes), jobs), points, read(SLOTS._replace(takes=takes), slots))

    @classmethod
    def from_pandas(cls: Type[D], jobs: Any, points: Any = None) -> D:
        """The rows of a DataFrame with the columns name, release, deadline and work.

        The points are those of another, with the columns speed and power. Anything with such columns does, as a dict.
        Columns of one table that differ in length raise ValueError.

        >>> Document.from_pandas({"name": ["a"], "release": [0], "deadline": [4], "work": [8]}).jobs
        (Job(name='a', release=0, deadline=4, work=8),)
        """
        return cls(
            _spelling.rows_of(jobs, "jobs", Job._fields),
            () if points is None else _spelling.rows_of(points, "points", Point._fields),
        )

    @property
    def text(self) -> bytes:
        """The document as the library reads it, or as it wrote it."""
        return self._text

    @cached_property
    def _head(self) -> bytes:
        """The text of the jobs and points alone."""
        return Document(self.jobs, self.points).text

    @cached_property
    def _readable(self) -> bytes:
        """The text, once the library has read it without a fault. What it wrote has none."""
        if not self._written:
            _ask(["audit"], self.text)
        return self.text

    @cached_property
    def jobs(self) -> Tuple[Job, ...]:
        """The jobs in the order of their lines."""
        return _spelling.read_jobs(self._readable)

    @cached_property
    def points(self) -> Tuple[Point, ...]:
        """The operating points, at rising speeds."""
        return _spelling.read_points(self._readable)

    @cached_property
    def slots(self) -> Tuple[Slot, ...]:
        """The slots and runs in the order of their lines."""
        return _slots.own_slots(self._text) if self._written else _slots.read_slots(self._readable)

    @cached_property
    def levels(self) -> Tuple[Level, ...]:
        """The levels of a certificate, in the order of their lines."""
        return _spelling.read_levels(self._readable)

    def replace(
        self,
        jobs: Optional[Iterable[JobLike]] = None,
        points: Optional[Iterable[PointLike]] = None,
        slots: Optional[Iterable[SlotLike]] = None,
        levels: Optional[Iterable[Level]] = None,
    ) -> Document:
        """A document with these rows in place of the document's own, and all its other rows.

        An answer's is a document, and no such answer: its slots needn't fit the new rows. `audit` and `check` say
        whether they do.

        >>> document = Document([("a", 0, 4, 6)], points=[(0, 0), (2, 3)])
        >>> document.round().energy, document.replace(points=[(0, 0), (1, 1), (2, 3)]).round().energy
        (Fraction(9, 1), Fraction(8, 1))
        """
        return Document(
            self.jobs if jobs is None else jobs,
            self.points if points is None else points,
            self.slots if slots is None else slots,
            self.levels if levels is None else levels,
        )

    def __replace__(self, **changes: Any) -> Document:
        """What copy.replace calls, from Python 3.13 on."""
        return self.replace(**changes)

    @property
    def rows(self) -> Rows:
        """All rows. Two documents say the same where these are equal; their texts may still differ.

        >>> half = Document.from_text("job a 0 4 1\\nslot a 0+1/2 4 1")
        >>> quarters = Document.from_text("job a 0 4 1\\nslot a 0+2/4 4 1")
        >>> half == quarters, half.rows == quarters.rows
        (False, True)
        """
        return Rows(self.jobs, self.points, self.slots, self.levels)

    def plan(self) -> Plan:
        """The schedule that does the least work above every speed, with the levels that show it."""
        return Plan._of(_ask(["plan"], self.text))

    def round(self) -> Union[Rounded, TooSlow]:
        """The plan on the document's points, with its energy, the least on these points.

        TooSlow where no schedule stays at or below the top point.

        >>> Document(jobs=[("a", 0, 2, 5)], points=[(0, 1), (2, 9)]).round()
        <TooSlow: work 5 in 2 needs the speed 5/2, the top is 2>
        """
        answered = _ask(["round"], self.text)
        return Rounded._of(answered) if answered.status is Status.DONE else TooSlow.read(answered.text)

    def avr(self, grid: int = FINE_GRID) -> Run:
        """The run of the online policy Average Rate, on works of one part in grid (1 to 1,000,000).

        What the policy does between two event points is rounded up to such parts. Look at the run's `exact` or
        `rounded` before its energy is called the policy's: on a coarse grid it is another's.
        """
        return Run._of(_ask(["avr", "--grid", str(integer(grid, "the grid"))], self.text, GRIDS))

    def oa(self, grid: int = FINE_GRID) -> Run:
        """The run of the online policy Optimal Available, on works of one part in grid (1 to 1,000,000).

        It rounds as `avr` does.

        >>> document = Document(jobs=[("a", 0, 3, 2), ("b", 1, 2, 1)])
        >>> run, coarse = document.oa(), document.oa(grid=1)
        >>> run.slots[1].speed, run.exact
        (Fraction(7, 6), True)
        >>> coarse.slots[1].speed, coarse.rounded
        (Fraction(1, 1), 1)
        """
        return Run._of(_ask(["oa", "--grid", str(integer(grid, "the grid"))], self.text, GRIDS))

    def compare(self, grid: int = FINE_GRID) -> Union[Comparison, TooSlow]:
        """What the plan and the runs of both policies spend on the points; TooSlow as for round.

        The runs are those of `avr` and `oa` on this grid, and each side tells where they rounded.

        >>> document = Document([("a", 0, 3, 2), ("b", 1, 2, 1)], [(0, 0), (1, 1), (2, 3)])
        >>> compared = document.compare()
        >>> compared.plan.energy, compared.avr.energy, compared.oa.energy
        (Fraction(3, 1), Fraction(11, 3), Fraction(10, 3))
        """
        answered = _ask(["compare", "--grid", str(integer(grid, "the grid"))], self.text, GRIDS)
        return Comparison.read(answered.text) if answered.status is Status.DONE else TooSlow.read(answered.text)

    def audit(self, points: bool = False) -> Verdict:
        """Whether the slots give every job its work in its window, one job at a time.

        With points, each slot has to run at the speed of one of the document's points, too.

        >>> verdict = Document(jobs=[("a", 0, 4, 8)], slots=[("a", 0, 5, 8)]).audit()
        >>> verdict.feasible, verdict.cause, verdict.job, verdict.index, verdict.deadline
        (False, 'late', 'a', 0, 4)
        """
        if not isinstance(points, bool):
            raise TypeError(f"points is True or False, and not {points!r}; the document's own points are taken")
        answered = _ask(["audit", "--points"] if points else ["audit"], self.text)
        return Verdict.read(answered.text, self._slots_if(answered))

    def check(self) -> Judgement:
        """Whether the levels show that the slots are least above every speed."""
        answered = _ask(["check"], self.text)
        return Judgement.read(answered.text, self._slots_if(answered), self.levels if answered.status else ())

    def _slots_if(self, answered: Answer) -> Sequence[Slot]:
        """The slots where the answer is no, and may name one."""
        return self.slots if answered.status is Status.NO else ()

    def report(self) -> Report:
        """The plan as a table: each level's work, length and speed."""
        return Report.read(_ask(["report"], self.text).text)

    def curve(self) -> Curve:
        """The least work that any feasible schedule does above each speed."""
        return Curve.read(_ask(["curve"], self.text).text)

    def admit(self, top: int) -> Admission:
        """The jobs that a processor of this top speed (1 to 1,000,000) can serve.

        Each is admitted, in the document's order, where it can be served beside those admitted before it.
        """
        return Admission._of(_ask(["admit", str(integer(top, "the top speed"))], self.text, TOPS))

    @classmethod
    def _made(cls: Type[D], text: bytes, written: bool = False) -> D:
        """The document of this text, which the library wrote, or which it has yet to read."""
        document = cls.__new__(cls)
        document.__dict__.update(_text=text, _written=written)
        return document

    def __setattr__(self, name: str, value: object) -> None:
        raise AttributeError(f"a document doesn't change, and so {name!r} can't be set; {self._changed}")

    def __delattr__(self, name: str) -> None:
        raise AttributeError(f"a document doesn't change, and so {name!r} can't be taken away; {self._changed}")

    _changed: ClassVar[str] = "document.replace(jobs=..) makes another"

    @classmethod
    def _of(cls: Type[D], answered: Answer) -> D:
        """The document that the library wrote."""
        return cls._made(answered.text, written=True)

    def __getstate__(self) -> Dict[str, object]:
        """What is pickled and copied: the text, and not the rows that were read of it."""
        return {"_text": self._text, "_written": self._written}

    def __dask_tokenize__(self) -> Tuple[str, bytes]:
        """What dask keeps results by: equal for equal documents."""
        return type(self).__name__, self._text

    def __str__(self) -> str:
        return self.text.decode("utf-8", "replace")

    def __repr__(self) -> str:
        """One line for a reader; `text` and the rows have all."""
        try:
            return _shown.document(type(self).__name__, self.rows, self._told())
        except Refused as fault:
            return f"<{type(self).__name__}, refused: {fault}>"

    def _told(self) -> List[str]:
        """What an answer tells beside its rows."""
        return []

    def __eq__(self, other: object) -> bool:
        """Whether the texts are the same, byte for byte. Fractions that are spelled otherwise differ: `rows` don't."""
        if not isinstance(other, Document):
            return NotImplemented
        return self.text == other.text

    def __hash__(self) -> int:
        return hash(self.text)


class _Answered(Document):
    """A document that a call answers. Rows and texts from elsewhere make none of it: they needn't fit together."""

    _from: ClassVar[str]

    def __init__(self, *_: object, **__: object) -> None:
        raise TypeError(
            f"{type(self).__name__} is the answer of {self._from}, and isn't made of rows; "
            "Document(..) makes a document of them"
        )

    @classmethod
    def from_text(cls: Type[A], text: Union[bytes, str]) -> A:
        """The answer that was stored as this text. Comments don't count.

        The library answers the text's jobs and points once more. A text that isn't just that answer raises ValueError.
        """
        document = Document.from_text(text)
        own = _spelling.statements(document.text)
        wanted = [_spelling.statements(answer) for answer in cls._again(document)]
        if own not in wanted:
            raise ValueError(
                f"the text isn't the answer of {cls._from} to its own jobs and points: "
                f"{_difference(own, wanted[0])}; Document.from_text(..) makes a document of any text"
            )
        return cls._made(document.text, written=True)

    @classmethod
    def _again(cls, document: Document) -> Sequence[bytes]:
        """The texts that such an answer to the document may have."""
        raise TypeError(
            f"{cls.__name__} tells a part of the answer in comments, which may be lost: "
            f"ask {cls._from} again; Document.from_text(..) reads its jobs and slots"
        )


def _difference(own: List[List[bytes]], wanted: List[List[bytes]]) -> str:
    """The first line in which the two texts differ."""
    for mine, other in zip_longest(own, wanted, fillvalue=[b"nothing"]):
        if mine != other:
            return f"it has {b' '.join(mine).decode()!r} where the answer has {b' '.join(other).decode()!r}"
    return "it has the same lines"


class Plan(_Answered):
    """A document with the slots and levels of its jobs' plan.

    >>> plan = Document(jobs=[("a", 0, 4, 8)]).plan()
    >>> plan.peak, plan.check().accepted
    (Fraction(2, 1), True)
    """

    _from = "document.plan()"
    _by = "hull"

    @property
    def peak(self) -> Fraction:
        """The least constant speed that meets every deadline: that of the first level, or 0."""
        return self.levels[0].speed if self.levels else Fraction(0)

    def _spans(self, start: Optional[int], end: Optional[int]) -> List[Span]:
        """Those of the levels: their slots have one speed each, and lie between all releases and deadlines."""
        named = enumerate(self.levels)
        return [Span(f"levels[{place}]", Fraction(level.work), Fraction(level.length)) for place, level in named]

    def _told(self) -> List[str]:
        return [f"peak {self.peak}"]

    @classmethod
    def _again(cls, document: Document) -> Sequence[bytes]:
        return [document.plan().text]


class Rounded(_Answered):
    """A document with slots that run at its points, and the energy that they take."""

    _from = "document.round()"

    @cached_property
    def energy(self) -> Fraction:
        """The energy from the first release to the last deadline: power times time.

        >>> Document(jobs=[("a", 0, 4, 6)], points=[(0, 0), (1, 1), (2, 3)]).round().energy
        Fraction(8, 1)
        """
        return _spelling.read_fraction(_spelling.line_of(self.text, b"energy")[0])

    def _told(self) -> List[str]:
        return [f"energy {self.energy}"]

    @classmethod
    def _again(cls, document: Document) -> Sequence[bytes]:
        return [document.round().text]


class Run(_Answered):
    """A document with the slots of a policy's run."""

    _from = "document.avr() or document.oa()"
    _by = "hull"

    @property
    def grid(self) -> int:
        """So many parts of a unit of work the policy counts in."""
        return int(_spelling.line_of(self.text, b"grid")[0])

    @property
    def rounded(self) -> int:
        """At how many event points the run rounded up."""
        return int(_spelling.line_of(self.text, b"grid")[1])

    @property
    def exact(self) -> bool:
        """Whether the run is the policy itself: it rounded nowhere."""
        return self.rounded == 0

    def _told(self) -> List[str]:
        return [f"grid {self.grid}", f"rounded {self.rounded}"]

    @classmethod
    def _again(cls, document: Document) -> Sequence[bytes]:
        grid = int(_spelling.line_of(document._readable, b"grid")[0])
        return [document.avr(grid).text, document.oa(grid).text]


class Admission(_Answered):
    """A document of the admitted jobs, with slots at or below the top speed.

    >>> admission = Document(jobs=[("a", 0, 4, 4), ("b", 0, 2, 4), ("c", 1, 3, 1)]).admit(top=2)
    >>> [job.name for job in admission.jobs], admission.refused
    (['a', 'b'], (Refusal(job='c', start=0, end=4, work=9, top=2),))
    """

    _from = "document.admit(top)"

    def _told(self) -> List[str]:
        return [f"{len(self.refused)} refused"]

    @cached_property
    def refused(self) -> Tuple[Refusal, ...]:
        """The other jobs, in their order, each with an interval that can't hold it."""
        lines = (line.split() for line in self.text.decode("ascii").splitlines() if line.startswith("# refuse "))
        return tuple(Refusal(line[2], int(line[4]), int(line[6]), int(line[8]), int(line[10])) for line in lines)


class OneLevel(NamedTuple):
    """The one level that every plan of a set of tasks has: so much work in so much time."""

    work: int
    length: int

    @property
    def speed(self) -> Fraction:
        """Work per unit of time."""
        return Fraction(self.work, self.length)


class Expansion(_Answered):
    """A document of the jobs of periodic tasks."""

    _from = "yds.expand(tasks, horizon)"

    def _told(self) -> List[str]:
        return [f"one level of speed {self.one_level.speed}"] if self.one_level else []

    @cached_property
    def one_level(self) -> Optional[OneLevel]:
        """The level that every plan of these jobs has, where every task fills the horizon; else None."""
        last = self.text.rsplit(b"\n", 2)[-2:-1]
        words = last[0].split() if last else []
        return OneLevel(int(words[3]), int(words[4])) if words[:3] == [b"#", b"one", b"level"] else None


def expand(tasks: Union[bytes, str, Iterable[TaskLike]], horizon: Optional[int] = None) -> Expansion:
    """The jobs of periodic tasks that are due by the horizon.

    tasks are rows of name, offset, period, deadline and work, with a horizon (units of time); or a text in the form
    of docs/format.md, which has its own.

    >>> expansion = expand([("control", 0, 4, 4, 2), ("sensor", 0, 6, 6, 3)], horizon=12)
    >>> len(expansion.jobs), expansion.one_level.speed
    (5, Fraction(1, 1))
    """
    if isinstance(tasks, (str, bytes, bytearray, memoryview)):
        if horizon is not None:
            raise TypeError("a text of tasks has a line of its own for the horizon: write it there, or give rows")
        text = tasks.encode("utf-8") if isinstance(tasks, str) else as_bytes(tasks)
    else:
        if horizon is None:
            raise TypeError("rows of tasks need a horizon: expand(tasks, horizon=12)")
        text = _spelling.joined([f"horizon {whole(horizon)}"], _spelling.lines("task", TASKS, tasks))
    return Expansion._of(_ask(["expand"], text))


def trial(seed: int, jobs: int) -> Trial:
    """Draws so many jobs (at most 1,000) from the seed (at most 4,294,967,295), plans them and checks the plan.

    >>> trial(seed=0, jobs=2).peak
    (53709, 18257)
    """
    words = ["trial", str(integer(seed, "the seed")), str(integer(jobs, "the number of jobs"))]
    limit = "a seed is from 0 to 4,294,967,295, and a trial has at most 1,000 jobs"
    return Trial.read(_ask(words, b"", limit).text)


def draw(
    seed: int,
    jobs: int = 20,
    release: Optional[int] = None,
    window: Optional[int] = None,
    work: Optional[int] = None,
    points: Iterable[PointLike] = (),
) -> Document:
    """A document of so many jobs (at most 4,000), drawn from the seed as `yds-draw` and `trial` draw them.

    A seed (0 to 4,294,967,295) has the same jobs on each machine. Releases are below `release`, windows at most as long
    as `window`, works at most `work`, and each is at least 1; without them they are trial's own. The points are those
    that are given.

    >>> draw(seed=0, jobs=2).jobs[0]
    Job(name='j0', release=154700, deadline=172957, work=53709)
    >>> draw(7, jobs=50, release=200, window=150, work=120).plan().check().accepted
    True
    """
    limits = (
        ("the seed", seed, 0, _draws.MOST_SEED),
        ("the number of jobs", jobs, 0, _draws.MOST_JOBS),
        ("release", release, 1, _draws.LAST_TIME - 1),
        ("window", window, 1, _draws.LAST_TIME),
        ("work", work, 1, _draws.MOST_WORK),
    )
    for what, value, least, most in limits:
        if value is not None and integer(value, what, least) > most:
            raise ValueError(f"{what} is at most {most:,}, and not {value!r}")
    sizes = _draws.Sizes(release, window, work)
    if sizes.last > _draws.LAST_TIME:
        raise ValueError(f"release and window together are above {_draws.LAST_TIME:,}, the last time of a document")
    return Document(_draws.jobs(seed, jobs, sizes), points)
