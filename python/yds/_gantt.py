"""Who runs when, as values: rows with windows, runs, overruns and marks, in the words of the axes."""

from __future__ import annotations

from typing import Dict, List, NamedTuple, Optional, Sequence, Set, Tuple, Union

from yds._comments import IDLE_THREADS
from yds._framed import EDGE, MISSED, SMALL, TEXT, Choice, Frame, Groups, Key, grouped, in_words, shortened_name
from yds._lacking import CLOCK, HOLES, NOT_JUDGED, NOT_WHOLE, SILENT, SWITCHES
from yds._pixels import Columns, Share, Stretch, as_many_as_fit, columns_of, is_narrow, merged, shares, text_width
from yds._scales import Scale, short, span_told, speed_scale, time_scale
from yds._text import Fault, counted
from yds._timeline import LATE, NOT_DONE, Absent, Timeline, Window

MOST_ROWS = 200
MOST_BARS = 5000
WINDOW, OVERRUN, OTHERS = "#e9e9e9", "#f5a623", "#8c8c8c"
LEFT_OUT_ROW, OTHERS_ROW = "left out", "others"
NARROW = "where runs are narrower than a pixel, a bar is as high as the part of its time that ran"


class Bar(NamedTuple):
    """A run, or what ran in a column of pixels: from start to end, so high as `part` of a row, at a speed."""

    row: int
    start: float
    end: float
    part: float
    speed: float


class Mark(NamedTuple):
    """A sign in a row."""

    row: int
    time: float
    is_late: bool = True


class Gantt(NamedTuple):
    """Who runs when. Rows count from 0 at the top; times and speeds are the axes' own."""

    frame: Frame
    rows: List[str]
    windows: List[Stretch]
    overruns: List[Stretch]
    runs: List[Bar]
    """Those at least as wide as a pixel."""
    shares: List[Bar]
    """What the others fill of each column of pixels."""
    deadlines: List[Mark]
    are_near: bool
    misses: List[Mark]
    crosses: List[Mark]
    others: List[Tuple[Bar, str]]
    """Who else ran; the name of a column of pixels is empty."""
    ends: List[str]
    """What stands at the end of each row; empty where nothing was missed."""
    speeds: Tuple[float, float]
    """From pale to dark."""
    ticks: List[float]
    speed_label: str


class _Drawing:
    """The parts of a gantt, as they are found."""

    def __init__(self, document: Timeline, choice: Choice) -> None:
        self.document, self.choice = document, choice
        self.first, self.end = span(document, choice)
        self.groups = _groups(document, choice, self.first, self.end)
        if len(self.groups.names) > MOST_ROWS:
            hint = "; try --group task" if self.groups.kind == "job" else ""
            raise Fault(f"{len(self.groups.names)} rows are more than {MOST_ROWS}{hint}")
        self.missed = [place for place in self.groups.of if document.jobs[place].miss]
        self.absent = [one for one in document.absent if self._is_seen(one)]
        self.has_others = any(start < self.end and end > self.first for _, start, end in document.others)
        self.rows = [shortened_name(name) for name in self.groups.names]
        self.rows += [LEFT_OUT_ROW] * bool(self.absent) + [OTHERS_ROW] * self.has_others
        self.left = int(max(text_width(row, 13) for row in self.rows)) + 22
        self.right = 100 + (62 if self.missed else 0)
        self.columns = columns_of(self.first, self.end, choice.inner(self.left, self.right))

    def _is_seen(self, one: Absent) -> bool:
        return one.window is not None and one.window[0] < self.end and one.window[1] > self.first

    def clipped(self, row: int, start: float, end: float, speed: float = 0.0) -> Optional[Stretch]:
        """The stretch within the picture; None of one beyond."""
        if end <= self.first or start >= self.end:
            return None
        return Stretch(row, max(start, self.first), min(end, self.end), speed)

    def windows(self) -> List[Stretch]:
        """The windows of each row; where they touch or overlap, or a gap couldn't be seen, they are one."""
        jobs = ((row, self.document.jobs[place]) for place, row in self.groups.of.items())
        found = [self.clipped(row, job.release, job.deadline) for row, job in jobs if job.release is not None]
        row = len(self.groups.names)
        found += [self.clipped(row, *one.window) for one in self.absent if one.window]
        return merged([one for one in found if one], self.columns.step / 2)

    def overruns(self) -> List[Stretch]:
        """From a late job's deadline to its end: at least three pixels wide, and of those in the same pixels one."""
        found: Dict[Tuple[int, int, int], Stretch] = {}
        least = self.columns.step * 3
        for place in self.missed:
            job, row = self.document.jobs[place], self.groups.of[place]
            one = self.clipped(row, job.deadline, job.deadline + float(job.late)) if job.late else None
            if one:
                end = min(max(one.end, one.start + least), self.end)
                wide = one._replace(start=min(one.start, end - least), end=end)
                found.setdefault((row, int((wide.start - self.first) / least), int((end - self.first) / least)), wide)
        return list(found.values())

    def bars(self) -> Tuple[List[Stretch], List[Bar]]:
        """The runs that are a pixel or wider, and the columns of the others."""
        wide: List[Stretch] = []
        narrow: List[Stretch] = []
        for run in self.document.runs:
            one = self.clipped(self.groups.of.get(run.row, -1), run.start, run.end, run.speed)
            if one is not None:
                (narrow if is_narrow(one.start, one.end, self.columns) else wide).append(one)
        columns, found = self.columns, shares(narrow, self.columns)
        while len(found) > MOST_BARS and columns.number > 1:
            columns = columns._replace(number=(columns.number + 1) // 2)
            found = shares(narrow, columns)
        return wide, [_bar_of(one, columns) for one in found]

    def deadlines(self) -> List[Mark]:
        """The deadlines within the picture."""
        found = [Mark(row, self.document.jobs[place].deadline) for place, row in self.groups.of.items()]
        known = [self.document.jobs[place].release is not None for place in self.groups.of]
        return [one for one, is_known in zip(found, known) if is_known and self.first <= one.time <= self.end]

    def marks(self, marks: Sequence[Mark]) -> List[Mark]:
        """Those within the picture, of which one is drawn in each pixel of a row."""
        seen: Set[Tuple[int, int, bool]] = set()
        found = []
        for one in marks:
            place = one.row, self.columns.of(one.time), one.is_late
            if self.first <= one.time <= self.end and place not in seen:
                seen.add(place)
                found.append(one)
        return found

    def others(self) -> List[Tuple[Stretch, str]]:
        """Who else ran, by name where that is as wide as a pixel."""
        row = len(self.rows) - 1
        spans = [(self.clipped(row, start, end), name) for name, start, end in self.document.others]
        seen = [(one, name) for one, name in spans if one is not None]
        wide = [(one, name) for one, name in seen if not is_narrow(one.start, one.end, self.columns)]
        narrow = [one for one, _ in seen if is_narrow(one.start, one.end, self.columns)]
        return wide + [(stretch, "") for stretch in _filled(narrow, self.columns)]

    def ends(self) -> List[str]:
        """What stands at the end of each row."""
        found = []
        for row in range(len(self.groups.names)):
            kinds = [self.document.jobs[place].miss for place in self.missed if self.groups.of[place] == row]
            late = kinds.count(LATE)
            word = "late" if late == len(kinds) else "missed" if late else "not done"
            number = f"{len(kinds)} " if self.groups.kind == "task" else ""
            found.append(f"{number}{word}" if kinds else "")
        return found + [""] * (len(self.rows) - len(found))

    def notes(self) -> List[str]:
        """Which jobs missed their deadlines, the latest first; what was left out; and who else ran longest."""
        jobs = [self.document.jobs[place] for place in self.missed]
        undone = [job.name for job in jobs if job.miss == NOT_DONE]
        late = sorted((job for job in jobs if job.miss == LATE), key=lambda job: -(job.late or 0))
        notes = [self._note("not done", undone), self._note("late", [self._told(job) for job in late])]
        lacking = self.document.lacking
        lacks = [f"{lacking.told(HOLES)}: {NOT_JUDGED}" if lacking.told(HOLES) else "", lacking.told(CLOCK), lacking.told(SILENT)]
        return [note for note in [*notes, *self._left_out(), *lacks] if note]

    def _told(self, job: Window) -> str:
        return f"{job.name} {_by(job)}{span_told(self.document.units, job.late)}" if job.late else job.name

    def _note(self, name: str, texts: Sequence[str]) -> str:
        return f"{name}: {as_many_as_fit(texts, self.choice.width - 110, SMALL)}" if texts else ""

    def _left_out(self) -> List[str]:
        document = self.document
        number = len(document.absent) + document.counted
        if not number:
            return []
        unknown = sum(one.window is None for one in document.absent) + document.counted
        beyond = number - unknown - len(self.absent)
        told = [f"left out of the document: {counted(number, 'job', 'jobs')}"]
        told += [f"{unknown} of unknown time"] if unknown else []
        told += [f"{beyond} beyond this time"] if beyond else []
        late = [f"{one.name} {_by(one)}{short(float(one.late))} ms" for one in document.absent if one.late]
        return [", ".join(told), self._note("late of these", late)]

    def longest(self) -> str:
        """Which others ran longest, and for how long."""
        sums: Dict[str, float] = {}
        for name, start, end in self.document.others:
            one = self.clipped(0, start, end)
            if one:
                sums[name] = sums.get(name, 0.0) + one.end - one.start
        longest = sorted(sums, key=lambda name: -sums[name])
        texts = [f"{name} for {time_scale(self.document.units, sums[name]).told(sums[name])}" for name in longest[:3]]
        more = f" and {counted(len(longest) - 3, 'other', 'others')}" if len(longest) > 3 else ""
        return f"others: {as_many_as_fit(texts, self.choice.width - 190, SMALL)}{more}" if texts else ""

    def of_others(self) -> List[str]:
        """Which others ran longest, what their time lacks, and who is taken for idle."""
        document = self.document
        lacks = document.lacking.told(SWITCHES)
        idle = [f"{name} for {time_scale(document.units, time).told(time)}" for name, time in document.idle if time]
        none = [f"{name} (no comment names it)" for name, time in document.idle if not time]
        shown = as_many_as_fit([*none, *idle], self.choice.width - 190, SMALL)
        told = f"{IDLE_THREADS}{shown}" if document.idle else ""
        return [text for text in (self.longest(), lacks and f"{lacks}: {NOT_WHOLE}", told) if text]


def _by(one: Union[Window, Absent]) -> str:
    """What stands between a job's name and how late it was."""
    return "by at least " if one.at_least else "by "


def _filled(narrow: Sequence[Stretch], columns: Columns) -> List[Stretch]:
    """The columns in which narrow stretches lie, as stretches whose speed is the part that they fill."""
    return [
        Stretch(one.row, columns.begin(one.column), columns.begin(one.column + 1), one.part)
        for one in shares(narrow, columns)
    ]


def _bar_of(one: Share, columns: Columns) -> Bar:
    return Bar(one.row, columns.begin(one.column), columns.begin(one.column + 1), max(one.part, 0.16), one.speed)


def span(document: Timeline, choice: Choice, with_lateness: bool = True) -> Tuple[float, float]:
    """From where to where a picture goes: over all runs and windows, or what is asked for."""
    if choice.range is not None:
        return choice.range
    starts = [run.start for run in document.runs] + [job.release for job in document.jobs if job.release is not None]
    ends = [run.end for run in document.runs] + [job.deadline for job in document.jobs if job.release is not None]
    if with_lateness:
        ends += [job.deadline + float(job.late) for job in document.jobs if job.late]
    return min(starts), max(ends)


def _groups(document: Timeline, choice: Choice, first: float, end: float) -> Groups:
    """The rows of the jobs that have a window or a run within the picture."""
    running = {run.row for run in document.runs if run.start < end and run.end > first}
    if not running:
        raise Fault("no slot in this range")
    names = {}
    for place, job in enumerate(document.jobs):
        hidden = job.release is None or job.deadline <= first or job.release >= end
        if choice.range is None or place in running or not hidden:
            names[place] = job.name
    group = choice.group or ("job" if len(document.jobs) <= 12 else "task")
    return grouped(names, group)


def gantt(document: Timeline, choice: Choice) -> Gantt:
    """The picture of a document."""
    drawing = _Drawing(document, choice)
    time = time_scale(document.units, drawing.end)
    speeds, ticks, speed = _speeds(document)
    wide, columns = drawing.bars()
    deadlines, misses = drawing.deadlines(), drawing.marks(_misses(drawing))
    overruns, others = (drawing.overruns(), drawing.others() if drawing.has_others else [])
    row = len(drawing.groups.names)
    crosses = drawing.marks([Mark(row, one.window[0], one.late is not None) for one in drawing.absent if one.window])
    are_near = _are_near(deadlines, choice.inner(drawing.left, drawing.right))
    key = _key(not are_near and bool(deadlines), overruns, misses, others, crosses)
    hints = drawing.of_others()
    hints += [f"{len(deadlines)} deadlines are too near to be drawn"] if are_near else []
    hints += [NARROW] if columns else []
    x = drawing.first * time.factor, drawing.end * time.factor
    frame = Frame(
        f"Who runs when, by {drawing.groups.kind}",
        x,
        (len(drawing.rows) - 0.5, -0.5),
        time.label,
        "",
        key,
        drawing.notes(),
        hints,
        drawing.left,
        drawing.right,
        24,
    )
    told = f"{counted(len(drawing.rows), 'row', 'rows')}: {', '.join(drawing.rows[:40])}"
    return Gantt(
        in_words(frame, told),
        drawing.rows,
        [_scaled(one, time) for one in drawing.windows()],
        [_scaled(one, time) for one in overruns],
        [Bar(one.row, one.start * time.factor, one.end * time.factor, 1.0, one.speed * speed.factor) for one in wide],
        [_scaled_bar(bar, time, speed) for bar in columns],
        [one._replace(time=one.time * time.factor) for one in ([] if are_near else deadlines)],
        are_near,
        [one._replace(time=one.time * time.factor) for one in misses],
        [one._replace(time=one.time * time.factor) for one in crosses],
        [(_other_bar(one, name, time), name) for one, name in others],
        drawing.ends(),
        (speeds[0] * speed.factor, speeds[1] * speed.factor),
        [tick * speed.factor for tick in ticks],
        f"speed ({speed.word})" if speed.word else "speed",
    )


def _misses(drawing: _Drawing) -> List[Mark]:
    return [Mark(drawing.groups.of[place], drawing.document.jobs[place].deadline) for place in drawing.missed]


def _scaled(one: Stretch, time: Scale) -> Stretch:
    return one._replace(start=one.start * time.factor, end=one.end * time.factor)


def _scaled_bar(bar: Bar, time: Scale, speed: Scale) -> Bar:
    return bar._replace(start=bar.start * time.factor, end=bar.end * time.factor, speed=bar.speed * speed.factor)


def _other_bar(one: Stretch, name: str, time: Scale) -> Bar:
    part = 1.0 if name else max(one.speed, 0.16)
    return Bar(one.row, one.start * time.factor, one.end * time.factor, part, 0.0)


def _are_near(deadlines: Sequence[Mark], width: float) -> bool:
    """Whether the deadlines of some row would stand nearer than four pixels."""
    rows = [one.row for one in deadlines]
    return any(rows.count(row) * 4 > width for row in set(rows))


def _key(
    has_deadlines: bool,
    overruns: Sequence[Stretch],
    misses: Sequence[Mark],
    others: Sequence[object],
    crosses: Sequence[Mark],
) -> List[Key]:
    """What the signs mean."""
    key = [Key("box", WINDOW, "window")]
    key += [Key("box", OVERRUN, "late")] if overruns else []
    key += [Key("line", TEXT, "deadline")] if has_deadlines else []
    key += [Key("triangle", MISSED, "missed deadline")] if misses else []
    key += [Key("cross", EDGE, "left out of the document")] if crosses else []
    return key + ([Key("box", OTHERS, "others ran")] if others else [])


def _speeds(document: Timeline) -> Tuple[Tuple[float, float], List[int], Scale]:
    """The colours go by the points, and without points by all speeds of the document: so a speed has one colour,
    whatever part is drawn."""
    points = sorted(speed for speed, _ in document.points)
    above = [speed for speed in points if speed > 0] or points
    greatest = float(above[-1]) if above else max(run.speed for run in document.runs)
    least = float(above[0]) if above else min(run.speed for run in document.runs)
    least = 0.0 if greatest - least < greatest / 1000 else least
    return (
        (least, greatest or 1.0),
        [speed for speed in above if least <= speed <= greatest],
        speed_scale(document.units, greatest),
    )
