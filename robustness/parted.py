"""parted.py: the second reading of a trace in parts, as `--parts` and `--cpu all` ask for it, for trace.py, long.py and everywhere.py.

What a part is, which jobs wait, when a part is looked for, where it ends and what a line behind it is refused for stands
in docs/definitions.md ("A trace in parts") and in the definitions that it names. This reading goes through the trace
once, so that traces of 100,000 lines can be read. What second.py looks up in the lines before, it keeps along (`Kept`);
that both say the same shows on the small traces of trace.py, where a trace in one part has the jobs of the whole.
"""

from dataclasses import dataclass, field, replace
from typing import Dict, List, NamedTuple, Optional, Set, Tuple

from second import (
    Asked, Document, Follower, Job, Judged, Line, MOST_PROCESSOR, MOST_TEXT, MOST_TIME, Ordered, Shown, Span, Stretch, Tally, Tasks, Thread, Told, Watch,
    Wrong, as_bytes, begun, in_order, is_asked_for, is_loss, is_missing, is_stamped, judge_jobs, line_fault, milliseconds, ordered, share_of, shown_by,
    silence_of, unseen_task, within,
)


class Limits(NamedTuple):
    """When a part is looked for: behind each line of a multiple of `look`, where more than so many jobs, stretches or spans of other threads wait;
    and how many may wait at most."""

    look: int
    jobs: int
    stretches: int
    others: int
    most_jobs: int
    most_stretches: int
    most_others: int

    def is_much(self, waiting: Tuple[int, int, int]) -> bool:
        """So many wait that a part is to be written."""
        return waiting[0] > self.jobs or waiting[1] > self.stretches or waiting[2] > self.others

    def is_too_much(self, waiting: Tuple[int, int, int]) -> bool:
        """More wait than may."""
        return waiting[0] > self.most_jobs or waiting[1] > self.most_stretches or waiting[2] > self.most_others


FULL = Limits(1_024, 2_000, 25_000, 12_500, 4_000, 50_000, 25_000)
"""Those of the program."""
SMALL = Limits(32, 24, 300, 40, 64, 700, 120)
"""Others, by which a trace of 500 lines has several parts: planted.py and everywhere.py build a program that has these."""

IDLE = MOST_PROCESSOR + 1
"""Stands for all processors on which no task has run."""


class Kept:
    """What lines told, kept along. It answers as `Past` of second.py does, which looks back in them."""

    def __init__(self, asked: Asked) -> None:
        self.asked = asked
        self.first: Optional[int] = None
        self.last = 0
        self.own: Dict[int, int] = {}
        self.since: Dict[int, int] = {}
        self.switches: Dict[int, Line] = {}
        self.speeds: Dict[int, int] = {}
        self.torn = False

    def speed(self, processor: int) -> Optional[int]:
        """A processor's speed."""
        before_all = self.asked.starts.get(processor, self.asked.start)
        return self.speeds.get(processor, self.asked.fixed if self.torn or before_all is None else before_all)

    def switched(self, processor: int) -> Optional[int]:
        """When a processor switched last, since the last loss."""
        return self.switches[processor].time if processor in self.switches else None

    def came_last(self, processor: int) -> Optional[Thread]:
        """Who came to it then."""
        return self.switches[processor].threads[1] if processor in self.switches else None

    def lines_since(self, processor: int, other: int) -> int:
        """The time of a processor's first line behind the last loss."""
        return self.since.get(processor, other)

    def lost_since(self, line: Line) -> int:
        """Since when events were lost, as a line behind them tells."""
        first = self.first or 0
        return first if line.kind == "begin" else self.own.get(line.processor, first)

    def take(self, line: Line) -> None:
        """The next line."""
        if is_stamped(line):
            self.first = line.time if self.first is None else self.first
            self.last = line.time
            self.own[line.processor] = line.time
        if is_loss(line):
            self.switches, self.speeds, self.since, self.torn = {}, {}, {}, True
        elif is_stamped(line):
            self.since.setdefault(line.processor, line.time)
        if line.kind == "switch":
            self.switches[line.processor] = line
        elif line.kind == "speed":
            self.speeds[line.of] = line.khz


@dataclass
class Cut:
    """What was written of a processor: its next part's jobs begin at `boundary` or later, and it was cut behind the time `decided`."""

    boundary: int = 0
    decided: int = 0
    parts: int = 0
    jobs: int = 0
    due: int = 0


class Piece(NamedTuple):
    """What is written of a processor behind a line: nothing where it has no document, and how it is cut then."""

    cut: Cut
    document: Optional[Document] = None
    text: str = ""


@dataclass
class Parts:
    """A trace in parts, as far as it is read: the parts that are written, behind which lines they were, and which processors were cut there.

    Lines are taken in order of time. `number` counts them, and `in_text` is the number in the text of the last one that was taken, or that is. A
    thread `is_back` where the last line tells that it is, behind the end of a job that began before those that wait.

    Of several processors each has a cut of its own. All on which no task has run, but for 0, are cut as one (`idle`): those of
    which no line has told yet, too. So one that comes late is cut as if it had been there from the begin on.
    """

    asked: Asked
    limits: Limits = FULL
    number: int = 0
    in_text: int = 0
    greatest: int = 0
    is_torn: bool = False
    is_back: bool = False
    text: str = ""
    written: List[Document] = field(default_factory=list)
    behind: List[int] = field(default_factory=list)
    moved: Dict[int, Set[int]] = field(default_factory=dict)

    def __post_init__(self) -> None:
        self.lines, self.counted = Kept(self.asked), Kept(self.asked)
        self.tally = Tally()
        self.before: Optional[int] = None
        self.threads: Dict[int, int] = {}
        self.seen: Set[int] = set()
        self.tasks = Tasks(self.asked)
        self.followers = self.tasks.followers
        self.watch = Watch(self.asked)
        self.idle = Cut()
        self.cuts = {self.asked.processor: self.idle}
        self.asked_on: Dict[int, Asked] = {}

    # The processors

    def on(self, processor: int) -> Asked:
        """What is asked for, of this processor."""
        if processor not in self.asked_on:
            self.asked_on[processor] = replace(self.asked, processor=processor)
        return self.asked_on[processor]

    def processors(self) -> List[int]:
        """Those that have documents."""
        return list(range(self.greatest + 1)) if self.asked.everywhere else [self.asked.processor]

    def watched(self) -> List[Cut]:
        """How each processor is cut, and one of which no line tells yet."""
        return [*self.cuts.values(), self.idle] if self.asked.everywhere else list(self.cuts.values())

    def cut_of(self, processor: int) -> Cut:
        """How a processor is cut."""
        return self.cuts.get(processor, self.idle)

    def belongs(self, one: Judged, processor: int) -> bool:
        """Whether a processor's documents have a job: it has run there, or has run nowhere, and this is the first processor."""
        places = {ran.processor for ran in one.job.ran} or {0}
        return not self.asked.everywhere or processor in places

    # A line

    def counts(self, line: Line) -> Optional[Line]:
        """The line as it counts, if it does: up to `to`, or what tells of a loss before it, or of who had a processor until then."""
        end = self.asked.end
        if end is None:
            return line
        if is_loss(line):
            return line if self.lines.lost_since(line) < end else None
        if line.time <= end:
            return line
        if line.kind == "switch" and self.counted.switched(line.processor) is None:
            return Line("switch", line.processor, end, (line.threads[0], line.threads[0]), "GoesOn")
        return None

    def thread_fault(self, thread: Thread) -> Optional[str]:
        """What a thread is refused for."""
        if self.asked.is_two(thread):
            return "tasks"
        task = self.asked.task_of(thread)
        before = None if task is None else self.threads.get(task)
        if before is not None and before != thread.pid:
            return "threads"
        jobs = [] if task is None else self.followers[task].jobs
        if jobs and jobs[-1].exited:
            return "exited"
        return "renamed" if before is None and thread.pid in self.threads.values() else None

    def threads_fault(self, line: Line) -> Optional[str]:
        """What the threads of an event are refused for."""
        if not self.asked.is_up_to(line.time):
            is_first = line.kind == "switch" and self.counted.switched(line.processor) is None
            return self.thread_fault(line.threads[0]) if is_first else None
        if line.time < self.lines.last:
            return "back"
        if line.kind == "speed" and self.asked.fixed is not None and self.asked.fixed != line.khz:
            return "speed"
        found = [self.thread_fault(thread) for thread in line.threads[:1]]
        if line.kind == "switch":
            first, second = line.threads
            mine = self.asked.task_of(first)
            found.append("state" if mine is not None and line.state == "Unknown" else None)
            found.append(self.thread_fault(second))
            found.append("threads" if mine is not None and self.asked.task_of(second) == mine and first.pid != second.pid else None)
            found.append("not woken" if self.tasks.is_unwoken(second) else None)
        return next((fault for fault in found if fault), None)

    def is_lost_within(self, line: Line) -> bool:
        """Whether it tells of a loss within what is asked for."""
        return is_loss(line) and (self.asked.end is None or self.lines.lost_since(line) < self.asked.end)

    def line_cause(self, line: Line) -> Optional[str]:
        """What a line is refused for, in parts or not."""
        if not is_stamped(line):
            return "processor" if is_loss(line) and line.processor > MOST_PROCESSOR else None
        if line.processor > MOST_PROCESSOR or (line.kind == "speed" and line.of > MOST_PROCESSOR):
            return "processor"
        if line.time > MOST_TIME:
            return "time"
        fault = self.threads_fault(line)
        if fault is not None or self.asked.cut:
            return fault
        if self.is_behind_from(line) and (self.is_lost_within(line) or self.is_torn):
            return "lost"
        return "missing" if self.is_behind_from(line) and self.missing(line) is not None else None

    def is_behind_from(self, line: Line) -> bool:
        """Whether an event is behind `from`."""
        return self.asked.begin is None or self.asked.begin < line.time

    def missing(self, line: Line) -> Optional[int]:
        """Since when switches of tasks are missing before it, if some are and it counts."""
        return self.tasks.missing(line, self.counted) if self.asked.is_up_to(line.time) else None

    def part_cause(self, line: Line) -> Optional[str]:
        """It tells of a loss, or of a thread that was there, since a time before a part that was written, or that a job that began before
        hasn't ended, of any processor; or switches are missing before it since such a time. A cut at which nothing is written counts, too."""
        cuts = self.watched()
        since = self.lines.lost_since(line) if is_loss(line) else self.missing(line)
        if since is not None and any(since < cut.decided for cut in cuts):
            return "part written"
        self.is_back = bool(line.threads) and any(self.comes_back(line) < cut.boundary for cut in cuts)
        if self.is_back:
            return "part written"
        if line.kind != "switch" or self.asked.task_of(line.threads[0]) is None or self.counted.switched(line.processor) is not None:
            return None
        return "part written" if any(self.counted.lines_since(line.processor, line.time) < cut.boundary for cut in cuts) else None

    def comes_back(self, line: Line) -> int:
        """When the last job began of a thread that comes behind that job's end, without a wake-up since, or that leaves, or of which a wake-up is
        done, where one was started before that end; the earlier of two, and else no time is so late."""
        if line.starts or self.asked.at_run or not self.asked.is_up_to(line.time):
            return MOST_TIME
        return min(self.back_since(thread, line.kind == "switch" and at == 1) for at, thread in enumerate(line.threads))

    def back_since(self, thread: Thread, comes: bool) -> int:
        """The same of one thread: whether it comes, or a wake-up was started before."""
        task = self.asked.task_of(thread)
        follower = None if task is None else self.followers[task]
        if follower is None or not follower.seen or follower.state() != "ended" or not (comes or follower.started is not None):
            return MOST_TIME
        return follower.jobs[-1].begin

    def take(self, line: Line, in_text: int) -> None:
        """The next line, which has this number in the text."""
        self.in_text = in_text
        cause = self.line_cause(line) or self.part_cause(line)
        if cause is not None:
            raise line_fault(in_text, cause)
        counted = self.counts(line)
        self.tally = self.tally_with(line)
        self.is_torn = not is_stamped(line) and (self.is_torn or self.is_lost_within(line))
        tasks = [self.asked.task_of(thread) for thread in line.threads]
        self.seen.update(task for task in tasks if task is not None)
        if is_stamped(line) or is_loss(line):
            self.greatest = max(self.greatest, line.processor)
        if line.kind == "switch" and (tasks[0] is not None or tasks[1] is not None) and self.asked.everywhere:
            self.cuts.setdefault(line.processor, self.idle)
        if counted is not None:
            self.take_counted(counted)
        self.lines.take(line)
        self.number += 1

    def tally_with(self, line: Line) -> Tally:
        """What the lines lack with the next one, but that they may end here. The last time that is asked for is kept along."""
        tally, came = self.tally, self.lines.came_last(line.processor)
        is_place = self.is_lost_within(line) or self.is_torn or self.missing(line) is not None
        if is_stamped(line) and is_place and self.is_behind_from(line):
            tally = tally._replace(losses=tally.losses + 1)
        if not is_asked_for(line, self.asked):
            return tally
        if line.kind == "switch" and is_missing(line.threads[0], came, self.asked):
            tally = tally._replace(missing=tally.missing + 1)
        if line.kind == "marker":
            tally = tally._replace(markers=tally.markers + 1)
        if self.before is not None and line.time - self.before > tally.longest:
            tally = tally._replace(longest=line.time - self.before, since=self.before)
        self.before = line.time
        return tally

    def tally_here(self) -> Tally:
        """What the lines lack, where they end here."""
        holders = {processor: self.lines.came_last(processor) for processor in self.lines.own}
        silent, silent_since, silent_on = silence_of(self.lines.own, holders, self.shown().end, self.asked)
        return self.tally._replace(losses=self.tally.losses + self.is_torn, silent=silent, silent_since=silent_since, silent_on=silent_on)

    def take_counted(self, line: Line) -> None:
        """The next line that counts."""
        self.tasks.take(line, self.counted)
        self.watch.take(line, self.counted.last, self.followers)
        for thread in line.threads:
            task = self.asked.task_of(thread)
            if task is not None:
                self.threads[task] = thread.pid
        self.counted.take(line)

    # The jobs that wait

    def shown(self) -> Shown:
        """What is asked for and shown."""
        return shown_by(self.lines.last, self.asked, self.lines.first or 0)

    def jobs(self, follower: Follower) -> List[Job]:
        """The jobs of a task, of which one may have a processor now."""
        if follower.on is None:
            return follower.jobs
        processor, _, since = follower.on
        last = follower.jobs[-1]
        stretch = Stretch(processor, since, self.shown().end, self.counted.speed(processor))
        return follower.jobs[:-1] + [replace(last, ran=last.ran + [stretch])]

    def waiting(self, processor: int, cut: Cut) -> List[List[Judged]]:
        """Those of each task that wait, judged on a processor that is cut so."""
        shown, asked = self.shown(), self.on(processor)
        return [judge_jobs(number, self.jobs(follower), shown, asked, cut.boundary) for number, follower in enumerate(self.followers)]

    def others(self, cut: Cut) -> List[Span]:
        """Who else had the processor, of which not all is in the parts before."""
        return [span for span in self.watch.spans(self.shown().end) if span.end > cut.boundary]

    def how_much(self, processor: int, cut: Cut) -> Tuple[int, int, int]:
        """How many jobs wait, how many stretches they have in the documents of this processor, and how many spans of other threads wait."""
        asked = self.on(processor)
        waiting = [job for follower in self.followers for job in self.jobs(follower) if job.begin >= cut.boundary]
        return len(waiting), sum(len((share_of(job, asked) or job).ran) for job in waiting), len(self.others(cut))

    def is_settled(self, one: Judged) -> bool:
        """No line that still comes can change what is said of it."""
        job, shown = one.job, self.shown()
        is_over = {"open": False, "ended": True, "lost": job.at < shown.end and one.due <= shown.end}[job.state]
        return is_over and job.begin + self.asked.tasks[one.task].apart <= self.lines.last

    def place(self, waiting: List[Judged], processor: int) -> Optional[int]:
        """The last begin of a waiting job at which all that begin before are settled and have no run behind it, of which one is written, or,
        of several processors, at which any begins before: and no window of the written ones is open, or else whatever windows are open. Where
        windows count, one that is written here begins before, unless none of all that wait is."""
        has_own = any(self.is_own(one, processor) for one in waiting)
        quiet: Optional[int] = None
        closed: Optional[int] = None
        ended, due, is_done, is_any, is_some = 0, 0, True, False, not has_own
        at = 0
        for one in waiting:
            while waiting[at].job.begin < one.job.begin:
                before = waiting[at]
                at += 1
                is_done = is_done and self.is_settled(before) and (bool(before.reason) or before.job.state == "ended")
                if not before.reason:
                    ended = max(ended, before.job.at)
                is_own = self.is_own(before, processor)
                is_any = is_any or is_own or self.asked.everywhere
                is_some = is_some or is_own
                due = max(due, before.due) if is_own else due
            if is_any and is_done and ended <= one.job.begin:
                quiet = one.job.begin
                closed = quiet if is_some and due <= quiet else closed
        return quiet if closed is None else closed

    def is_own(self, one: Judged, processor: int) -> bool:
        """A job is written in the documents of this processor."""
        return (not one.reason or one.late is not None) and self.belongs(one, processor)

    # A part

    def look(self) -> None:
        """Whether parts are to be written behind this line, and which."""
        found: Dict[int, Piece] = {}
        idle: Optional[Piece] = None
        for processor in self.processors():
            if processor in self.cuts:
                found[processor] = self.piece(processor, self.cuts[processor], True)
            elif idle is None:
                idle = self.piece(processor, self.idle, True)
        if self.asked.everywhere:
            found[IDLE] = idle or self.piece(IDLE, self.idle, False)
        for processor, piece in found.items():
            if piece.cut is not self.cut_of(processor):
                self.moved.setdefault(self.in_text, set()).add(processor)
            self.put(piece)
        self.idle = found.pop(IDLE).cut if self.asked.everywhere else self.idle
        self.cuts = {processor: piece.cut for processor, piece in found.items()}
        if any(piece.document is not None for piece in found.values()):
            self.behind.append(self.in_text)

    def put(self, piece: Piece) -> None:
        """Writes a part."""
        if piece.document is not None:
            self.text += piece.text
            self.written.append(piece.document)

    def piece(self, processor: int, cut: Cut, is_told: bool) -> Piece:
        """What is written of a processor behind this line. One of which no line has told is no fault."""
        waiting = self.how_much(processor, cut)
        if self.limits.is_much(waiting):
            by_task = self.waiting(processor, cut)
            place = self.place(in_order(by_task), processor)
            if place is not None:
                mine = [[one for one in all_of if one.job.begin < place and self.belongs(one, processor)] for all_of in by_task]
                if not any(mine):
                    return Piece(replace(cut, boundary=place, decided=self.lines.last))
                return self.part(processor, cut, mine, place)
        if is_told and self.limits.is_too_much(waiting):
            raise self.no_place(in_order(self.waiting(processor, cut)))
        return Piece(cut)

    def no_place(self, waiting: List[Judged]) -> Wrong:
        """That no part can end: it names the first job that isn't settled."""
        one = next((one for one in waiting if not self.is_settled(one)), waiting[0])
        late = "not known to be late" if one.late is None else f"known to be late by {milliseconds(one.late)} ms"
        begun = f"{one.job.begin // 10**9}.{one.job.begin % 10**9:09d} s"
        return Wrong(f"no part can end, since the processor is never quiet; look at job {one.name}, begun at {begun}, {late}:"
                     " choose --from and --to around it, or leave its task out", 3, "no place")

    def part(self, processor: int, cut: Cut, by_task: List[List[Judged]], until: Optional[int]) -> Piece:
        """A part of a processor with these jobs; without a time it is the last."""
        asked = self.on(processor)
        origin = asked.begin if asked.begin is not None else self.lines.first or 0
        begins = [one.job.begin for one in in_order(by_task)]
        shift = max(begins[0] - origin, 0) // asked.unit if begins else 0
        zero = origin + shift * asked.unit
        document = Document(by_task, zero, asked, tuple(within(self.others(cut), max(cut.boundary, zero), until)), self.tally_here())
        name = f"part {cut.parts + 1} of processor {processor}" if asked.everywhere else f"part {cut.parts + 1}"
        self.check(document, name, asked.everywhere or cut.parts > 0)
        text = self.head(document, processor, cut, shift, until is None) + document.text()
        if len(as_bytes(text)) > MOST_TEXT:
            raise Wrong(f"{name}: the document is longer than 8388608 bytes; choose fewer tasks, or greater units by --us and --khz", 3, "part: text")
        if until is None:
            return Piece(cut, document, text)
        due = max([cut.due, *(one.due for one, _, _, _ in document.rows)])
        return Piece(Cut(until, self.lines.last, cut.parts + 1, cut.jobs + len(document.rows), due), document, text)

    def check(self, document: Document, name: str, may_be_empty: bool) -> None:
        """The first limit that a part passes."""
        try:
            if may_be_empty and not document.rows:
                document.check_jobs()
            else:
                document.check()
        except Wrong as wrong:
            raise Wrong(f"{name}: {wrong.text}", wrong.status, f"part {wrong.kind}") from wrong

    def head(self, document: Document, processor: int, cut: Cut, shift: int, is_last: bool) -> str:
        """The line that says which part it is."""
        rows = document.rows
        first = min((release for _, release, _, _ in rows), default=0)
        last = max((due for _, _, due, _ in rows), default=0)
        of = f", cpu {processor}" if self.asked.everywhere else ""
        windows = ", windows open" if cut.boundary < cut.due else ""
        return (f"# part {cut.parts + 1}: jobs {cut.jobs + 1} to {cut.jobs + len(rows)}, from {shift + first} to {shift + last}, shift {shift}"
                f"{of}{windows}{', the last' if is_last else ''}\n")

    def end(self) -> None:
        """The last part of each processor. At least one document of all has a job."""
        found = [self.last_part(processor, self.cut_of(processor)) for processor in self.processors()]
        documents = [*self.written, *(piece.document for piece in found if piece.document is not None)]
        if self.asked.everywhere and not any(document.rows for document in documents):
            raise Wrong("part 1: no job can be written of any processor; choose one of them by --cpu, and the reason is told", 3, "part document: no job")
        for piece in found:
            self.put(piece)

    def last_part(self, processor: int, cut: Cut) -> Piece:
        """That of a processor."""
        mine = [[one for one in all_of if self.belongs(one, processor)] for all_of in self.waiting(processor, cut)]
        return self.part(processor, cut, mine, None)

    # The whole

    def check_whole(self, lines: int) -> None:
        """What the whole trace of so many lines is refused for."""
        cause: Optional[str] = None
        unseen = [number for number in range(len(self.asked.tasks)) if number not in self.seen]
        if self.lines.first is None:
            cause = "none"
        elif not self.asked.cut and self.is_torn:
            cause = "lost"
        elif unseen:
            cause = unseen_task(unseen[0])
        if cause is not None:
            raise line_fault(self.in_text or lines, cause, "whole")


def read_all(parts: Parts, order: Ordered) -> None:
    """All lines in order of time, and the last part."""
    for one in order.placed:
        parts.take(one.line, one.number)
        if parts.number % parts.limits.look == 0:
            parts.look()
    if order.refused is not None:
        raise order.refused
    parts.check_whole(order.lines)
    parts.end()


def told_in_parts(trace: bytes, asked: Asked, limits: Limits = FULL) -> Tuple[Told, Parts]:
    """What is written of a trace in parts, and what was read of it."""
    order = ordered(trace)
    parts = Parts(asked, limits)
    try:
        parts = Parts(begun(order, asked), limits)
        read_all(parts, order)
    except Wrong as wrong:
        return Told(f"{parts.text}# {wrong.text}\nfailed\n", wrong.status, wrong.kind, None, tuple(parts.written)), parts
    return Told(parts.text, 0, "", None, tuple(parts.written)), parts
