"""second.py: the second reading of a kernel's trace, for trace.py, parted.py and the scripts that stand on them.

It takes the words and the trace, and gives the document with each of its lines. It keeps the whole trace in memory, and
looks back in it for each thing that it needs to know. What a line says it takes from lines.py. It shares no code with the
crates; the texts of `--help` and `--version` alone it takes from their source.
"""

import re
from collections import Counter
from dataclasses import dataclass, field, replace
from itertools import islice, takewhile
from pathlib import Path
from typing import Dict, Iterator, List, NamedTuple, Optional, Tuple

from lines import reading

MOST_TIME = 2**63 - 1
MOST_PROCESSOR = 8191
MOST_NUMBER = 4_294_967_295
MOST_WORK, MOST_SPEED, MOST_UNITS = 1_000_000, 1_000_000, 1_000_000_000
MOST_JOBS, MOST_RUNS, MOST_TEXT = 4_000, 100_000, 8_388_608
MOST_NAME, MOST_OTHER_NAME = 64, 64
MOST_PASSED, MOST_STEP_BACK = 64, 1_000_000
MOST_MICROSECONDS, MOST_COUNT = 1_000_000_000, 2**64 - 1
REMEDIES = {
    "before from": "choose an earlier --from",
    "after to": "choose a later --to",
    "not ended": "record longer",
    "events lost": "record with a larger buffer, or choose --from and --to around the loss",
    "a switch is missing": "record the switches of all threads, without a filter",
    "its begin isn't in the trace": "record sched_waking, and longer, or give --begin run",
    "due before it begins": "choose a smaller unit by --us, or leave PERIOD out",
    "ran on another processor": "choose another processor by --cpu, or give --moved parts",
    "frequency not known": "give the speed by --start",
}
"""What to do about each reason for which jobs are left out."""

# # What the words ask for


class Thread(NamedTuple):
    """A thread, as a line tells of it."""

    name: bytes
    pid: int


class Task(NamedTuple):
    """A task: how its jobs are called, the thread's number where that is given, and times in nanoseconds."""

    label: bytes
    pid: Optional[int]
    deadline: int
    apart: int
    period: int = 0


@dataclass
class Asked:
    """What is asked for: of one processor, or of each one in documents of its own (`everywhere`). Times are nanoseconds.

    With `moved` a job that ran on several processors has a share in the documents of each. With `others` it is told who else had that
    processor while a job waited. A time whose word is among `counted` counts from the trace's first line.
    """

    tasks: List[Task] = field(default_factory=list)
    processor: int = 0
    everywhere: bool = False
    unit: int = 10_000
    khz: int = 10_000
    start: Optional[int] = None
    fixed: Optional[int] = None
    starts: Dict[int, int] = field(default_factory=dict)
    begin: Optional[int] = None
    end: Optional[int] = None
    counted: Tuple[str, ...] = ()
    at_run: bool = False
    cut: bool = False
    strict: bool = False
    in_parts: bool = False
    moved: bool = False
    others: Optional[int] = None
    asked_before: Dict[Thread, Optional[int]] = field(default_factory=dict)

    def is_up_to(self, time: int) -> bool:
        """Whether a time isn't after `to`."""
        return self.end is None or time <= self.end

    def task_of(self, thread: Thread) -> Optional[int]:
        """Which task a thread is."""
        if thread not in self.asked_before:
            self.asked_before[thread] = self.task_found(thread)
        return self.asked_before[thread]

    def task_found(self, thread: Thread) -> Optional[int]:
        """The task with its number, or else the one with its name."""
        by_number = [n for n, task in enumerate(self.tasks) if task.pid == thread.pid]
        by_name = [n for n, task in enumerate(self.tasks) if task.pid is None and task.label == thread.name]
        return next(iter(by_number + by_name), None)

    def is_two(self, thread: Thread) -> bool:
        """Whether it is one task by its number and another by its name."""
        by_number = any(task.pid == thread.pid for task in self.tasks)
        return by_number and any(task.pid is None and task.label == thread.name for task in self.tasks)


class Wrong(Exception):
    """Why there is no document: the comment, the status, and what kind of fault it is."""

    def __init__(self, text: str, status: int, kind: str) -> None:
        super().__init__(text)
        self.text, self.status, self.kind = text, status, kind


class Asks(Exception):
    """The words ask for a text of the program's own."""


HELPS = {
    "unknown": "no such word; --help lists them",
    "needless": "it has no value; leave out the equals sign and what is behind it",
    "missing": "its value is missing; write it behind",
    "twice": "given twice; give it once",
    "--cpu": "no number of a processor; write a whole number from 0 to 8191, or all",
    "--us": "no unit of time; write whole microseconds from 1 to 1000000000",
    "--khz": "no speed; write whole kilohertz from 1 to 4294967295",
    "--start": "no speed; write whole kilohertz from 1 to 4294967295",
    "--fixed": "no speed; write whole kilohertz from 1 to 4294967295",
    "fixed and start": "given with --start; give one of both",
    "speed processor": "no number of a processor before the colon; write a whole number from 0 to 8191",
    "speed form": "no colon behind the processor; write CPU:KHZ, with the speed in kilohertz, or one speed for all processors",
    "many speeds": "more than 1000 speeds; list fewer, or give one for all processors",
    "same processor": "another speed is of the same processor; give it once",
    "time": "no time; write seconds to 9223372036.854775807, with at most nine digits behind the point; +2 counts from the first line",
    "order": "not before --to; give an earlier time, or a later one there",
    "--begin": "no way in which jobs begin; write run, or leave it out for jobs that begin at wake-ups",
    "--lost": "no way to go on behind lost events; write cut, or leave it out",
    "--moved": "no way to tell of jobs that moved; write parts, or leave it out",
    "--others": "nothing else is told of other threads; write spans, or leave it out",
    "others of all": "it is told of one processor; give its number with --cpu",
    "none": "missing; write --tasks NAME:DEADLINE, with the deadline in milliseconds",
    "many": "more than 1000 tasks; ask for fewer at a time",
    "form": "no colon behind the name; write NAME:DEADLINE, with the deadline in milliseconds",
    "label": "no name for jobs; it has 1 to 53 visible ASCII characters: for a thread of another name write PID=NAME:DEADLINE",
    "pid": "no number of a thread before the equals sign; write a whole number from 1 to 4294967295, or a backslash before the sign",
    "deadline": "no deadline; write milliseconds to 9223372036854.775807, with at most six digits behind the point",
    "short": "its deadline is less than a unit of time; write a later one, or a smaller unit by --us",
    "apart": "no time behind the second colon; write milliseconds, with at most six digits behind the point",
    "period": "no time above 0 behind the third colon; write milliseconds, with at most six digits behind the point",
    "same label": "another task has the same name; write PID=NAME:DEADLINE with another name",
    "same thread": "another task is the same thread; list it once",
}
VALUES = ("--cpu", "--tasks", "--us", "--khz", "--start", "--fixed", "--from", "--to", "--begin", "--lost", "--moved", "--others")
FLAGS = ("--parts", "--strict", "--help", "--version")


def word_fault(word: str, reason: str, place: Optional[int] = None) -> Wrong:
    """That a word can't be taken."""
    shown = "".join(byte if " " <= byte <= "~" else "?" for byte in word[:64])
    there = "" if place is None else f", {'speed' if word == '--start' else 'task'} {place}"
    return Wrong(f"{shown}{there}: {HELPS[reason]}", 2, f"word: {reason}")


def whole(word: str, text: str, least: int, most: int, reason: str = "", place: Optional[int] = None) -> int:
    """The whole number that a word is set to, or that stands at a place of its list."""
    if not re.fullmatch("0|[1-9][0-9]*", text) or not least <= int(text) <= most:
        raise word_fault(word, reason or word, place)
    return int(text)


def decimal(text: str, places: int, most: int) -> Optional[int]:
    """A decimal as a whole number of its smallest parts, exactly."""
    mark = re.fullmatch(r"(0|[1-9][0-9]*)(?:\.([0-9]{1,%d}))?" % places, text)
    value = int(mark[1] + (mark[2] or "").ljust(places, "0")) if mark else most + 1
    return value if value <= most else None


def parted(text: str, sign: str) -> List[str]:
    """The texts between signs that have no backslash before them. A backslash stays with what it makes a letter."""
    parts, at = [""], 0
    while at < len(text):
        pair = text[at : at + 2]
        if pair[0] == "\\" and pair[1:] in (",", ":", "=", "\\"):
            parts[-1] += pair
            at += 2
            continue
        if pair[0] == sign:
            parts.append("")
        else:
            parts[-1] += pair[0]
        at += 1
    return parts


def plain(text: str) -> str:
    """A text with each sign, and each backslash, without the backslash that makes it a letter."""
    return re.sub(r"\\([,:=\\])", r"\1", text)


def once(text: str, sign: str) -> Tuple[str, Optional[str]]:
    """What stands before the first sign, and what behind it."""
    parts = parted(text, sign)
    return parts[0], sign.join(parts[1:]) if len(parts) > 1 else None


def task_in(text: str, unit: int, place: int) -> Task:
    """One task of the list."""
    name, times = once(text, ":")
    if times is None:
        raise word_fault("--tasks", "form", place)
    number, label = once(name, "=")
    pid: Optional[int] = None
    if label is not None:
        spelled = plain(number)
        if not re.fullmatch("[1-9][0-9]*", spelled) or int(spelled) > MOST_NUMBER:
            raise word_fault("--tasks", "pid", place)
        pid = int(spelled)
    label = plain(name if label is None else label)
    if not re.fullmatch("[!-~]{1,53}", label):
        raise word_fault("--tasks", "label", place)
    first, second = once(times, ":")
    deadline = decimal(plain(first), 6, MOST_TIME)
    if deadline is None:
        raise word_fault("--tasks", "deadline", place)
    if deadline < unit:
        raise word_fault("--tasks", "short", place)
    distance, third = ("", "") if second is None else once(second, ":")
    apart = 0 if second is None or (distance == "" and third is not None) else decimal(plain(distance), 6, MOST_TIME)
    if apart is None:
        raise word_fault("--tasks", "apart", place)
    period = 0 if second is None or third is None else decimal(plain(third), 6, MOST_TIME) or None
    if period is None:
        raise word_fault("--tasks", "period", place)
    return Task(label.encode(), pid, deadline, apart, period)


def tasks_in(text: str, unit: int) -> List[Task]:
    """The tasks of the list."""
    pieces = parted(text, ",")
    if len(pieces) > 1000:
        raise word_fault("--tasks", "many")
    tasks = [task_in(piece, unit, place) for place, piece in enumerate(pieces, 1)]
    for place, task in enumerate(tasks, 1):
        if any(other.label == task.label for other in tasks[place:]):
            raise word_fault("--tasks", "same label", place)
        if task.pid is not None and any(other.pid == task.pid for other in tasks[place:]):
            raise word_fault("--tasks", "same thread", place)
    return tasks


def speeds_in(text: str) -> Dict[int, int]:
    """The speeds before the first change, of each processor that is listed."""
    pieces = parted(text, ",")
    if len(pieces) > 1000:
        raise word_fault("--start", "many speeds")
    found: List[Tuple[int, int]] = []
    for place, piece in enumerate(pieces, 1):
        processor, khz = once(piece, ":")
        if khz is None:
            raise word_fault("--start", "speed form", place)
        number = whole("--start", plain(processor), 0, MOST_PROCESSOR, "speed processor", place)
        found.append((number, whole("--start", plain(khz), 1, MOST_NUMBER, "--start", place)))
    for place, (processor_of_one, _) in enumerate(found, 1):
        if processor_of_one in [other for other, _ in found[place:]]:
            raise word_fault("--start", "same processor", place)
    return dict(found)


def settings(words: List[str]) -> List[Tuple[str, str]]:
    """What is set, in the order of the words. A word that doesn't begin with a hyphen is a file, which sets nothing."""
    found: List[Tuple[str, str]] = []
    rest = list(words)
    while rest:
        word = rest.pop(0)
        if word == "--":
            break
        if not word.startswith("-") or word == "-":
            continue
        name, equals, value = word.partition("=")
        if equals and name not in VALUES:
            raise word_fault(name, "needless" if name in FLAGS else "unknown")
        if not equals and name in VALUES:
            if not rest:
                raise word_fault(name, "missing")
            value = rest.pop(0)
        elif not equals and name not in FLAGS:
            raise word_fault(name, "unknown")
        found.append((name, value))
        if name in ("--help", "--version"):
            break
    return found


def files_in(words: List[str]) -> List[str]:
    """The files that words name which can be taken, in their order."""
    found: List[str] = []
    rest = list(words)
    while rest:
        word = rest.pop(0)
        if word == "--":
            return found + rest
        if word == "-" or not word.startswith("-"):
            found.append(word)
        elif word in VALUES:
            rest = rest[1:]
    return found


def own_text(name: str) -> str:
    """What the program writes for `--help` or `--version`, by its source."""
    source = Path("crates/yds_trace_words/src/texts.rt").read_text(encoding="utf-8")
    mark = re.search(r'const %s: &\[u8\] = b"(?:\\\n)?(.*?)";' % name[2:].upper(), source, re.S)
    assert mark is not None
    return mark[1].replace("\\n", "\n")


def counts_from_first(given: Dict[str, str], word: str) -> bool:
    """Whether the word gives a time that counts from the trace's first line."""
    return given.get(word, "")[:1] == "+"


def time_of(given: Dict[str, str], word: str) -> Optional[int]:
    """The time that the word gives, in nanoseconds."""
    time = decimal(given[word][counts_from_first(given, word) :], 9, MOST_TIME) if word in given else None
    if word in given and time is None:
        raise word_fault(word, "time")
    return time


def asked_by(words: List[str]) -> Asked:
    """What the words ask of a trace."""
    found = settings(words)
    names = [name for name, _ in found]
    for name in ("--help", "--version"):
        if name in names:
            raise Asks(own_text(name))
    for at, name in enumerate(names):
        if name in names[at + 1 :]:
            raise word_fault(name, "twice")
    given = dict(found)
    asked = Asked(strict="--strict" in given, in_parts="--parts" in given)
    if given.get("--cpu") == "all":
        asked.everywhere = asked.in_parts = True
    else:
        asked.processor = whole("--cpu", given.get("--cpu", "0"), 0, MOST_PROCESSOR)
    asked.unit = 1000 * whole("--us", given.get("--us", "10"), 1, 10**9)
    asked.khz = whole("--khz", given.get("--khz", "10000"), 1, MOST_NUMBER)
    if any(len(parted(given.get("--start", ""), sign)) > 1 for sign in ",:"):
        asked.starts = speeds_in(given["--start"])
    elif "--start" in given:
        asked.start = whole("--start", given["--start"], 1, MOST_NUMBER)
    if "--fixed" in given:
        asked.fixed = whole("--fixed", given["--fixed"], 1, MOST_NUMBER)
        if "--start" in given:
            raise word_fault("--fixed", "fixed and start")
    asked.begin, asked.end = (time_of(given, word) for word in ("--from", "--to"))
    asked.counted = tuple(word for word in ("--from", "--to") if counts_from_first(given, word))
    if len(asked.counted) != 1 and asked.begin is not None and asked.end is not None and asked.begin >= asked.end:
        raise word_fault("--from", "order")
    for word, value in (("--begin", "run"), ("--lost", "cut"), ("--moved", "parts"), ("--others", "spans")):
        if given.get(word, value) != value:
            raise word_fault(word, word)
    asked.at_run, asked.cut, asked.moved = "--begin" in given, "--lost" in given, "--moved" in given
    if "--others" in given and asked.everywhere:
        raise word_fault("--others", "others of all")
    asked.others = asked.processor if "--others" in given else None
    if "--tasks" not in given:
        raise word_fault("--tasks", "none")
    asked.tasks = tasks_in(given["--tasks"], asked.unit)
    return asked


# # What the lines say


class Line(NamedTuple):
    """What a line says: `switch`, `wake`, `speed`, `loss`, `marker`, `other`, or, without a stamp, `lost`, `begin` or `nothing`. A wake-up
    starts, or was done."""

    kind: str
    processor: int = 0
    time: int = -1
    threads: Tuple[Thread, ...] = ()
    state: str = ""
    khz: int = 0
    of: int = 0
    starts: bool = False


def threads_in(text: bytes) -> Tuple[Thread, ...]:
    """The threads that lines.py writes so: PID/LENGTH:NAME;"""
    found: List[Thread] = []
    while text:
        mark = re.match(rb"([0-9]+)/([0-9]+):", text)
        assert mark is not None
        end = mark.end() + int(mark[2])
        found.append(Thread(text[mark.end() : end], int(mark[1])))
        text = text[end + 1 :]
    return tuple(found)


def line_of(said: bytes) -> Line:
    """What lines.py says of a line, taken apart."""
    word = said.split(b" ", 4)
    if word[0] == b"lost":
        return Line("begin" if word[2] == b"TheBegin" else "lost", int(word[1]))
    if word[0] != b"event":
        return Line("nothing")
    processor, time, kind = int(word[1]), int(word[2]), word[3].decode()
    if kind == "switch":
        state, threads = word[4].split(b" ", 1)
        return Line(kind, processor, time, threads_in(threads), state.decode())
    if kind in ("waking", "woken"):
        return Line("wake", processor, time, threads_in(word[4]), starts=kind == "waking")
    if kind == "speed":
        of, khz = word[4].split(b" ")
        return Line(kind, processor, time, of=int(of), khz=int(khz))
    return Line(kind if kind in ("loss", "marker") else "other", processor, time)


FORMS = {
    "Processor": "the number of the processor is above 4294967295; leave the line out",
    "Time": "the time has more than nine digits behind the point, or is too great; leave the line out",
    "UnknownSwitch": "a switch in an unknown form, or cut short; leave the line out, or write the trace anew",
    "UnknownWakeUp": "a wake-up in an unknown form, or cut short; leave the line out, or write the trace anew",
    "UnknownSpeed": "a cpu_frequency line in an unknown form, or cut short; leave the line out, or write the trace anew",
    "Long": "the line is longer than 65536 bytes; leave it out",
    "Cut": "the last line is cut short; leave it out, or write the trace anew",
}
CAUSES = {
    "processor": "the number of the processor is above 8191; leave the line out",
    "time": "the time is above 9223372036.854775807 seconds; leave the line out",
    "back": "its time is before that of an earlier line, by more than a millisecond, behind more than 64 lines, or over lost events; sort the lines by their times",
    "lost": "events were lost before it; record with a larger buffer, choose --from and --to around it, or go on by --lost cut",
    "state": "a task leaves in a state that the kernel doesn't have; write the trace anew",
    "threads": "a task's name is that of another thread before; threads are renamed at their start, too: give the number, which stays, by PID=NAME:DEADLINE",
    "tasks": "one thread is two tasks, by its number and by its name; leave one out",
    "exited": "a task's thread was over before, and its number is that of another thread now; choose --from and --to around it",
    "renamed": "a task's thread has another name here, so it isn't followed; give its number, which stays, by PID=NAME:DEADLINE",
    "missing": "a switch of a task is missing before it; record with a larger buffer, or go on by --lost cut",
    "speed": "it tells another speed than --fixed does; leave out --fixed, or give --start",
    "not woken": ("a task comes behind a sleep without a wake-up, twice in one job or before any of it; record sched_waking, sched_wakeup and"
                  " sched_wakeup_new, let jobs begin at their first run by --begin run, or go on by --lost cut"),
    "none": ("no line of a kernel's trace; write it as text, by trace-cmd report or perf script with cpu and time among its fields: a line "
             "has a processor as [001] and a time with a point as 12.345678: before its event's name"),
    "part written": "it changes jobs of a part that was written; choose --from and --to around it",
}


def unseen_task(number: int) -> str:
    """That no line names the thread of this task."""
    return f"no line names task {number + 1} of --tasks; write its name as the trace has it, a * isn't taken; --tasks '?' lists the threads of the trace"


def line_fault(number: int, cause: str, where: str = "line") -> Wrong:
    """That a line can't stand behind those before it, or the whole trace at its last line."""
    kind = cause if cause in CAUSES else "a task unseen"
    return Wrong(f"line {number}: {CAUSES.get(cause, cause)}", 3, f"{where}: {kind}")


# # The lines in order of time


class Placed(NamedTuple):
    """A line that says something, with its number in the text. Where it stays, no line behind it is put before it."""

    number: int
    line: Line
    stays: bool


def later_before(line: Line, past: List[Placed]) -> List[Placed]:
    """The events at the end of these lines that are later than this one, the last one first: all, or one more than may be."""
    own = takewhile(lambda before: is_stamped(line) and not before.stays and line.time < before.line.time, reversed(past))
    return list(islice(own, MOST_PASSED + 1))


def may_pass(line: Line, later: List[Placed]) -> bool:
    """Whether a line is put before these, which are later."""
    return len(later) <= MOST_PASSED and all(before.line.time - line.time <= MOST_STEP_BACK for before in later)


def put(number: int, line: Line, past: List[Placed]) -> None:
    """Puts a line before each event that is later, if it may. Else it stays where it is. A loss without a stamp has no time and stays, too."""
    later = later_before(line, past)
    well = may_pass(line, later)
    past.insert(len(past) - len(later) if well else len(past), Placed(number, line, not well or not is_stamped(line)))


class Ordered(NamedTuple):
    """What a trace's lines say in order of time; how many lines were read; and the first one whose form is refused, if there is one."""

    placed: List[Placed]
    lines: int
    refused: Optional[Wrong]

    def number_at(self, place: int) -> int:
        """The number in the text of the line at this place, counted from 1; of the last line of the text, where there is none."""
        return self.placed[place - 1].number if 0 < place <= len(self.placed) else self.lines


def ordered(trace: bytes) -> Ordered:
    """The lines of a trace in order of time, up to the first whose form is refused."""
    texts = trace.split(b"\n")
    ended = texts[-1] == b""
    if ended:
        texts.pop()
    placed: List[Placed] = []
    for number, text in enumerate(texts, 1):
        said = reading(text[:-1] if text.endswith(b"\r") else text, ended or number < len(texts))
        if said.startswith(b"fault"):
            _, column, reason = said.decode().split(" ")
            return Ordered(placed, number - 1, Wrong(f"line {number}, column {column}: {FORMS[reason]}", 3, f"form: {reason}"))
        line = line_of(said)
        if line.kind != "nothing":
            put(number, line, placed)
    return Ordered(placed, len(texts), None)


# # Looking back. Each takes the lines before some place.


def is_stamped(line: Line) -> bool:
    """Whether it has a stamp."""
    return line.time >= 0


def is_loss(line: Line) -> bool:
    """Whether it tells of lost events."""
    return line.kind in ("loss", "lost", "begin")


def first_time(past: List[Line], other: int = 0) -> int:
    """The time of the first line with a stamp."""
    return next((line.time for line in past if is_stamped(line)), other)


def last_time(past: List[Line]) -> int:
    """The time of the last line with a stamp."""
    return next((line.time for line in reversed(past) if is_stamped(line)), 0)


def lost_since(line: Line, past: List[Line]) -> int:
    """Since when events were lost, as this line behind these tells."""
    own = [before.time for before in past if is_stamped(before) and before.processor == line.processor]
    return own[-1] if own and line.kind != "begin" else first_time(past)


def since_loss(past: List[Line]) -> List[Line]:
    """The lines behind the last loss."""
    at = max((at for at, line in enumerate(past) if is_loss(line)), default=-1)
    return past[at + 1 :]


def last_switch(processor: int, past: List[Line]) -> Optional[Line]:
    """A processor's last switch since the last loss."""
    return next((line for line in reversed(since_loss(past)) if line.kind == "switch" and line.processor == processor), None)


def has_switched(processor: int, past: List[Line]) -> bool:
    """Whether a processor has switched since the last loss."""
    return last_switch(processor, past) is not None


def came_last(processor: int, past: List[Line]) -> Optional[Thread]:
    """Who came to a processor by its last switch since events were lost."""
    switch = last_switch(processor, past)
    return None if switch is None else switch.threads[1]


def speed_of(processor: int, past: List[Line], asked: Asked) -> Optional[int]:
    """A processor's speed behind these lines."""
    whole_part = since_loss(past)
    told = [line.khz for line in whole_part if line.kind == "speed" and line.of == processor]
    if asked.fixed is not None:
        return told[-1] if told else asked.fixed
    before_all = asked.starts.get(processor, asked.start)
    return told[-1] if told else before_all if len(whole_part) == len(past) else None


class Past:
    """The lines before some place, and what is asked of them. It looks back in them each time."""

    def __init__(self, lines: List[Line], asked: Asked) -> None:
        self.lines, self.asked = lines, asked

    def speed(self, processor: int) -> Optional[int]:
        """A processor's speed behind them."""
        return speed_of(processor, self.lines, self.asked)

    def switched(self, processor: int) -> Optional[int]:
        """When a processor switched last, since the last loss."""
        switch = last_switch(processor, self.lines)
        return None if switch is None else switch.time

    def came_last(self, processor: int) -> Optional[Thread]:
        """Who came to it then."""
        return came_last(processor, self.lines)

    def lines_since(self, processor: int, other: int) -> int:
        """The time of a processor's first line behind the last loss."""
        return first_time([line for line in since_loss(self.lines) if line.processor == processor], other)

    def lost_since(self, line: Line) -> int:
        """Since when events were lost, as a line behind them tells."""
        return lost_since(line, self.lines)


def counted(line: Line, lines: List[Line], count: List[Line], asked: Asked) -> Optional[Line]:
    """A line behind these, of which some count, as it counts, if it does: up to `to`, or what tells of a loss before it, or of who had a processor
    until then."""
    end = asked.end
    if end is None:
        return line
    if is_loss(line):
        return line if lost_since(line, lines) < end else None
    if line.time <= end:
        return line
    if line.kind == "switch" and not has_switched(line.processor, count):
        return Line("switch", line.processor, end, (line.threads[0], line.threads[0]), "GoesOn")
    return None


def pid_of(task: int, past: List[Line], asked: Asked) -> Optional[int]:
    """The thread that was this task last."""
    for line in reversed(past):
        for thread in reversed(line.threads):
            if asked.task_of(thread) == task:
                return thread.pid
    return None


# # Faults of the lines


def thread_fault(thread: Thread, past: List[Line], asked: Asked) -> Optional[str]:
    """What a thread is refused for, behind the lines that count."""
    if asked.is_two(thread):
        return "tasks"
    task = asked.task_of(thread)
    before = None if task is None else pid_of(task, past, asked)
    if before is not None and before != thread.pid:
        return "threads"
    left = [line.threads[0] for line in past if line.kind == "switch" and line.state == "Exits"]
    if task is not None and any(asked.task_of(one) == task for one in left):
        return "exited"
    was_one = any(pid_of(number, past, asked) == thread.pid for number in range(len(asked.tasks)))
    return "renamed" if before is None and was_one else None


def threads_fault(line: Line, reading: "Reading") -> Optional[str]:
    """What the threads of an event are refused for."""
    asked, past = reading.asked, reading.count
    if not asked.is_up_to(line.time):
        if line.kind != "switch" or has_switched(line.processor, past):
            return None
        return thread_fault(line.threads[0], past, asked)
    if line.time < last_time(reading.lines):
        return "back"
    if line.kind == "speed":
        return "speed" if asked.fixed is not None and asked.fixed != line.khz else None
    if not line.threads:
        return None
    found = [thread_fault(line.threads[0], past, asked)]
    if line.kind == "switch":
        first, second = line.threads
        mine = asked.task_of(first)
        found.append("state" if mine is not None and line.state == "Unknown" else None)
        found.append(thread_fault(second, past, asked))
        found.append("threads" if mine is not None and asked.task_of(second) == mine and first.pid != second.pid else None)
        found.append("not woken" if reading.tasks.is_unwoken(second) else None)
    return next((fault for fault in found if fault), None)


def just_lost(lines: List[Line], asked: Asked) -> bool:
    """Lines without a stamp, just before, tell of a loss within what is asked for."""
    for at in range(len(lines) - 1, -1, -1):
        if is_stamped(lines[at]):
            return False
        if is_loss(lines[at]) and (asked.end is None or lost_since(lines[at], lines[:at]) < asked.end):
            return True
    return False


def is_place_of_loss(line: Line, lines: List[Line], asked: Asked) -> bool:
    """An event, within what is asked for, before which events were lost."""
    own = line.kind == "loss" and (asked.end is None or lost_since(line, lines) < asked.end)
    return is_stamped(line) and (asked.begin is None or asked.begin < line.time) and (own or just_lost(lines, asked))


def cause_of(line: Line, reading: "Reading") -> Optional[str]:
    """What a line is refused for behind these lines."""
    if not is_stamped(line):
        return "processor" if is_loss(line) and line.processor > MOST_PROCESSOR else None
    if line.processor > MOST_PROCESSOR or (line.kind == "speed" and line.of > MOST_PROCESSOR):
        return "processor"
    if line.time > MOST_TIME:
        return "time"
    fault = threads_fault(line, reading)
    if fault is not None or reading.asked.cut:
        return fault
    if is_place_of_loss(line, reading.lines, reading.asked):
        return "lost"
    return "missing" if reading.is_behind_missing(line) else None


def begun(order: Ordered, asked: Asked) -> Asked:
    """What is asked, in times of the trace's clock."""
    if not asked.counted:
        return asked
    if order.placed and not is_stamped(order.placed[0].line):
        raise Wrong("events were lost before the first one; give --from and --to as times of the trace's clock", 3, "no first line")
    first = order.placed[0].line.time if order.placed else 0
    begin, end = (
        min(first + time, MOST_TIME) if word in asked.counted and time is not None else time
        for word, time in (("--from", asked.begin), ("--to", asked.end))
    )
    return replace(asked, begin=begin, end=end, counted=())


class Reading:
    """Lines of a trace, which stand in order of time: those that count, what is known of the tasks behind them, and before how many, within what is
    asked for, events were lost."""

    def __init__(self, asked: Asked) -> None:
        self.asked = asked
        self.lines: List[Line] = []
        self.count: List[Line] = []
        self.tasks = Tasks(asked)
        self.places = 0

    def past(self) -> "Past":
        """The lines that count."""
        return Past(self.count, self.asked)

    def is_behind_missing(self, line: Line) -> bool:
        """An event, within what is asked for, before which switches of tasks are missing. Behind `to` it may count as one that tells who stayed."""
        own = counted(line, self.lines, self.count, self.asked)
        if own is None or own.kind != "switch" or not (self.asked.begin is None or self.asked.begin < line.time):
            return False
        return self.tasks.missing(own, self.past()) is not None

    def take(self, line: Line) -> None:
        """The next line."""
        self.places += is_place_of_loss(line, self.lines, self.asked) or self.is_behind_missing(line)
        own = counted(line, self.lines, self.count, self.asked)
        if own is not None:
            self.tasks.take(own, self.past())
            self.count.append(own)
        self.lines.append(line)


def read_lines(order: Ordered, asked: Asked) -> Reading:
    """What the lines say, in order of time."""
    reading = Reading(asked)
    for one in order.placed:
        cause = cause_of(one.line, reading)
        if cause is not None:
            raise line_fault(one.number, cause)
        reading.take(one.line)
    if order.refused is not None:
        raise order.refused
    cause = whole_cause(reading.lines, asked)
    if cause is not None:
        raise line_fault(order.number_at(len(reading.lines)), cause, "whole")
    return reading


def whole_cause(lines: List[Line], asked: Asked) -> Optional[str]:
    """What the whole trace is refused for."""
    if not any(is_stamped(line) for line in lines):
        return "none"
    if not asked.cut and just_lost(lines, asked):
        return "lost"
    unseen = [number for number in range(len(asked.tasks)) if pid_of(number, lines, asked) is None]
    return unseen_task(unseen[0]) if unseen else None


# # The jobs of a task


class Stretch(NamedTuple):
    """In which a thread had a processor at one speed."""

    processor: int
    begin: int
    end: int
    khz: Optional[int]


@dataclass
class Job:
    """A job: `state` is open, ended or lost, and `at` when it ended, or was seen last. Its deadline counts from `due_from`. With one that is `exited`
    its thread was over. Where its thread left to sleep and came without a wake-up, `slept` is when it left. With one that is `missing` its
    thread left a processor to which it wasn't seen to come."""

    begin: int
    known: bool
    due_from: int
    state: str = "open"
    at: int = 0
    ran: List[Stretch] = field(default_factory=list)
    wakes: int = 0
    missing: bool = False
    slept: Optional[int] = None
    exited: bool = False
    again: int = 0
    just_apart: bool = False
    raced: str = ""


class Follower:
    """The thread of one task, along the lines that count."""

    def __init__(self, asked: Asked, number: int) -> None:
        self.asked, self.number = asked, number
        self.apart, self.period = asked.tasks[number].apart, asked.tasks[number].period
        self.jobs: List[Job] = []
        self.on: Optional[Tuple[int, int, int]] = None
        self.woken = False
        self.started: Optional[int] = None
        self.seen = False
        self.ever = False

    def state(self) -> str:
        """That of the last job."""
        return self.jobs[-1].state if self.jobs else "lost"

    # How a job begins

    def begin(self, time: int, known: bool) -> None:
        """A job begins, here or before, and is due by that."""
        self.jobs.append(Job(time, known, time))

    def follow(self, time: int, last: Job) -> None:
        """A job begins behind one that has ended. With a period it is due no later than so long behind that one, if that one's begin is known."""
        due_from = min(time, last.due_from + self.period) if self.period and last.known else time
        self.jobs.append(Job(time, True, due_from))

    def stir(self, time: int) -> None:
        """A wake-up, or a first run where jobs begin at one, with no job open."""
        last = self.jobs[-1] if self.state() == "ended" else None
        if last is None:
            self.begin(time, not self.asked.at_run)
            return
        last.just_apart = last.just_apart or time - last.begin == self.apart > 0
        if time - last.begin >= self.apart:
            self.follow(time, last)
        elif last.known:
            last.state = "open"
            last.again += 1
        else:
            self.begin(time, False)

    def wake(self, line: Line) -> None:
        """It is woken: from when that was started, where this is the second half. While it may run, it may come before a sleep, and end that."""
        may_run = self.state() == "open" or not self.seen
        if self.state() == "open":
            self.jobs[-1].wakes += 0 if self.woken else 1
        elif line.starts or self.started is None:
            self.stir(line.time)
        else:
            self.stir(self.started)
            self.jobs[-1].raced = "and both halves tell"
        self.woken, self.ever, self.started = True, True, line.time if line.starts and may_run else None

    def slept_before(self) -> bool:
        """Its thread left to sleep, and no wake-up ended that, nor a sleep before in the same job, or none was ever seen."""
        asleep = self.state() == "ended" and self.seen and self.started is None
        return asleep and (not self.ever or self.jobs[-1].slept is not None)

    def awake(self, time: int) -> None:
        """It comes, or is found to have come."""
        last = self.jobs[-1] if self.state() == "ended" and self.seen else None
        if last is None:
            self.found(time, False)
        elif self.started is not None:
            self.stir(self.started)
            self.jobs[-1].raced = "and one half tells"
        elif self.ever and last.slept is None:
            last.state, last.slept = "open", last.at
        else:
            last.raced = "never woken" if last.slept is None else "twice"
            last.state, last.at = "lost", last.at if last.slept is None else last.slept
            self.begin(time, False)

    def found(self, time: int, known: bool) -> None:
        """It runs here. Where no job is open one begins, here or before."""
        if self.state() != "open":
            self.begin(time, known)

    # Whether switches are missing

    def is_awake(self) -> bool:
        """Its job is open, or it was woken while it went to sleep."""
        return self.state() == "open" or (self.state() == "ended" and self.seen and self.started is not None)

    def is_renamed(self, line: Line, past: "Past") -> bool:
        """It leaves a processor to which it came under a name that is no task's."""
        came = past.came_last(line.processor)
        return came is not None and came.pid == line.threads[0].pid and self.asked.task_of(came) is None

    def was_there(self, line: Line, past: "Past") -> bool:
        """It leaves a processor that hasn't switched, and nothing of it was seen: since the begin, or since a loss."""
        return past.switched(line.processor) is None and not self.seen

    def missing(self, line: Line, past: "Past") -> Optional[int]:
        """Since when a switch of it must be missing before this one, if one must.

        It has this processor and doesn't leave it; or it has another one, and leaves this one or comes to it; or it has none and leaves
        this one, was asleep, and neither was there from the begin on nor came under another name.
        """
        left, came = self.mine(line)
        told_at = past.switched(line.processor)
        told = past.lines_since(line.processor, line.time) if told_at is None else told_at
        if self.on is None:
            may_be = self.asked.at_run or self.is_awake() or self.is_renamed(line, past) or self.was_there(line, past)
            return told if left and not may_be else None
        is_elsewhere = self.on[0] != line.processor and (left or came)
        is_still_here = self.on[0] == line.processor and not left
        return min(self.on[1], told) if is_elsewhere or is_still_here else None

    def tear(self, line: Line, since: int) -> None:
        """Switches of tasks are missing before this one. Where it has another processor it came there, whatever was before."""
        left, came = self.mine(line)
        if self.on is None or left or came or self.on[0] == line.processor:
            self.lose(since)
        elif since < self.on[1]:
            self.lose_jobs(since)
            self.begin(self.on[1], False)
            self.jobs[-1].raced = "elsewhere"

    # Lines

    def mine(self, line: Line) -> Tuple[bool, bool]:
        """Whether it is the one that leaves, or is woken, and the one that comes."""
        own = [self.asked.task_of(thread) == self.number for thread in line.threads]
        return (own + [False, False])[0], (own + [False, False])[1]

    def leave(self, line: Line, past: "Past", torn: bool) -> None:
        """It leaves a processor. It is `torn` where switches of tasks are missing before."""
        khz = past.speed(line.processor)
        if self.on is not None:
            self.jobs[-1].ran.append(Stretch(line.processor, self.on[2], line.time, khz))
        elif self.is_renamed(line, past):
            if self.state() != "open":
                self.begin(line.time, True)
                self.jobs[-1].raced = "renamed"
        elif not torn and self.was_there(line, past):
            since = past.lines_since(line.processor, line.time)
            self.found(since, False)
            if since < self.jobs[-1].begin:
                self.jobs[-1].begin, self.jobs[-1].known, self.jobs[-1].due_from = since, False, since
            self.jobs[-1].ran.append(Stretch(line.processor, since, line.time, khz))
        else:
            if self.asked.at_run:
                self.found(line.time, False)
            else:
                self.awake(line.time)
            self.jobs[-1].missing = True
        if line.state in ("Sleeps", "Exits"):
            self.jobs[-1].state, self.jobs[-1].at, self.jobs[-1].exited = "ended", line.time, line.state == "Exits"
        self.started = self.started if line.state == "Sleeps" else None
        self.on, self.woken, self.seen = None, False, True

    def come(self, line: Line) -> None:
        """It comes to a processor."""
        if not self.asked.at_run:
            self.awake(line.time)
        elif self.state() != "open":
            self.stir(line.time)
        self.on, self.woken, self.started, self.seen = (line.processor, line.time, line.time), False, None, True

    def cut(self, time: int, khz: Optional[int]) -> None:
        """Up to here it ran at this speed."""
        if self.on is not None:
            self.jobs[-1].ran.append(Stretch(self.on[0], self.on[2], time, khz))
            self.on = (self.on[0], self.on[1], time)

    def lose_jobs(self, since: int) -> None:
        """Of a job that was open then no end is known. One that went on behind a sleep may have been woken there, if that was lost."""
        for job in self.jobs:
            if job.state == "lost":
                job.at = min(job.at, since)
            elif job.state == "open" or job.at > since:
                job.state, job.at = "lost", since if job.slept is None else min(since, job.slept)

    def lose(self, since: int) -> None:
        """Events were lost."""
        self.lose_jobs(since)
        self.on, self.woken, self.started, self.seen, self.ever = None, False, None, False, False

    def take(self, line: Line, past: "Past", missing: Optional[int]) -> None:
        """The next line, behind these; since when switches of tasks are missing before it, if some are."""
        left, came = self.mine(line)
        if is_loss(line):
            self.lose(past.lost_since(line))
        elif line.kind == "speed" and self.on is not None and self.on[0] == line.of:
            self.cut(line.time, past.speed(line.of))
        elif line.kind == "wake" and left and not self.asked.at_run:
            self.wake(line)
        elif line.kind == "switch":
            if missing is not None:
                self.tear(line, missing)
            if left:
                self.leave(line, past, missing is not None)
            if came:
                self.come(line)


class Tasks:
    """The threads of all tasks, along the lines that count."""

    def __init__(self, asked: Asked) -> None:
        self.asked = asked
        self.followers = [Follower(asked, number) for number in range(len(asked.tasks))]

    def missing(self, line: Line, past: "Past") -> Optional[int]:
        """Since when switches of theirs are missing before this line, if some are."""
        if line.kind != "switch":
            return None
        since = [follower.missing(line, past) for follower in self.followers]
        return min((time for time in since if time is not None), default=None)

    def is_unwoken(self, thread: Thread) -> bool:
        """Whether a thread that comes now left to sleep, and no wake-up ended that, for the second time in its job, or none was ever seen; where
        that is asked for."""
        task = self.asked.task_of(thread)
        return task is not None and not self.asked.cut and not self.asked.at_run and self.followers[task].slept_before()

    def take(self, line: Line, past: "Past") -> None:
        """The next line."""
        missing = self.missing(line, past)
        for follower in self.followers:
            follower.take(line, past, missing)


def jobs_of(number: int, reading: Reading) -> List[Job]:
    """The jobs of a task. What still has a processor has had it until the end."""
    follower = reading.tasks.followers[number]
    if follower.on is not None:
        follower.cut(shown_by(last_time(reading.lines), reading.asked).end, reading.past().speed(follower.on[0]))
    return follower.jobs


# # Who else had the processor


class Span(NamedTuple):
    """A thread that had the processor for a time, while a job waited."""

    name: bytes
    pid: int
    begin: int
    end: int


class Watch:
    """Who is in the way on the processor that `--others` asks for, along the lines that count.

    That is who has it by its last switch since events were lost, where that is no listed task and not the idle thread, and a job waits: it
    is open, and its thread has no processor. A span goes on while the same number is in the way.
    """

    def __init__(self, asked: Asked) -> None:
        self.asked = asked
        self.holder: Optional[Thread] = None
        self.going: Optional[Span] = None
        self.ended: List[Span] = []

    def take(self, line: Line, last: int, followers: List[Follower]) -> None:
        """The next line, behind one of this time. The threads of the tasks are known behind it."""
        if self.asked.others is None or line.kind == "nothing":
            return
        if is_loss(line):
            self.holder = None
        elif line.kind == "switch" and line.processor == self.asked.others:
            self.holder = line.threads[1]
        waits = any(follower.on is None and follower.state() == "open" for follower in followers)
        self.turn(line.time if is_stamped(line) else last, self.in_the_way() if waits else None)

    def in_the_way(self) -> Optional[Thread]:
        """Who has the processor, where that is no listed task and not the idle thread."""
        holder = self.holder
        return None if holder is None or holder.pid == 0 or self.asked.task_of(holder) is not None else holder

    def turn(self, time: int, now: Optional[Thread]) -> None:
        """From this time on this thread is in the way."""
        if (None if now is None else now.pid) != (None if self.going is None else self.going.pid):
            self.ended = self.spans(time)
            self.going = None if now is None else Span(now.name[:MOST_OTHER_NAME], now.pid, time, time)

    def spans(self, time: int) -> List[Span]:
        """All up to this time, in order."""
        goes_on = self.going is not None and self.going.begin < time
        return self.ended + [self.going._replace(end=time)] if self.going is not None and goes_on else self.ended


def spans_of(reading: Reading) -> List[Span]:
    """Who else had the processor, by all lines of a trace."""
    asked, count = reading.asked, reading.count
    tasks, watch = Tasks(asked), Watch(asked)
    for at, line in enumerate(count if asked.others is not None else []):
        tasks.take(line, Past(count[:at], asked))
        watch.take(line, last_time(count[:at]), tasks.followers)
    return watch.spans(shown_by(last_time(reading.lines), asked).end)


def within(spans: List[Span], begin: int, end: Optional[int] = None) -> List[Span]:
    """What of spans lies between two times, or behind the first."""
    cut = [span._replace(begin=max(begin, span.begin), end=span.end if end is None else min(end, span.end)) for span in spans]
    return [span for span in cut if span.begin < span.end]


# # What becomes of the jobs


@dataclass
class Judged:
    """A job, its task and name, when it is due, by how much it is late, whether that isn't known, and why it doesn't stand as it is.

    Where it is a share of a job that moved, `part` is the processor. Then its stretches are those on it.
    """

    task: int
    name: str
    job: Job
    due: int
    late: Optional[int]
    unsure: bool
    reason: str
    part: Optional[int] = None
    runs: List[List[int]] = field(default_factory=list)

    @property
    def called(self) -> str:
        """How a document calls it."""
        return self.name if self.part is None else f"{self.name}@{self.part}"


class Shown(NamedTuple):
    """The first time that is shown, the end of what is asked for and shown, and whether the trace goes on to `to`."""

    first: int
    end: int
    to_its_end: bool


def shown_by(last: int, asked: Asked, first: int = 0) -> Shown:
    """The same of a trace whose last line has this time, and the first one that."""
    if asked.end is None:
        return Shown(first, last, False)
    return Shown(first, min(asked.end, last), last >= asked.end)


def late_by(job: Job, due: int, end: int, asked: Asked) -> Optional[int]:
    """By how much a job is known to be late, where what is asked for and shown ends there."""
    shown = {"open": end, "ended": job.at}.get(job.state, min(job.at, end))
    if due > end or (asked.begin is not None and shown <= asked.begin):
        return None
    return shown - due if shown > due or (shown == due and job.state != "ended") else None


def is_unsure(job: Job, deadline: int, late: Optional[int], shown: Shown, asked: Asked) -> bool:
    """Whether the lines don't tell if a job is late, where they are to. Its earliest deadline is in what is shown, and it isn't known to be over by then."""
    if asked.cut or late is not None or (asked.begin is not None and job.begin < asked.begin):
        return False
    earliest = job.due_from if job.known or asked.at_run else max(shown.first, asked.begin or 0)
    return earliest + deadline <= shown.end and not (job.state == "ended" and job.at <= earliest + deadline)


def reason_of(job: Job, due: int, late: Optional[int], shown: Shown, asked: Asked) -> str:
    """Why a job doesn't stand as it is: the first of these."""
    end = shown.end
    unended = "after to" if shown.to_its_end else "not ended"
    reasons = [
        ("before from", asked.begin is not None and job.begin < asked.begin),
        ("events lost", job.state == "lost" and job.at < end),
        ("a switch is missing", job.missing),
        (unended, job.state != "ended" and late is None),
        ("its begin isn't in the trace", not job.known),
        ("due before it begins", due < job.begin + asked.unit),
        ("ran on another processor", any(ran.processor != asked.processor for ran in job.ran)),
        ("frequency not known", any(ran.begin < ran.end and ran.khz is None for ran in job.ran)),
    ]
    return next((reason for reason, holds in reasons if holds), "")


def share_of(job: Job, asked: Asked) -> Optional[Job]:
    """Of a job that ran on the processor and on another one, what it ran on the processor, where that is asked for."""
    own = [ran for ran in job.ran if ran.processor == asked.processor]
    return replace(job, ran=own) if asked.moved and own and len(own) < len(job.ran) else None


def judge_jobs(number: int, jobs: List[Job], shown: Shown, asked: Asked, since: int = 0) -> List[Judged]:
    """What becomes of the jobs of a task, of those that begin at this time or after it."""
    task = asked.tasks[number]
    before = bool(jobs) and not jobs[0].known
    found: List[Judged] = []
    for place, whole_job in enumerate(jobs):
        if whole_job.begin >= since:
            share = share_of(whole_job, asked)
            job, part = (whole_job, None) if share is None else (share, asked.processor)
            last = "before" if before and place == 0 else str(place - int(before))
            due = job.due_from + task.deadline
            late = late_by(job, due, shown.end, asked)
            unsure = is_unsure(job, task.deadline, late, shown, asked)
            found.append(Judged(number, f"{task.label.decode()}.{last}", job, due, late, unsure, reason_of(job, due, late, shown, asked), part))
    return found


def judge(reading: Reading) -> List[List[Judged]]:
    """The jobs of each task."""
    asked = reading.asked
    shown = shown_by(last_time(reading.lines), asked, first_time(reading.lines))
    return [judge_jobs(number, jobs_of(number, reading), shown, asked) for number in range(len(asked.tasks))]


def in_order(by_task: List[List[Judged]]) -> List[Judged]:
    """The jobs of all tasks, in order of begin."""
    return sorted((one for mine in by_task for one in mine), key=lambda one: one.job.begin)


def zero_of(by_task: List[List[Judged]], lines: List[Line], asked: Asked) -> int:
    """The time 0 of the document of a whole trace."""
    standing = [one.job.begin for mine in by_task for one in mine if not one.reason]
    return asked.begin if asked.begin is not None else min(standing, default=first_time(lines))


# # The text


def as_text(name: bytes) -> str:
    """Bytes in a text. They need not be letters."""
    return name.decode("utf-8", "surrogateescape")


def as_bytes(text: str) -> bytes:
    """The bytes of a text."""
    return text.encode("utf-8", "surrogateescape")


def milliseconds(time: int) -> str:
    """Nanoseconds in milliseconds, exactly."""
    return f"{time // 10**6}.{time % 10**6:06d}"


def seconds(time: int) -> str:
    """Nanoseconds in seconds, exactly."""
    return f"{time // 10**9}.{time % 10**9:09d}"


class Tally(NamedTuple):
    """What a trace lacks: places where events were lost, switches of other threads that are missing, lines that programs wrote, the longest time
    between two lines with a stamp, with its begin, and how long which processor tells nothing at the end, and since when."""

    losses: int = 0
    missing: int = 0
    markers: int = 0
    longest: int = 0
    since: int = 0
    silent: int = 0
    silent_since: int = 0
    silent_on: int = 0

    def lines(self, in_parts: bool) -> Iterator[str]:
        """The comments. In parts more may follow."""
        here = ", up to here" if in_parts else ""
        whats = ("places where events were lost", "switches of other threads that are missing", "lines that programs wrote into the trace")
        for what, number in zip(whats, self):
            if number:
                yield f"# {what}{here}: {number}"
        before = "up to here, " if in_parts else ""
        if self.longest > 10**9:
            yield f"# {before}no line for {seconds(self.longest)} s, from {seconds(self.since)} s on: did the clock jump?"
        if self.silent > 10**9:
            to_the_end = "" if in_parts else " to the end"
            yield (f"# {before}no line of CPU {self.silent_on} for {seconds(self.silent)} s, from {seconds(self.silent_since)} s on{to_the_end}:"
                   " what it did then isn't known")


def is_asked_for(line: Line, asked: Asked) -> bool:
    """Whether it has a stamp, from `from` to `to`."""
    return is_stamped(line) and (asked.begin is None or asked.begin <= line.time) and (asked.end is None or line.time <= asked.end)


def is_missing(left: Thread, came: Optional[Thread], asked: Asked) -> bool:
    """Whether who leaves isn't who came last, and neither is a task."""
    return came is not None and came.pid != left.pid and asked.task_of(came) is None and asked.task_of(left) is None


def silence_of(last_lines: Dict[int, int], holders: Dict[int, Optional[Thread]], end: int, asked: Asked) -> Tuple[int, int, int]:
    """How long a processor told nothing at the end of what is asked for, since when, and which: the first of those that were silent longest. One that
    was left idle isn't silent."""
    idle = [processor for processor, thread in holders.items() if thread is not None and thread.pid == 0 and asked.task_of(thread) is None]
    told = [(end - last, last, processor) for processor, last in sorted(last_lines.items()) if processor not in idle and last < end]
    return max(told, key=lambda one: one[0], default=(0, 0, 0))


def tally_of(reading: Reading) -> Tally:
    """What these lines lack."""
    lines, asked = reading.lines, reading.asked
    losses = reading.places + just_lost(lines, asked)
    own = [(at, line) for at, line in enumerate(lines) if is_asked_for(line, asked)]
    missing = sum(is_missing(line.threads[0], came_last(line.processor, lines[:at]), asked) for at, line in own if line.kind == "switch")
    markers = sum(line.kind == "marker" for _, line in own)
    pauses = [(after.time - before.time, before.time) for (_, before), (_, after) in zip(own, own[1:])]
    longest, since = max(pauses, key=lambda pause: pause[0], default=(0, 0))
    last_lines = {line.processor: line.time for line in lines if is_stamped(line)}
    holders = {processor: came_last(processor, lines) for processor in last_lines}
    silence = silence_of(last_lines, holders, shown_by(last_time(lines), asked).end, asked)
    return Tally(losses, missing, markers, longest, since, *silence)


class Document:
    """A document of these jobs, each judged, with this time 0, who else had the processor, and what the trace lacks."""

    def __init__(self, by_task: List[List[Judged]], zero: int, asked: Asked, others: Tuple[Span, ...] = (), tally: Tally = Tally()) -> None:
        self.asked, self.by_task, self.zero, self.others, self.tally = asked, by_task, zero, others, tally
        self.judged = in_order(by_task)
        self.rows: List[Tuple[Judged, int, int, int]] = []
        for one in self.judged:
            self.place(one)

    def units(self, time: int) -> int:
        """A time in units, rounded down; none is before time 0."""
        return max(time - self.zero, 0) // self.asked.unit

    def signed(self, time: int) -> int:
        """The same, also before time 0."""
        return (time - self.zero) // self.asked.unit

    def speed(self, khz: int) -> int:
        """A speed in units, to the nearest."""
        return (2 * khz + self.asked.khz) // (2 * self.asked.khz)

    def ended(self, one: Judged) -> int:
        """The unit in which a job ended."""
        return self.units(one.job.at) if one.job.state == "ended" else 0

    def place(self, one: Judged) -> None:
        """The rows of a job, if it is written."""
        due = self.units(one.due)
        for ran in one.job.ran:
            begin, end, speed = self.units(ran.begin), self.units(ran.end), self.speed(ran.khz or 0)
            if begin < end and one.runs and one.runs[-1][1:] == [begin, speed]:
                one.runs[-1][1] = end
            elif begin < end:
                one.runs.append([begin, end, speed])
        if one.reason and one.late is not None:
            release = self.units(one.job.begin) if one.job.known else 0
            self.rows.append((one, release, max(release + 1, due), 1))
        elif not one.reason:
            work = sum(speed * (end - begin) for begin, end, speed in one.runs)
            self.rows.append((one, self.units(one.job.begin), due, work + int(self.is_hidden(one))))

    def is_hidden(self, one: Judged) -> bool:
        """Whether a job is late, and its runs don't show it."""
        due = self.units(one.due)
        shown = one.job.state == "ended" and (self.ended(one) <= due or self.shown_end(one) > due)
        return one.late is not None and not shown

    def shown_end(self, one: Judged) -> int:
        """The end of its last run."""
        return one.runs[-1][1] if one.runs else 0

    def check_size(self) -> None:
        """Whether it has too many jobs or runs."""
        if len(self.rows) > MOST_JOBS:
            raise Wrong("more than 4000 jobs; choose a shorter time by --from and --to", 3, "document: jobs")
        if sum(len(one.runs) for one, _, _, _ in self.rows if not one.reason) > MOST_RUNS:
            raise Wrong("more than 100000 runs; choose a shorter time by --from and --to, or a greater unit by --us", 3, "document: runs")

    def check(self) -> None:
        """The first limit that it passes."""
        self.check_size()
        self.check_rows()
        if not self.rows:
            raise Wrong(self.why_no_job(), 3, "document: no job")
        self.check_jobs()

    def why_no_job(self) -> str:
        """The reason that most jobs have, and of several that of the job that began first."""
        counts = Counter(one.reason for one in self.judged)
        if not counts:
            return "no job of the tasks is found; choose a later --to, or record longer"
        reason = max(counts, key=lambda it: counts[it])
        return f"no job can be written: {counts[reason]} of {len(self.judged)} left out ({reason}); {REMEDIES[reason]}"

    def heavy(self, place: int, work: int) -> str:
        """That a job's work is too great, and units that serve for the greatest work of all."""
        greatest = min(MOST_COUNT, max(row[3] for row in self.rows))
        us = min(MOST_COUNT, self.asked.unit // 1000 * ((greatest - 1) // MOST_WORK + 1))
        units = f"give --us {us} and keep --khz, here and for yds-points: then it is the job line of that number"
        if us > MOST_MICROSECONDS:
            units = "choose greater units by --us and --khz, and the points in the same --khz"
        return f"written job {place}: its work is {min(MOST_COUNT, work)}, above 1000000; {units}"

    def check_rows(self) -> None:
        """The first job or run that passes a limit."""
        runs = {one.name: one.runs for one, _, _, _ in self.rows if not one.reason}
        for place, (one, _, _, _) in enumerate(self.rows, 1):
            if len(one.called) > MOST_NAME:
                raise Wrong(f"written job {place}: its name is longer than 64 bytes; choose a shorter time by --from and --to", 3, "document: name")
        for place, (one, _, due, _) in enumerate(self.rows, 1):
            if due > MOST_UNITS or any(end > MOST_UNITS for _, end, _ in runs.get(one.name, [])):
                raise Wrong(f"written job {place}: its times are above 1000000000 units; choose a greater unit by --us, or a later --from", 3, "document: times")
        for place, (one, _, _, work) in enumerate(self.rows, 1):
            if work > MOST_WORK:
                raise Wrong(self.heavy(place, work), 3, "document: work")
        for place, one in enumerate(self.judged, 1):
            if not one.reason and any(self.is_coarse(ran) for ran in one.job.ran):
                raise Wrong(f"found job {place}: it ran at a speed that is 0, or off by more than a twentieth in its unit;"
                            " choose a smaller unit by --khz", 3, "document: coarse speed")
        for place, one in enumerate(self.judged, 1):
            if not one.reason and any(self.is_in_run(ran) and self.speed(ran.khz or 0) > MOST_SPEED for ran in one.job.ran):
                raise Wrong(f"found job {place}: it ran at a speed above 1000000 units; choose a greater unit by --khz", 3, "document: great speed")

    def check_jobs(self) -> None:
        """The first job of which it isn't known whether it is late; and with `--strict` the first that doesn't stand."""
        for place, one in enumerate(self.judged, 1):
            if one.unsure:
                reason = one.reason or "its end isn't in the trace"
                remedy = REMEDIES.get(reason, "record longer")
                raise Wrong(f"found job {place}: it isn't known whether {one.called} is late ({reason}); {remedy}", 3, "document: unsure")
        for place, one in enumerate(self.judged, 1):
            missed = one.late is not None or one.reason not in ("before from", "after to") if one.reason else one.job.exited
            if self.asked.strict and missed:
                raise Wrong(f"found job {place}: it doesn't stand as it is, or its thread was over with it, and --strict is given; leave that"
                            " out, or choose --from and --to around the job", 3, "document: strict")

    def is_in_run(self, ran: Stretch) -> bool:
        """Whether a stretch is in a run."""
        return self.units(ran.begin) < self.units(ran.end)

    def is_coarse(self, ran: Stretch) -> bool:
        """Whether a stretch's speed is 0, or off by more than a twentieth in units."""
        khz = ran.khz or 0
        speed = self.speed(khz)
        return self.is_in_run(ran) and (speed == 0 or 20 * abs(speed * self.asked.khz - khz) > khz)

    def text(self) -> str:
        """The whole text."""
        return "".join(line + "\n" for line in self.lines())

    def lines(self) -> Iterator[str]:
        """Its lines."""
        asked = self.asked
        yield f"# CPU {asked.processor} of a kernel trace; time 0 is {self.zero // 10**9}.{self.zero % 10**9:09d} s"
        cycles = f"{asked.unit // 1000 * asked.khz / 1000:.3f}".rstrip("0").rstrip(".")
        yield f"# time unit {asked.unit // 1000} us, speed unit {asked.khz} kHz, work unit {cycles} cycles"
        for one, release, due, work in self.rows:
            yield f"job {one.called} {release} {due} {work}"
        yield "ticks 1"
        placed = [(run, one.called) for one, _, _, _ in self.rows if not one.reason for run in one.runs]
        for (begin, end, speed), name in sorted(placed, key=lambda it: it[0][0]):
            yield f"run {name} {begin} {end} {speed}"
        for one in self.judged:
            if one.late is not None:
                yield self.late_line(one, one.late)
        for one in self.judged:
            if not one.reason:
                yield from self.shown_lines(one)
            if not one.reason or one.late is not None:
                yield from self.thread_lines(one)
        yield from self.left_out()
        yield from self.unwritten()
        for task, mine in zip(asked.tasks, self.by_task):
            yield from self.wrong_units(task, mine)
        yield from self.other_threads()
        yield from self.tally.lines(asked.in_parts)
        out = sum(1 for one in self.judged if one.reason and one.late is None)
        bare = sum(1 for one in self.judged if one.reason and one.late is not None)
        late = f", {bare} late without {'its' if bare == 1 else 'their'} runs" if bare else ""
        count = len(self.rows)
        yield f"# {count} job{'' if count == 1 else 's'} written, {f'{out} left out' if out else 'none left out'}{late}"

    def late_line(self, one: Judged, late: int) -> str:
        """The comment of a late job."""
        by = f"{milliseconds(late)} ms after its deadline"
        if one.reason:
            how = "not ended " if one.job.state != "ended" else "" if one.job.known else "at least "
            window = f"; window {self.signed(one.job.begin)} {self.signed(one.due)}" if one.job.known else ""
            return f"# late, without its runs: {one.called} ({one.reason}), {how}{by}{window}"
        if one.job.state != "ended":
            return f"# not ended: {one.called}, {by}"
        if self.ended(one) <= self.units(one.due):
            return f"# late by less than a unit of time: {one.called}, {by}"
        if self.shown_end(one) <= self.units(one.due) and one.part is not None:
            return f"# late on another processor: {one.called}, {by}"
        if self.shown_end(one) <= self.units(one.due):
            return f"# late in a run within one tick: {one.called}, {by}"
        return f"# late: {one.called}, {by}"

    def shown_lines(self, one: Judged) -> Iterator[str]:
        """The comments of a begin and an end that no run shows."""
        begins = [ran.begin for ran in one.job.ran if ran.begin < ran.end]
        if begins and (not one.runs or self.units(begins[0]) < one.runs[0][0]):
            yield f"# begins: {one.called} {self.units(begins[0])}"
        due = self.units(one.due)
        told = one.late is not None and (self.ended(one) <= due or self.shown_end(one) <= due)
        if one.job.state == "ended" and not told and (not one.runs or self.shown_end(one) < self.ended(one)):
            yield f"# ends: {one.called} {self.ended(one)}"

    def thread_lines(self, one: Judged) -> Iterator[str]:
        """The comments of a job with which its thread was over, and of one that went on behind a sleep without a wake-up."""
        if one.job.exited:
            yield f"# exited: {one.called}"
        if one.job.slept is not None:
            yield f"# went on behind a sleep without a wake-up: {one.called}"

    def left_out(self) -> Iterator[str]:
        """The comments of the jobs that are left out: the most frequent reason first."""
        order = ["not ended", "events lost", "a switch is missing", "its begin isn't in the trace", "due before it begins",
                 "ran on another processor", "frequency not known"]
        groups: List[Tuple[bytes, str, List[str]]] = []
        for task, mine in zip(self.asked.tasks, self.by_task):
            for reason in order:
                names = [one.called for one in mine if one.reason == reason and one.late is None]
                if names:
                    groups.append((task.label, reason, names))
        for label, reason, names in sorted(groups, key=lambda group: -len(group[2])):
            if len(names) == 1:
                yield f"# left out: {names[0]} ({reason})"
            else:
                yield f"# left out: {len(names)} jobs of {label.decode()} ({reason}), the first {names[0]}, the last {names[-1]}"
        cut = sum(1 for one in self.judged if one.late is None and one.reason in ("before from", "after to"))
        if cut:
            yield f"# left out: {cut} job{'' if cut == 1 else 's'} before from or after to"

    def unwritten(self) -> Iterator[str]:
        """The comments of stretches that are in no run, and of wake-ups while a job was open."""
        standing = [one for one in self.judged if not one.reason]
        short = [ran.end - ran.begin for one in standing for ran in one.job.ran
                 if ran.begin < ran.end and not self.is_in_run(ran)]
        if short:
            count = "1 stretch" if len(short) == 1 else f"{len(short)} stretches"
            verb = "is" if len(short) == 1 else "are"
            yield f"# {count} within one unit of time, {milliseconds(sum(short))} ms together, {verb} in no run"
        wakes = sum(one.job.wakes for one in standing)
        if wakes:
            most = max(standing, key=lambda one: one.job.wakes)
            told = "1 wake-up came while its job was open" if wakes == 1 else f"{wakes} wake-ups came while their job was open"
            yield f"# {told}, the most of {most.called}: {most.job.wakes}"

    def other_threads(self) -> Iterator[str]:
        """The comments of who else had the processor. Of a name that moves a terminal's cursor, each such byte is a question mark."""
        for span in self.others:
            begin, end = self.units(span.begin), self.units(span.end)
            if begin < end:
                name = bytes(63 if byte < 32 or byte == 127 else byte for byte in span.name)
                yield f"# other {as_text(name)}-{span.pid} {begin} {end}"

    def wrong_units(self, task: Task, mine: List[Judged]) -> Iterator[str]:
        """The comments of times that are likely in another unit, and of jobs that begin farther apart than the deadline, of which none has a period."""
        begins = [one.job.begin for one in mine if one.job.known]
        if not begins or begins[0] >= begins[-1]:
            return
        mean = (begins[-1] - begins[0]) // (len(begins) - 1)
        for what, value in (("the deadline", task.deadline), ("APART", task.apart)):
            how = "more than 100 times" if value > 100 * mean else "less than a hundredth of" if 100 * value < mean else ""
            if how and value:
                yield (f"# {what} of {task.label.decode()}, {milliseconds(value)} ms, is {how} the mean distance of its jobs'"
                       f" begins, {milliseconds(mean)} ms: is it in another unit?")
        if not task.period and 101 * task.deadline < 100 * mean <= 10_000 * task.deadline:
            yield (f"# {task.label.decode()}: {len(begins)} begins, {milliseconds(mean)} ms apart in the mean, a deadline of"
                   f" {milliseconds(task.deadline)} ms: a period would tell frames that fall behind")


class Told(NamedTuple):
    """What is written, the status, the kind of fault, if it is one, and the document, or each part."""

    text: str
    status: int
    kind: str = ""
    document: Optional[Document] = None
    parts: Tuple[Document, ...] = ()


def whole_document(trace: bytes, asked: Asked) -> Document:
    """The document of a whole trace."""
    order = ordered(trace)
    reading = read_lines(order, begun(order, asked))
    by_task = judge(reading)
    zero = zero_of(by_task, reading.lines, reading.asked)
    return Document(by_task, zero, reading.asked, tuple(within(spans_of(reading), zero)), tally_of(reading))
