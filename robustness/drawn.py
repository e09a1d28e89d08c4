"""drawn.py: draws traces of a kernel with words for them, for trace.py, planted.py and broken.py.

A machine runs threads by chance and writes its trace in one of five formats. What each trace is to show goes round by
its number (SHOWN): so each thing comes as often as its places in that list say. Most of a trace is left to chance all
the same. The trace of a number and a seed is always the same one. So is a second trace of each number (`dozing`): of
threads that are woken as they go to sleep, come back without a wake-up, are stopped, are over, or get other names, of
traces with switches that are missing, and of processors that are silent at the end.
"""

import random
import re
from typing import Callable, Dict, List, NamedTuple, Optional, Tuple

NAMES = [b"decode", b"audio", b"Web Content", b"a [001] 5.1: print:", b"x ==> y", b"kworker/0:1", b"k=v,w", b"n:12 [9]", b"back\\slash"]
MARKED = [b"w pid=11 prio=9", b"w:11 [9]", b"a pid=10 prio=1"]
"""Names within which the mark stands that ends a woken thread's name."""
OTHERS = [b"other", b"<...>", b"x next_pid=7 next_prio=1", b"esc\x1b[2J", b"long " * 14]
FORMATS = ("kernel", "short", "raw", "perf", "perfetto")
MARKER = b"note [000] d..2. 100.002: sched_switch: prev_comm=decode prev_pid=10 prev_prio=1 prev_state=S ==> next_comm=x next_pid=9 next_prio=1"
WAKE_UPS = [b"sched_waking:", b"sched_wakeup:", b"sched_wakeup_new:"]
HALVES = [(b"sched_waking:",), (b"sched_wakeup:",), (b"sched_wakeup_new:",), (b"sched_waking:", b"sched_wakeup:")]
"""A wake-up as a trace tells it: that it starts, that it was done, or both."""
STOPS = [b"T", b"t", b"T", b"t", b"4", b"8", b"T+", b"t|K"]
EXITS = [b"X", b"Z", b"x", b"X", b"Z", b"x", b"16", b"32", b"X|K", b"Z+"]
UNIT = 10_000
MILLISECOND = 10**6

Options = Dict[str, Optional[str]]


class Drawn(NamedTuple):
    """A drawn trace, what it is to show, its format, and words for it."""

    shows: str
    form: str
    words: List[str]
    trace: bytes


class Wish:
    """A listed thread: how its task is written, and its times in nanoseconds."""

    def __init__(self, name: bytes, pid: int, label: str, by_number: bool) -> None:
        self.name, self.pid, self.label, self.by_number = name, pid, label, by_number
        self.deadline, self.apart, self.period = 10 * MILLISECOND, 0, 0

    def text(self) -> str:
        """As `--tasks` takes it."""
        head = f"{self.pid}={self.label}" if self.by_number else escaped(self.name)
        apart = decimal_text(self.apart, 6) if self.apart else ""
        behind = f":{apart}:{decimal_text(self.period, 6)}" if self.period else f":{apart}" if apart else ""
        return f"{head}:{decimal_text(self.deadline, 6)}{behind}"


def escaped(name: bytes) -> str:
    """A name as `--tasks` takes it."""
    return re.sub("([,:=])", r"\\\1", name.decode())


def decimal_text(time: int, places: int) -> str:
    """A decimal that is so many parts."""
    text = f"{time // 10**places}.{time % 10**places:0{places}d}"
    return text.rstrip("0").rstrip(".")


class Drawing:
    """A machine that runs threads by chance, and writes its trace."""

    def __init__(self, draw: random.Random, calm: bool) -> None:
        self.draw, self.calm = draw, calm
        self.form = draw.choice(FORMATS)
        self.processors = draw.choice([1, 1, 2] if calm else [1, 2, 2, 3])
        self.listed = draw.sample(NAMES, draw.choice([1, 2, 3]))
        self.threads = self.listed + OTHERS
        self.state = {name: "sleeps" for name in self.threads}
        self.home = {name: 0 for name in self.threads} if draw.random() < (0.7 if calm else 0.3) else {}
        self.starving: Optional[bytes] = None
        self.sleepy = 0.6
        self.rewoken = True
        self.halves = [(event,) for event in WAKE_UPS]
        self.odds: Dict[str, float] = {}
        self.called: Dict[bytes, bytes] = {}
        self.grain = draw.choice([1, 1, 1_000])
        self.on: Dict[int, bytes] = {}
        self.time = draw.randrange(10**6) * 1_000
        self.begun = self.time
        self.lines: List[bytes] = []
        self.woken: Dict[bytes, int] = {}
        self.wakes: List[Tuple[bytes, int]] = []
        self.spans: List[Tuple[bytes, int, int]] = []
        self.options: Options = {}
        self.wishes = [self.wish(place, name) for place, name in enumerate(self.listed)]
        self.steps = [0, 0, 1, 700, 9_000, 40_000, 900_000, 4_000_000, 9_000_000]
        self.told_first = not calm or draw.random() < 0.5
        self.ends = draw.choice([b"\n", b"\n", b"\r\n"])
        self.last_end = b"" if draw.random() < 0.1 else b"\n"

    def wish(self, place: int, name: bytes) -> Wish:
        """How a listed thread is asked for."""
        is_label = re.fullmatch(b"[!-~]{1,53}", name) is not None
        return Wish(name, self.pid(name), f"t{place}", not is_label or self.draw.random() < 0.3)

    def pid(self, name: bytes) -> int:
        """A thread's number."""
        return 10 + self.threads.index(name) if name in self.threads else 0

    def write(self, processor: int, event: bytes, text: bytes) -> None:
        """A line."""
        self.lines.append(self.line(processor, event, text))

    def line(self, processor: int, event: bytes, text: bytes) -> bytes:
        """A line of an event, now."""
        time = b"%d.%09d" % (100 + self.time // 10**9, self.time % 10**9)
        if self.grain == 1_000:
            time = time[:-3]
        heads = {
            "kernel": b"%16s-%-7d [%03d] d..2. %s: " % (b"who", 5, processor, time),
            "perf": b"%16s %5d [%03d] %s: %s" % (b"who", 5, processor, time, b"power:" if event == b"cpu_frequency:" else b"sched:"),
            "perfetto": b"%s-%d (-----) [%03d] d..3 %s: " % (b"who", 5, processor, time),
        }
        plain = b"%16s-%-5d [%03d]  %s: " % (b"who", 5, processor, time)
        return heads.get(self.form, plain) + event + b" " + text

    def tell_switch(self, processor: int, before: bytes, state: bytes, after: bytes) -> None:
        """A switch."""
        one, two = self.pid(before), self.pid(after)
        before, after = self.called.get(before, before), self.called.get(after, after)
        if self.form == "short":
            text = b"%s:%d [120] %s ==> %s:%d [98]" % (before, one, state, after, two)
        else:
            arrow = b"" if self.form == "raw" else b" ==>"
            text = b"prev_comm=%s prev_pid=%d prev_prio=120 prev_state=%s%s next_comm=%s next_pid=%d next_prio=98" % (
                before, one, state, arrow, after, two)
        self.write(processor, b"sched_switch:", text)

    def chance(self, what: str) -> bool:
        """Whether this happens now."""
        odds = self.odds.get(what, 0.0)
        return odds > 0 and self.draw.random() < odds

    def wait(self, times: List[int]) -> None:
        """One of these times passes."""
        self.time += self.draw.choice(times) // self.grain * self.grain

    def may_run(self, name: bytes, processor: int) -> bool:
        """Whether a thread may come to a processor."""
        return self.state[name] == "ready" and name != self.starving and self.home.get(name, processor) == processor

    def switch(self, processor: int) -> None:
        """A processor goes from one thread to another."""
        before = self.on.pop(processor, b"")
        ready = [name for name in self.threads if self.may_run(name, processor)]
        after = self.draw.choice(ready) if ready and (not before or self.draw.random() < 0.8) else b""
        if not before and not after:
            return
        sleeps = not after or self.draw.random() < self.sleepy
        state = self.draw.choice([b"S", b"S", b"S", b"I", b"P", b"1"] if sleeps else [b"R", b"R+", b"D", b"S+"]) if before else b"R"
        began = self.time
        raced = False
        if before:
            state, raced = self.leave(before, state, sleeps)
        if after:
            self.state[after], self.on[processor] = "runs", after
        idle = b"swapper/%d" % processor
        self.tell_switch(processor, before or idle, state, after or idle)
        if raced:
            self.woken[before] = began
            self.wakes.append((before, began))
            self.finish(before, processor)

    def leave(self, name: bytes, state: bytes, sleeps: bool) -> Tuple[bytes, bool]:
        """A thread leaves, in this state or in another one: woken just before, for a signal, over, or stopped. And whether it was woken."""
        told = name in self.listed or not self.odds
        raced = sleeps and told and self.chance("race")
        back = raced or (sleeps and told and self.chance("signal"))
        over = sleeps and not back and (self.chance("exit") or not told)
        if raced:
            self.tell_wake(b"sched_waking:", name, self.draw.randrange(self.processors))
            self.wait([0, 0, 1_000, 6_000])
        self.state[name] = "ready" if back or not sleeps else "over" if over and not self.chance("again") else "sleeps"
        if sleeps and (raced or not back) and name in self.woken:
            self.spans.append((name, self.woken.pop(name), self.time))
        if over:
            return self.draw.choice(EXITS), raced
        return self.draw.choice(STOPS) if not sleeps and self.chance("stop") else state, raced

    def finish(self, name: bytes, processor: int) -> None:
        """The second half of a wake-up that was started, perhaps."""
        if self.chance("second half"):
            self.wait([0, 0, 1_000, 30_000])
            self.tell_wake(b"sched_wakeup:", name, processor)

    def speed(self, processor: int) -> None:
        """A processor's speed changes."""
        khz = self.draw.choice([600_000, 652_800, 1_000_000, 2_000_000])
        self.write(self.draw.randrange(self.processors), b"cpu_frequency:", b"state=%d cpu_id=%d" % (khz, processor))

    def wake(self, name: bytes, processor: int) -> None:
        """A thread is woken."""
        events = self.draw.choice(self.halves)
        began = self.time
        for event in events:
            if event != events[0]:
                self.wait([0, 0, 1_000, 7_000])
            self.tell_wake(event, name, processor)
        if name in self.listed:
            self.woken.setdefault(name, began)
            self.wakes.append((name, began))

    def tell_wake(self, event: bytes, name: bytes, processor: int) -> None:
        """One half of a wake-up."""
        pid = self.pid(name)
        name = self.called.get(name, name)
        short = b"%s:%d [120] CPU:%03d" % (name, pid, processor)
        text = short if self.form == "short" else b"comm=%s pid=%d prio=120 target_cpu=%03d" % (name, pid, processor)
        self.write(self.draw.randrange(self.processors), event, text)

    def step(self) -> None:
        """Something happens."""
        self.time += self.draw.choice(self.steps) // self.grain * self.grain
        if self.chance("rename"):
            self.called[self.draw.choice([*self.listed, b"other"])] = self.draw.choice([b"new", b"new", b"audio", *self.listed])
        processor, drawn = self.draw.randrange(self.processors), self.draw.random()
        sleeping = [name for name in self.threads if self.state[name] == "sleeps"]
        if drawn < 0.3 and sleeping:
            name = self.draw.choice(sleeping)
            self.state[name] = "ready"
            self.wake(name, processor)
        elif drawn < 0.33 and self.rewoken:
            self.wake(self.draw.choice(self.threads), processor)
        elif drawn < 0.39:
            self.speed(processor)
        elif drawn < 0.42:
            self.write(processor, self.draw.choice([b"tracing_mark_write:", b"irq_handler_entry:", b"print:"]), MARKER)
        else:
            self.switch(processor)

    def start(self) -> str:
        """The speeds before the first change: one for all processors, or one for each, now and then for all but one."""
        if self.draw.random() < 0.7:
            return "1000000"
        listed = [f"{processor}:{self.draw.choice([600_000, 1_000_000, 2_000_000])}" for processor in range(self.processors)]
        self.draw.shuffle(listed)
        return ",".join(listed[: -1 if len(listed) > 1 and self.draw.random() < 0.2 else None])

    def run(self, least: int = 15) -> None:
        """The machine runs for a while. Where a trace is calm, each listed thread is woken and runs."""
        for processor in range(self.processors if self.told_first and (self.calm or self.draw.random() < 0.8) else 0):
            self.speed(processor)
        if self.calm:
            self.options["--start"] = self.start()
            for name in self.listed:
                self.state[name] = "ready"
                self.wake(name, 0)
                self.time += 50_000
                self.switch(self.home.get(name, 0))
        for _ in range(self.draw.randrange(least, 90)):
            self.step()
        if self.calm:
            for processor in range(self.processors):
                self.time += 50_000
                self.switch(processor)

    def near(self) -> int:
        """How long a job took, or nearly so long."""
        spans = [end - begin for _, begin, end in self.spans if end - begin > 3 * UNIT]
        return self.draw.choice(spans) + self.draw.choice([-10_000, -1, 0, 0, 1, 9_999, 10_000]) if spans else 0

    def ask(self, short: float = 0.3) -> None:
        """The words: deadlines, short ones with this chance, and options."""
        draw = self.draw
        for wish in self.wishes:
            drawn = draw.random()
            if drawn < short:
                wish.deadline = draw.choice([UNIT, 30_000, 200_000, 700_000, MILLISECOND])
            elif drawn < short + 0.4 * (1 - short):
                wish.deadline = self.near() or 3 * MILLISECOND
            else:
                wish.deadline = draw.choice([1, 3, 10, 20, 400]) * MILLISECOND
            wish.apart = draw.choice([0, 0, 2 * MILLISECOND, 500_000])
        if self.processors > 1 and (not self.home or draw.random() < 0.2):
            self.options["--cpu"] = str(draw.randrange(self.processors))
        elif self.calm and draw.random() < 0.1:
            self.options["--cpu"] = "0"
        if draw.random() < 0.2:
            self.options["--us"] = draw.choice(["1", "1", "2", "1000"] if not self.calm else ["1", "2", "5"])
        if draw.random() < 0.2:
            self.options["--khz"] = draw.choice(["1", "100000", "5000"] if not self.calm else ["5000", "1000", "20000"])
        if draw.random() < 0.25:
            self.options["--begin"] = "run"
        if draw.random() < (0.08 if not self.calm else 0.03):
            self.options["--strict"] = None

    def places(self, *events: bytes) -> List[int]:
        """The places of the lines with these events."""
        return [place for place, line in enumerate(self.lines)
                if MARKER not in line and any(b": " + event in line or b":" + event in line for event in events)]

    def listed_switches(self) -> List[int]:
        """The places of the switches of a listed thread."""
        return [place for place in self.places(b"sched_switch:") if any(name in self.lines[place] for name in self.listed)]

    def one_of(self, *events: bytes) -> int:
        """The place of a line with one of these events; there is one."""
        found = self.places(*events)
        if not found:
            self.speed(0)
            self.wake(self.listed[0], 0)
            self.tell_switch(0, b"swapper/0", b"R", b"other")
            found = self.places(*events)
        return self.draw.choice(found)

    def replace(self, place: int, pattern: bytes, by: bytes) -> None:
        """Something of a line is another."""
        self.lines[place] = re.sub(pattern, lambda _: by, self.lines[place], count=1)

    def lose(self, at: Optional[int] = None) -> None:
        """Events were lost, as a line says."""
        processor = self.draw.randrange(self.processors)
        told_so = [b"CPU:%d [3 EVENTS DROPPED]", b"##### CPU %d buffer started ####", b"CPU:%d [LOST EVENTS]", b"CPU:%d [LOST 12 EVENTS]"]
        line = self.draw.choice(told_so) % processor
        if self.form == "perf" and self.draw.random() < 0.7:
            line = b"%16s %5d [%03d] %s PERF_RECORD_LOST lost 7" % (b"who", 5, processor, b"100.5:")
            place = self.draw.randrange(len(self.lines) + 1) if at is None else at
            mark = re.search(rb" ([0-9]+\.[0-9]+:) ", self.lines[min(place, len(self.lines) - 1)])
            line = line.replace(b"100.5:", mark[1] if mark else b"100.5:")
            at = place
        self.lines.insert(self.draw.randrange(len(self.lines) + 1) if at is None else at, line)

    def words(self) -> List[str]:
        """The words, each value behind an equals sign or as a word of its own, in some order."""
        options: Options = {"--tasks": ",".join(wish.text() for wish in self.wishes), **self.options}
        names = list(options)
        self.draw.shuffle(names)
        found: List[str] = []
        for name in names:
            value = options[name]
            if value is None:
                found.append(name)
            elif self.draw.random() < 0.4:
                found.append(f"{name}={value}")
            else:
                found += [name, value]
        return found

    def unbound(self) -> None:
        """No unit or `--strict` makes it a fault."""
        for name in ("--us", "--khz", "--strict"):
            self.options.pop(name, None)

    def seconds(self, time: int) -> str:
        """A time of the trace in seconds."""
        return decimal_text(100 * 10**9 + time, 9)


# # What a trace is to show. Each takes a calm machine before it ran, but for `anything`.


def anything(it: Drawing) -> None:
    """A trace with whatever chance gives it: no front, one line less, lost events, a mistake."""
    draw = it.draw
    it.run()
    it.ask()
    if draw.random() < 0.4:
        it.options["--start"] = it.start()
    it.lines = it.lines[draw.choice([0, 0, 0, 1, 3, 9]) :] or it.lines
    if draw.random() < 0.15:
        del it.lines[draw.randrange(len(it.lines))]
    if draw.random() < 0.3:
        it.lose()
        if draw.random() < 0.8:
            it.options["--lost"] = "cut"
    if draw.random() < 0.1:
        spoil(it)
    times = sorted([it.time - draw.randrange(10**8), draw.randrange(it.time + 1)])
    if draw.random() < 0.2:
        it.options["--from"] = it.seconds(max(times[0], 0))
    if draw.random() < 0.2:
        it.options["--to"] = it.seconds(max(times[1], 0) + draw.choice([0, 1, 10**7]))


def spoil(it: Drawing) -> None:
    """A mistake in a line."""
    at = it.draw.randrange(len(it.lines))
    line, drawn = it.lines[at], it.draw.randrange(4)
    if drawn == 0:
        it.lines[at] = line[: it.draw.randrange(len(line) + 1)]
    elif drawn == 1:
        it.lines.append(it.lines.pop(at))
    elif drawn == 2:
        it.lines[at] = re.sub(rb"(pid=|:)1([0-9])", rb"\g<1>77\2", line, count=1)
    else:
        place = it.draw.randrange(len(line))
        it.lines[at] = line[:place] + bytes([it.draw.choice(b" :=.[]\r\x00\xff0R")]) + line[place + 1 :]


def usual(it: Drawing, short: float = 0.3) -> None:
    """A calm trace."""
    it.run(30)
    it.ask(short)


def starving(it: Drawing) -> None:
    """A thread is woken and gets no processor any more. Others may move, and have shares."""
    it.sleepy = 0.25 if roam(it, 0.7) else it.sleepy
    it.run()
    it.starving = it.draw.choice(it.listed)
    it.state[it.starving] = "ready"
    it.wake(it.starving, 0)
    for _ in range(25):
        it.step()
    it.ask(0.6)
    it.options.pop("--begin", None)


def moving(it: Drawing) -> None:
    """Threads move among processors."""
    it.processors, it.home, it.sleepy = it.draw.choice([2, 3]), {}, 0.25
    usual(it, it.draw.choice([0.0, 0.0, 0.0, 0.8]))
    for wish in it.wishes:
        wish.deadline *= it.draw.choice([1, 1, 10])
    it.unbound()


def sharing(it: Drawing) -> None:
    """Threads move among processors, and a job has a share on each. Some have one deadline within most jobs' times."""
    it.processors, it.home, it.sleepy = it.draw.choice([2, 3]), {}, 0.25
    usual(it, 0.0)
    is_short = it.draw.random() < 0.9
    for wish in it.wishes:
        own = [end - begin for name, begin, end in it.spans if name == wish.name]
        if own and is_short:
            wish.deadline = max(UNIT, it.draw.choice(own) * it.draw.choice([4, 7, 9]) // 10)
        elif not is_short:
            wish.deadline *= 10
    if is_short:
        it.options.pop("--begin", None)
    it.unbound()
    if it.draw.random() < 0.4:
        it.options["--cpu"] = "all"
    if it.draw.random() < 0.9:
        it.options["--moved"] = "parts"


def roam(it: Drawing, chance: float) -> bool:
    """With this chance threads move among processors, and half the time a job has a share on each."""
    moves = it.draw.random() < chance
    if moves:
        it.processors, it.home = it.draw.choice([2, 3]), {}
        if it.draw.random() < 0.6:
            it.options["--moved"] = "parts"
    return moves


def shove(it: Drawing) -> None:
    """Other threads are ready from the begin on, and perhaps have a processor when the first job begins."""
    it.state.update({name: "ready" for name in OTHERS})
    it.switch(0)
    it.options["--others"] = "spans"


def missing(it: Drawing) -> None:
    """Switches are missing."""
    usual(it, it.draw.choice([0.1, 0.9]))
    it.unbound()
    for _ in range(it.draw.choice([2, 3, 4])):
        found = it.listed_switches()
        if found:
            del it.lines[it.draw.choice(found)]


def fronted(it: Drawing) -> None:
    """The front is cut off."""
    usual(it, it.draw.choice([0.1, 0.9]))
    del it.lines[: it.draw.randrange(1, max(2, len(it.lines) // 3))]


def no_speed(it: Drawing) -> None:
    """The speed isn't known from the begin on."""
    it.told_first = False
    usual(it, it.draw.choice([0.0, 0.8]))
    it.unbound()
    if it.draw.random() < 0.3:
        it.options["--start"] = "7:1000000"
    else:
        it.options.pop("--start")
    if it.draw.random() < 0.5:
        it.lines = [line for line in it.lines if b"cpu_frequency:" not in line]


def torn(it: Drawing) -> None:
    """Events were lost."""
    it.sleepy = 0.4
    usual(it, it.draw.choice([0.0, 0.9, 0.9]))
    for _ in range(it.draw.choice([1, 1, 2])):
        it.lose(it.draw.randrange(len(it.lines) // 2, len(it.lines)))
    it.options["--lost"] = "cut"
    it.unbound()


def cut_off(it: Drawing) -> None:
    """`--from` is within a job, or just beside it."""
    usual(it, it.draw.choice([0.2, 0.8]))
    it.options.pop("--begin", None)
    long = [span for span in it.spans if span[2] - span[1] > 5 * UNIT] or it.spans or [(it.listed[0], it.begun, it.time)]
    name, begin, end = it.draw.choice(long)
    at = it.draw.choice([begin + it.grain, begin + it.grain, (begin + end) // 2, begin, end])
    it.options["--from"] = it.seconds(at)
    if it.draw.random() < 0.85:
        wish = next(wish for wish in it.wishes if wish.name == name)
        wish.deadline = max(UNIT, it.draw.choice([at - begin + 1, at - begin + 20_000, at - begin, (at - begin + end - begin) // 2]))
    it.unbound()


def ended_early(it: Drawing) -> None:
    """`--to` is within a job, at its end or at its deadline."""
    usual(it, it.draw.choice([0.0, 0.8]))
    it.options.pop("--begin", None)
    name, begin, end = it.draw.choice(it.spans or [(it.listed[0], it.begun, it.time)])
    wish = next(wish for wish in it.wishes if wish.name == name)
    if it.draw.random() < 0.5:
        wish.deadline = max(wish.deadline, end - begin)
    due = begin + wish.deadline
    at = [end - 1, (begin + end) // 2, (begin + end) // 2] if due >= end else [end, due, due - 1, due + 1, begin, (begin + end) // 2]
    it.options["--to"] = it.seconds(max(1, it.draw.choice(at)))
    it.unbound()


def wrong_units(it: Drawing) -> None:
    """Deadlines and distances are in another unit. Threads move among processors, and may have shares."""
    roam(it, 1.0)
    usual(it, 0.1)
    for wish in it.wishes:
        wish.deadline = it.draw.choice([UNIT, 2 * UNIT, 10_000 * MILLISECOND, 90_000 * MILLISECOND])
        wish.apart = it.draw.choice([0, 1, 700, 9_000, 30_000 * MILLISECOND])


def small(it: Drawing) -> None:
    """Stretches are within one unit of time, or nearly."""
    it.steps = [0, 300, 700, 3_000, 9_000, 12_000, 40_000, 900_000, 4_000_000]
    roam(it, 0.5)
    usual(it, 0.5)
    for wish in it.wishes:
        if it.draw.random() < 0.5:
            wish.deadline = max(UNIT, it.near())
    it.options.pop("--strict", None)
    it.options.pop("--us", None)
    if it.draw.random() < 0.4:
        it.options["--us"] = it.draw.choice(["50", "100", "1000"])
        for wish in it.wishes:
            wish.deadline = max(wish.deadline, MILLISECOND)


def edges(it: Drawing) -> None:
    """Deadlines that are missed or met by a nanosecond, or by less than a unit."""
    it.home = {name: 0 for name in it.threads}
    if it.draw.random() < 0.6:
        shove(it)
    usual(it, 0.0)
    for wish in it.wishes:
        own = [end - begin for name, begin, end in it.spans if name == wish.name and end - begin > 2 * UNIT]
        wish.deadline = it.draw.choice(own) - it.draw.choice([-UNIT, -1, 0, 0, 1, 1, 1, 1_000, UNIT - 1, UNIT]) if own else wish.deadline
        wish.apart = 0
    it.options.pop("--begin", None)
    it.options.pop("--us", None)


def open_at_the_end(it: Drawing) -> None:
    """The trace or `--to` ends at the deadline of a job that is open then, or beside it."""
    usual(it, 0.1)
    wish = it.draw.choice(it.wishes)
    it.options.pop("--begin", None)
    it.options.pop("--us", None)
    it.wake(wish.name, 0)
    begin = it.woken.get(wish.name, it.time)
    last = it.time + it.draw.choice([UNIT, 70_000, MILLISECOND])
    wish.deadline, wish.apart = max(UNIT, last - begin + it.draw.choice([-1, 0, 0, 0, 1])), 0
    it.time = last
    it.write(0, b"irq_handler_entry:", b"irq=1 name=x")
    if it.draw.random() < 0.4:
        it.options["--to"] = it.seconds(last)
        it.time += MILLISECOND
        it.write(0, b"irq_handler_entry:", b"irq=1 name=x")


def often_woken(it: Drawing) -> None:
    """Wake-ups within a job, and ones that go on with it. Threads may move among processors, and have shares."""
    roam(it, 0.7)
    it.run(30)
    for _ in range(3):
        name = it.draw.choice(it.listed)
        for _ in range(it.draw.choice([2, 3])):
            it.time += it.draw.choice([0, 1, 40_000, 900_000])
            it.wake(name, 0)
            it.state[name] = "ready" if it.state[name] == "sleeps" else it.state[name]
            it.switch(it.home.get(name, 0))
            it.time += it.draw.choice([0, 1, 40_000])
            it.switch(it.home.get(name, 0))
    it.ask(it.draw.choice([0.1, 0.1, 0.8]))
    for wish in it.wishes:
        wish.apart = it.draw.choice([MILLISECOND, 5 * MILLISECOND, 40 * MILLISECOND])
        if it.draw.random() < 0.7:
            wish.apart = exact_apart(it, wish) or wish.apart
    it.options.pop("--begin", None)


def exact_apart(it: Drawing, wish: Wish) -> int:
    """How long after the begin of the thread's first job the first wake-up behind that job came, or a nanosecond beside it."""
    own = [(begin, end) for name, begin, end in it.spans if name == wish.name]
    later = [time for name, time in it.wakes if name == wish.name and own and time >= own[0][1]]
    return max(0, later[0] - own[0][0] + it.draw.choice([0, 0, 0, 1, -1])) if later else 0


def at_run(it: Drawing) -> None:
    """Jobs begin at their first run. Threads may move among processors, and have shares."""
    it.sleepy = 0.3 if roam(it, 0.8) else it.sleepy
    usual(it, 0.4)
    it.options["--begin"] = "run"
    if it.draw.random() < 0.5:
        it.lines = [line for line in it.lines if not any(event in line for event in WAKE_UPS)]


# Faults of a line's form.


def far_processor(it: Drawing) -> None:
    """A number of a processor that no program of 32 bits has."""
    usual(it)
    it.replace(it.draw.randrange(len(it.lines)), rb"\[00[0-9]\](?= +[0-9d])", b"[%d]" % it.draw.choice([2**32, 2**32 + 1, 2**64]))


def fine_time(it: Drawing) -> None:
    """A time that is too fine, or too great for 64 bits."""
    usual(it)
    mark = rb"(?<= )[0-9]+\.[0-9]+(?=: )"
    it.replace(it.draw.randrange(len(it.lines)), mark, it.draw.choice([b"100.1234567890", b"18446744074.0", b"99999999999999999999.5"]))


def torn_switch(it: Drawing) -> None:
    """A switch in an unknown form."""
    usual(it)
    at = it.one_of(b"sched_switch:")
    head, event, text = it.lines[at].partition(b"sched_switch: ")
    cut = text[: it.draw.randrange(len(text) * 2 // 3)]
    it.lines[at] = head + event + it.draw.choice([cut, text + b" x", text.replace(b"98", b"x8")])


def torn_wake_up(it: Drawing) -> None:
    """A wake-up in an unknown form."""
    usual(it)
    at = it.one_of(*WAKE_UPS)
    it.replace(at, rb"(:1?[0-9] \[120\]| pid=[0-9]+ prio=).*", it.draw.choice([b"", b" pid=x", b":7 ["]))


def torn_speed(it: Drawing) -> None:
    """A speed in an unknown form."""
    usual(it)
    at = it.one_of(b"cpu_frequency:")
    it.replace(at, rb"state=.*", it.draw.choice([b"state=600000", b"state=x cpu_id=0", b"state=600000 cpu_id=4294967296", b"state=1 cpu_id=0 x"]))


def long_line(it: Drawing) -> None:
    """An event on a line that is too long."""
    usual(it)
    at = it.one_of(b"sched_switch:", *WAKE_UPS)
    it.lines[at] += b" " * (65_537 - len(it.lines[at]) + it.draw.choice([0, 0, 1, 900]))


def cut_line(it: Drawing) -> None:
    """The last line is cut within its stamp, with no line feed behind it."""
    usual(it)
    it.last_end = b""
    place = re.search(rb"\[[0-9]+\].*? [0-9]+\.[0-9]+: ", it.lines[-1])
    assert place is not None
    it.lines[-1] = it.lines[-1][: it.draw.randrange(place.start() + 2, place.end())]


# Faults of a line behind those before it.


def great_processor(it: Drawing) -> None:
    """A number of a processor that no kernel has."""
    usual(it)
    drawn = it.draw.random()
    if drawn < 0.5:
        it.replace(it.draw.randrange(len(it.lines)), rb"\[00[0-9]\](?= +[0-9d])", b"[%d]" % it.draw.choice([8192, 9000, 2**32 - 1]))
    elif drawn < 0.8:
        it.replace(it.one_of(b"cpu_frequency:"), rb"cpu_id=.*", b"cpu_id=%d" % it.draw.choice([8192, 70_000]))
    else:
        it.lines.insert(it.draw.randrange(len(it.lines) + 1), b"CPU:8192 [LOST EVENTS]")


def great_time(it: Drawing) -> None:
    """A time behind the end of 63 bits."""
    usual(it)
    it.replace(it.draw.randrange(len(it.lines)), rb"(?<= )[0-9]+\.[0-9]+(?=: )", it.draw.choice([b"9223372036.854775808", b"18446744073.709551615"]))


def backwards(it: Drawing) -> None:
    """The time goes back."""
    usual(it)
    at = it.draw.randrange(1, len(it.lines))
    if it.draw.random() < 0.75:
        it.replace(at, rb"(?<= )[0-9]+\.[0-9]+(?=: )", b"99.999999999")
    else:
        it.time += 2 * MILLISECOND
        it.lines.insert(at - 1, it.line(0, b"irq_handler_entry:", b"irq=1 name=x"))


def torn_open(it: Drawing) -> None:
    """Events were lost, and nothing says to go on."""
    usual(it)
    it.lose(it.draw.randrange(len(it.lines)))


def unknown_state(it: Drawing) -> None:
    """A task leaves in a state that the kernel doesn't have."""
    usual(it)
    leaves = [place for place in it.places(b"sched_switch:")
              if any(re.search(rb"(prev_comm=|sched_switch: )" + re.escape(name) + rb"( prev_pid=|:1)", it.lines[place]) for name in it.listed)]
    if leaves:
        state = it.draw.choice([b"Q", b"r", b"3", b"S-"])
        at = it.draw.choice(leaves)
        it.lines[at] = re.sub(rb"(prev_state=|\[120\] )\S+", lambda mark: mark[1] + state, it.lines[at], count=1)


def list_only(it: Drawing, names: List[bytes]) -> None:
    """These threads are listed, by their names."""
    it.listed, it.threads = names, names + OTHERS
    it.state, it.home = {name: "sleeps" for name in it.threads}, {}
    it.wishes = [Wish(name, it.pid(name), "", False) for name in names]


def two_threads(it: Drawing) -> None:
    """A name of another thread before."""
    list_only(it, [b"decode"])
    usual(it)
    mark = rb"decode( prev_pid=| next_pid=| pid=|:)10\b"
    named = [place for place, line in enumerate(it.lines) if re.search(mark, line) and MARKER not in line]
    at = it.draw.choice(named[1:] or named)
    it.lines[at] = re.sub(mark, rb"decode\g<1>77", it.lines[at], count=1)


def two_tasks(it: Drawing) -> None:
    """A thread is one task by its number and another by its name."""
    list_only(it, [b"decode", b"audio"])
    usual(it)
    wish = it.draw.choice(it.wishes)
    it.wishes.append(Wish(wish.name, wish.pid, "twice", True))


# Faults of a whole trace.


def no_trace(it: Drawing) -> None:
    """No line of a trace."""
    usual(it)
    nothing: List[List[bytes]] = [[], [b"# tracer: nop", b"#"], [b"CPU 0 is empty"], [line.replace(b": ", b"; ").replace(b".", b",") for line in it.lines]]
    it.lines, it.last_end = it.draw.choice(nothing), b"\n"


def unseen(it: Drawing) -> None:
    """A task that no line names."""
    usual(it)
    it.wishes.insert(it.draw.randrange(len(it.wishes) + 1), Wish(b"nobody", 99, "nobody", it.draw.random() < 0.3))


def unwoken(it: Drawing) -> None:
    """No wake-up of a task, where jobs begin at wake-ups. Without going on behind lost events a line would be refused before."""
    usual(it)
    it.options.pop("--begin", None)
    it.options["--lost"] = "cut"
    it.lines = [line for line in it.lines if not any(event in line for event in WAKE_UPS)]
    for name in it.listed:
        if not any(name in line and b"sched_switch" in line for line in it.lines):
            it.tell_switch(0, name, b"S", b"other")


def torn_end(it: Drawing) -> None:
    """Events were lost behind the last line."""
    usual(it)
    it.lines.append(it.draw.choice([b"CPU:0 [3 EVENTS DROPPED]", b"CPU:0 [LOST EVENTS]"]))


# Faults of a document.


def long_times(it: Drawing) -> None:
    """Times above the greatest of a document."""
    list_only(it, [b"decode", b"audio"])
    it.processors = 1
    it.home = {name: 0 for name in it.threads}
    usual(it, 0.1)
    it.options.pop("--cpu", None)
    it.options["--us"] = "1"
    it.options.pop("--strict", None)
    it.options.pop("--khz", None)
    for wish in it.wishes:
        wish.deadline = it.draw.choice([1_000_001, 1_000_001, 5_000_000]) * MILLISECOND


def much_work(it: Drawing) -> None:
    """A work above the greatest."""
    list_only(it, [b"decode", b"audio"])
    it.processors = 1
    it.home = {name: 0 for name in it.threads}
    usual(it, 0.1)
    it.options.pop("--strict", None)
    it.options.pop("--cpu", None)
    it.options.update({"--us": "1", "--khz": it.draw.choice(["1", "100"])})


def coarse_speed(it: Drawing) -> None:
    """A speed that is 0, or off by more than a twentieth, in its unit."""
    list_only(it, [b"decode", b"audio"])
    it.processors = 1
    it.home = {name: 0 for name in it.threads}
    usual(it, 0.1)
    it.options.pop("--strict", None)
    for name in ("--us", "--cpu"):
        it.options.pop(name, None)
    it.options["--khz"] = it.draw.choice(["4000000", "5000000", "1500000", "4100000"])


def no_job(it: Drawing) -> None:
    """No job can be written."""
    it.home = {name: 0 for name in it.threads}
    usual(it, 0.0)
    for wish in it.wishes:
        wish.deadline = 3_000 * MILLISECOND
    it.options["--cpu"] = it.draw.choice(["7", "8191"])


def strictly(it: Drawing) -> None:
    """A job doesn't stand, and none may be missed."""
    draw = it.draw
    draw.choice([moving, missing, fronted, torn])(it)
    it.unbound()
    it.options.update({"--strict": None, "--begin": "run"} if draw.random() < 0.3 else {"--strict": None})


# A place for each, which the numbers of traces go round.
SHOWN: List[Callable[[Drawing], None]] = [
    anything, far_processor, starving, fine_time, torn_switch, moving, torn_wake_up, missing, torn_speed, long_line,
    fronted, cut_line, no_speed, great_processor, torn, great_time, cut_off, backwards, ended_early, torn_open,
    wrong_units, unknown_state, small, two_threads, edges, two_tasks, open_at_the_end, no_trace, often_woken, unseen,
    at_run, unwoken, cut_off, torn_end, missing, long_times, torn, much_work, ended_early, coarse_speed,
    no_job, sharing, torn, strictly, edges, sharing, no_speed, open_at_the_end,
]


LACKING = (anything, starving, fronted, no_speed, torn, wrong_units, often_woken)
STAMP = re.compile(rb"(?<= )([0-9]+)\.([0-9]{1,9})(?=: )")


def drop_others(it: Drawing, draw: random.Random) -> None:
    """Switches of other threads are missing."""
    for _ in range(draw.choice([1, 2, 3])):
        found = [place for place in it.places(b"sched_switch:") if not any(name in it.lines[place] for name in it.listed)]
        if found and len(it.lines) > 1:
            del it.lines[draw.choice(found)]


def stamp_of(line: bytes) -> Optional[int]:
    """A line's time."""
    mark = STAMP.search(line)
    return int(mark[1]) * 10**9 + int(mark[2].ljust(9, b"0")) if mark else None


def later_by(line: bytes, more: int) -> bytes:
    """The line with a later stamp."""
    time = (stamp_of(line) or 0) + more
    return STAMP.sub(lambda mark: (b"%d.%09d" % (time // 10**9, time % 10**9))[: mark.end() - mark.start(2) - 9 or None], line, count=1)


def jump(it: Drawing, draw: random.Random) -> None:
    """The clock jumps ahead before a line, to a second behind the line before it, or to later than that."""
    at = draw.randrange(len(it.lines)) if draw.random() < 0.5 else max(0, len(it.lines) - draw.choice([1, 1, 2, 3]))
    before, after = (stamp_of(line) for line in it.lines[at - 1 : at + 1]) if at > 0 else (None, None)
    if before is not None and after is not None and before <= after:
        more = 10**9 - (after - before) + it.grain * draw.choice([0, 1, 1, 10**6, 60 * 10**6])
        it.lines[at:] = [line if stamp_of(line) is None else later_by(line, more) for line in it.lines[at:]]


def with_lacks(seed: int, number: int, it: Drawing) -> None:
    """Of some traces switches of other threads are missing, in some the clock jumps, and some end by a line of lost events."""
    draw = random.Random(f"lacks {seed} {number}")
    if draw.random() < 0.3:
        drop_others(it, draw)
    if draw.random() < 0.25:
        jump(it, draw)
    if draw.random() < 0.2 and "--lost" in it.options:
        it.lines.append(b"CPU:%d [LOST EVENTS]" % draw.randrange(it.processors))


PACED = (starving, moving, sharing, missing, fronted, torn, cut_off, ended_early, small, often_woken, at_run, wrong_units)


def with_pace(draw: random.Random, it: Drawing) -> None:
    """Of one trace in three tasks have periods: about the distance of their begins, much less, or the deadline."""
    if draw.random() < 0.33:
        for wish in it.wishes:
            times = sorted(time for name, time in it.wakes if name == wish.name)
            mean = max(1, (times[-1] - times[0]) // (len(times) - 1)) if len(times) > 1 else MILLISECOND
            first = times[1] - times[0] if len(times) > 1 else MILLISECOND
            just = [first, first - wish.deadline + draw.choice([0, 1, 700, UNIT - 1])]
            wish.period = max(1, draw.choice([mean, mean, 2 * mean, mean // 2, *just, wish.deadline, 1, MILLISECOND])) if draw.random() < 0.8 else 0


def with_fixed(draw: random.Random, it: Drawing) -> None:
    """Of one trace in six each processor has one speed throughout. Of some a line tells another."""
    if draw.random() < 0.16:
        khz = draw.choice([600_000, 1_000_000, 2_000_000])
        it.options.pop("--start", None)
        it.options["--fixed"] = str(khz)
        if draw.random() < 0.8:
            it.lines = [re.sub(rb"(cpu_frequency: state=)[0-9]+", rb"\g<1>%d" % khz, line) for line in it.lines]


def drawn(seed: int, number: int) -> Drawn:
    """The trace of this number."""
    draw = random.Random(f"{seed} {number}")
    show = SHOWN[number % len(SHOWN)]
    it = Drawing(draw, show is not anything)
    show(it)
    if show in LACKING:
        with_lacks(seed, number, it)
    if show in PACED:
        pace = random.Random(f"pace {seed} {number}")
        with_pace(pace, it)
        with_fixed(pace, it)
    trace = it.ends.join(it.lines) + (it.last_end if it.lines else b"")
    return Drawn(show.__name__, it.form, with_more(seed, number, with_parts(seed, number, it.words())), trace)


def with_parts(seed: int, number: int, words: List[str]) -> List[str]:
    """These words, of one trace in eight with the word for parts, and of one in eight for all processors."""
    draw = random.Random(f"parts {seed} {number}")
    drawn_number = draw.random()
    if drawn_number < 0.125:
        return draw.choice([["--parts", *words], [*words, "--parts"]])
    if drawn_number < 0.25:
        every = draw.choice([["--cpu", "all"], ["--cpu=all"], ["--cpu", "all"], ["--cpu=all", "--parts"]])
        return every + without(words, {"--cpu", "--others"})
    return words


def with_more(seed: int, number: int, words: List[str]) -> List[str]:
    """These words, of one trace in three with the word for shares of jobs that moved, and of one in three with that for other threads."""
    draw = random.Random(f"more {seed} {number}")
    more: List[List[str]] = []
    given = {word.partition("=")[0] for word in words}
    if draw.random() < 0.2 and "--moved" not in given:
        more.append(draw.choice([["--moved", "parts"], ["--moved=parts"]]))
    if draw.random() < 0.4 and "--others" not in given and not every_processor(words):
        more.append(draw.choice([["--others", "spans"], ["--others=spans"]]))
    return [word for added in more for word in added] + words


def every_processor(words: List[str]) -> bool:
    """Whether they ask for all processors."""
    return "--cpu=all" in words or ("--cpu", "all") in zip(words, words[1:])


def plain(seed: int, number: int) -> Drawn:
    """A calm trace of which many jobs are late, and in which no thread is woken twice."""
    draw = random.Random(f"plain {seed} {number}")
    it = Drawing(draw, True)
    it.rewoken = False
    usual(it, draw.choice([0.0, 0.9]))
    it.unbound()
    return Drawn("plain", it.form, it.words(), it.ends.join(it.lines) + b"\n")


# # Traces of threads that are woken as they go to sleep, come back without a wake-up, are stopped, or are over


def racing(it: Drawing) -> None:
    """Threads are woken as they go to sleep. Of each wake-up one half is told, or both."""
    it.odds = {"race": it.draw.choice([0.3, 0.6]), "second half": it.draw.choice([0.0, 0.0, 0.5, 1.0])}
    it.rewoken = it.draw.random() < 0.3
    usual(it, it.draw.choice([0.0, 0.6]))


def signalled(it: Drawing) -> None:
    """Threads leave to sleep, and come back without a wake-up, since a signal is pending: most of them once in a job."""
    it.odds = {"signal": it.draw.choice([0.1, 0.1, 0.2, 0.5]), "race": it.draw.choice([0.0, 0.1]), "second half": 0.5}
    usual(it, it.draw.choice([0.0, 0.6]))


def unwoken_often(it: Drawing) -> None:
    """They do so several times in one job, perhaps in a trace that goes on behind lost events, or whose jobs begin at their run."""
    it.odds = {"signal": it.draw.choice([0.5, 0.9])}
    it.rewoken = False
    usual(it, it.draw.choice([0.0, 0.6]))
    it.options.pop("--begin", None)
    drawn_number = it.draw.random()
    if drawn_number < 0.5:
        it.options["--lost"] = "cut"
    elif drawn_number < 0.6:
        it.options["--begin"] = "run"


def torn_asleep(it: Drawing) -> None:
    """Events were lost behind a sleep without a wake-up, most of them while its job goes on, which is late then."""
    it.odds = {"signal": it.draw.choice([0.3, 0.5])}
    it.sleepy, it.rewoken = 0.7, False
    usual(it, 0.9)
    it.unbound()
    it.options.pop("--begin", None)
    it.options["--lost"] = "cut"
    backs = [place for place in it.listed_switches() if place > len(it.lines) // 3]
    it.lose(it.draw.choice(backs) + 1 if backs else None)


def stopping(it: Drawing) -> None:
    """Threads are stopped and traced within their jobs."""
    it.odds = {"stop": 0.6}
    it.sleepy = it.draw.choice([0.2, 0.4])
    usual(it, it.draw.choice([0.0, 0.8]))


def exiting(it: Drawing) -> None:
    """Threads are over, and now and then the number of one is that of another one then."""
    it.odds = {"exit": it.draw.choice([0.02, 0.1, 0.3]), "again": it.draw.choice([0.0, 0.0, 0.0, 1.0])}
    it.run(30)
    it.odds["exit"], it.sleepy = 1.0, 1.0
    for name in it.listed:
        if it.state[name] == "sleeps":
            it.wake(name, 0)
            it.state[name] = "ready"
    for _ in range(12):
        it.wait([0, 40_000, 900_000])
        it.switch(it.draw.randrange(it.processors))
    it.ask(it.draw.choice([0.0, 0.0, 0.6]))
    if it.draw.random() < 0.2:
        it.unbound()
        it.options["--strict"] = None


def hanging(it: Drawing) -> None:
    """A job is due before `--from`, and is open then."""
    it.odds = it.draw.choice([{}, {"stop": 0.5}, {"signal": 0.05}])
    it.sleepy = it.draw.choice([0.2, 0.5])
    usual(it, 0.3)
    it.unbound()
    name, begin, end = it.draw.choice([span for span in it.spans if span[2] - span[1] > 5 * UNIT] or [(it.listed[0], it.begun, it.time)])
    at = it.draw.choice([(begin + end) // 2, end - it.grain, end, begin + 3 * UNIT])
    it.options["--from"] = it.seconds(at)
    wish = next(wish for wish in it.wishes if wish.name == name)
    wish.deadline = max(UNIT, it.draw.choice([(at - begin) // 2, (at - begin) // 2, at - begin - it.grain, at - begin, at - begin + 1]))
    if it.draw.random() < 0.65 and at + 1 < end:
        it.options["--to"] = it.seconds(it.draw.choice([at + it.grain, (at + end) // 2, end - 1]))


def marked(it: Drawing) -> None:
    """Threads have names within which the mark stands that ends such a name."""
    list_only(it, it.draw.sample(MARKED, it.draw.choice([1, 2])) + [b"decode"])
    it.odds = {"race": 0.2, "second half": 0.5}
    for wish in it.wishes:
        wish.by_number, wish.label = True, f"t{wish.pid}"
    usual(it, 0.3)


def renamed(it: Drawing) -> None:
    """Threads get other names, which may be those of other tasks."""
    it.odds = {"rename": it.draw.choice([0.1, 0.2]), "race": 0.1}
    it.rewoken = it.draw.random() < 0.3
    for wish in it.wishes:
        is_label = re.fullmatch(b"[!-~]{1,53}", wish.name) is not None
        wish.by_number = not is_label or (wish.by_number and it.draw.random() < 0.5)
    usual(it, 0.3)


def first_elsewhere(it: Drawing) -> None:
    """The first switch of a processor that the trace has is a thread's leaving: it was elsewhere since the trace's begin, or it wasn't."""
    it.processors, it.home, it.sleepy = it.draw.choice([2, 2, 3]), {}, 0.7
    usual(it, it.draw.choice([0.0, 0.9]))
    it.unbound()
    it.options.pop("--begin", None)
    processor = it.draw.randrange(it.processors)
    own = [place for place in it.places(b"sched_switch:") if b"[%03d]" % processor in it.lines[place]]
    leaves = [place for place in own if any(re.search(rb"(prev_comm=|sched_switch: )" + re.escape(name) + rb"( prev_pid=|:1)", it.lines[place])
                                            for name in it.listed)]
    first = it.draw.choice(leaves[1:] or leaves or [0])
    it.lines = [line for place, line in enumerate(it.lines) if place >= first or place not in own]


def own_switches(it: Drawing, comes: bool) -> List[int]:
    """The places of the switches by which a listed thread comes, or leaves."""
    before, behind = (rb"(next_comm=|==> )", rb"( next_pid=|:1)") if comes else (rb"(prev_comm=|sched_switch: )", rb"( prev_pid=|:1)")
    return [place for place in it.places(b"sched_switch:")
            if any(re.search(before + re.escape(name) + behind, it.lines[place]) for name in it.listed)]


def holes(it: Drawing) -> None:
    """Switches by which a listed thread comes or leaves are missing, and nothing says so: one in a hundred, or more, and one at least."""
    it.odds = it.draw.choice([{}, {}, {"race": 0.3, "second half": 0.5}, {"signal": 0.05}])
    it.draw.choice([usual, usual, moving, sharing, often_woken, at_run])(it)
    it.unbound()
    kinds = it.draw.choice([[True], [False], [True, False]])
    found = sorted({place for comes in kinds for place in own_switches(it, comes)})
    odds = it.draw.choice([0.01, 0.01, 0.05, 0.2])
    gone = [place for place in found if it.draw.random() < odds] or [it.draw.choice(found)] if found else []
    it.lines = [line for place, line in enumerate(it.lines) if place not in gone]
    if it.draw.random() < 0.6:
        it.options["--lost"] = "cut"


def silent(it: Drawing) -> None:
    """The lines of a processor end before those of the others, by less than a second or by more. Perhaps a task has it then."""
    it.processors, it.sleepy = it.draw.choice([2, 2, 3]), it.draw.choice([0.3, 0.6])
    it.home = it.draw.choice([{}, it.home])
    usual(it, it.draw.choice([0.1, 0.7]))
    it.unbound()
    quiet = it.draw.randrange(it.processors)
    comes = [place for place in own_switches(it, True) if b"[%03d]" % quiet in it.lines[place]]
    at = it.draw.choice(comes) + 1 if comes and it.draw.random() < 0.6 else it.draw.randrange(1, len(it.lines))
    it.lines = it.lines[:at] + [line for line in it.lines[at:] if b"[%03d]" % quiet not in line]
    for _ in range(it.draw.choice([1, 1, 3])):
        it.wait([MILLISECOND, 10**9, 10**9, 10**9 + it.grain, 600 * MILLISECOND, 40 * 10**9])
        it.write((quiet + 1) % it.processors, b"irq_handler_entry:", b"irq=1 name=x")
    if it.draw.random() < 0.5:
        it.options["--cpu"] = str(quiet)
    if it.draw.random() < 0.2:
        it.options["--to"] = it.seconds(it.time - it.draw.choice([0, 1, 100 * MILLISECOND]))
    if it.draw.random() < 0.3:
        it.options["--lost"] = "cut"


def unsure(it: Drawing) -> None:
    """The front is cut off within a job, which ends later than its deadline from the first line on that is left."""
    usual(it, 0.1)
    it.unbound()
    it.options.pop("--begin", None)
    name, begin, end = it.draw.choice([span for span in it.spans if span[2] - span[1] > 5 * UNIT] or [(it.listed[0], it.begun, it.time)])
    behind = [place for place, line in enumerate(it.lines) if (stamp_of(line) or 0) > 100 * 10**9 + begin]
    if behind:
        last, it.time = it.time, begin + it.grain
        first = it.line(0, b"irq_handler_entry:", b"irq=1 name=x")
        it.lines, it.time = [first] + it.lines[behind[0] :], last
        wish = next(wish for wish in it.wishes if wish.name == name)
        wish.deadline = max(UNIT, end - begin - it.grain - it.draw.choice([1, 1, 1, UNIT, -1, 0]))


def renamed_running(it: Drawing) -> None:
    """A thread gets a task's name while it has a processor."""
    list_only(it, [b"decode"])
    it.run(30)
    for _ in range(9):
        it.state[b"other"] = "ready" if it.state[b"other"] == "sleeps" else it.state[b"other"]
        it.switch(it.draw.randrange(it.processors))
        if b"other" in it.on.values():
            break
        it.wait([1_000, 40_000])
    it.called[b"other"] = b"fresh"
    for _ in range(it.draw.choice([10, 30])):
        it.step()
    it.wishes.append(Wish(b"fresh", it.pid(b"other"), "fresh", it.draw.random() < 0.1))
    it.ask()


def torn_elsewhere(it: Drawing) -> None:
    """A leaving is missing, and another task came to another processor since that one's switch before, and has it at its next one."""
    it.processors, it.home, it.sleepy = it.draw.choice([2, 2, 3]), {}, 0.3
    list_only(it, it.draw.sample(NAMES[:2] + [b"kworker/0:1"], it.draw.choice([2, 3])))
    usual(it, it.draw.choice([0.0, 0.6]))
    it.unbound()
    switches = {place: it.lines[place][it.lines[place].index(b"[00") :][:5] for place in it.places(b"sched_switch:")}
    comes, found = own_switches(it, True), []
    for gone in own_switches(it, False):
        own = [place for place, processor in switches.items() if processor == switches[gone]]
        before, behind = [place for place in own if place < gone][-1:], [place for place in own if place > gone][:1]
        others = [place for place in comes if before and behind and before[0] < place < behind[0] and switches[place] != switches[gone]]
        if any(not any(place < more < behind[0] and switches[more] == switches[place] for more in switches) for place in others):
            found.append(gone)
    if found:
        del it.lines[it.draw.choice(found)]
    if it.draw.random() < 0.8:
        it.options["--lost"] = "cut"


def due_before(it: Drawing) -> None:
    """By its period a job is due within the unit of time in which it begins, and ends by then."""
    it.steps = [0, 300, 700, 3_000, 9_000, 12_000, 40_000, 900_000, 4_000_000]
    usual(it, 0.1)
    it.unbound()
    it.options.pop("--begin", None)
    it.options["--us"] = "1000"
    for wish in it.wishes:
        wish.deadline, wish.apart = MILLISECOND, 0
        own = [(begin, end) for name, begin, end in it.spans if name == wish.name]
        apart = [begin - before for (before, _), (begin, _) in zip(own, own[1:])]
        longest = [place for place, time in enumerate(apart) if time > max([2 * MILLISECOND, *(more + MILLISECOND for more in apart[:place])])]
        for begin, end in [own[place + 1] for place in longest if own[place + 1][1] - own[place + 1][0] < MILLISECOND][:1]:
            most = apart[own.index((begin, end)) - 1] - MILLISECOND
            wish.period = most + it.draw.choice([end - begin, (end - begin + MILLISECOND) // 2, MILLISECOND - 1, MILLISECOND])


def mixed(it: Drawing) -> None:
    """All of these, with lines that are missing, a front that is cut off, or lost events."""
    it.odds = {"race": 0.2, "second half": 0.5, "signal": 0.05, "stop": 0.3, "exit": 0.02, "again": 0.3}
    it.draw.choice([anything, fronted, missing, torn, moving, sharing])(it)


DOZES: List[Callable[[Drawing], None]] = [
    racing, signalled, unwoken_often, torn_asleep, stopping, exiting, hanging, marked, renamed, first_elsewhere, mixed, holes, silent, unsure, renamed_running,
    torn_elsewhere, due_before,
]


def dozing(seed: int, number: int) -> Drawn:
    """The trace of this number of threads that sleep, and don't."""
    draw = random.Random(f"dozing {seed} {number}")
    show = DOZES[number % len(DOZES)]
    it = Drawing(draw, show is not mixed or draw.random() < 0.5)
    it.halves = draw.choice([HALVES, HALVES[:1], HALVES[1:2], HALVES[3:], HALVES[2:]])
    show(it)
    pace = random.Random(f"pace of dozing {seed} {number}")
    if show is not due_before:
        with_pace(pace, it)
        with_fixed(pace, it)
    trace = it.ends.join(it.lines) + (it.last_end if it.lines else b"")
    return Drawn(show.__name__, it.form, with_more(seed, number, with_parts(seed, number, it.words())), trace)


# # Words with a mistake


def mistaken(seed: int, number: int, words: List[str]) -> List[str]:
    """These words, which can be taken, with a mistake, with a word that asks for a text, or with files."""
    draw = random.Random(f"words {seed} {number}")
    tasks = next(at for at, word in enumerate(words) if word.startswith("--tasks"))
    rest = words[:tasks] + words[tasks + (2 if words[tasks] == "--tasks" else 1) :]
    mistake = MISTAKES[number % len(MISTAKES)]
    if isinstance(mistake, str):
        listed = words[tasks + 1] if words[tasks] == "--tasks" else words[tasks].partition("=")[2]
        place = draw.choice([0, len(listed)])
        parts = [listed, mistake] if place else [mistake, listed]
        return rest + ["--tasks", mistake if draw.random() < 0.3 else ",".join(parts)]
    added = list(draw.choice(mistake))
    if added == ["TWICE"]:
        return words + draw.choice([["--lost=cut"] * 2, ["--strict"] * 2, ["--parts"] * 2, ["--moved=parts"] * 2, ["--fixed=5"] * 2, ["--tasks", "a:1"], ["--us", "10", "--us", "10"]])
    if added == ["NONE"]:
        return rest
    names = {word.partition("=")[0] for word in added}
    kept = without(words, names)
    at = len(kept) if added[-1] in ("--to", "--khz", "--tasks") else draw.choice([0, len(kept)])
    return kept[:at] + added + kept[at:]


def without(words: List[str], names: "set[str]") -> List[str]:
    """The words but for these settings."""
    kept: List[str] = []
    rest = list(words)
    while rest:
        word = rest.pop(0)
        own = [word] if "=" in word or word in ("--strict", "--parts") else [word, rest.pop(0)]
        if word.partition("=")[0] not in names:
            kept += own
    return kept


# A text is a task that can't be taken. A list has words that can't, files, or words that ask for a text. These places go round.
MISTAKES: List[object] = [
    [["--nonsense"], ["-h"], ["--cpus=2"], ["--Strict"], ["--tasks2", "a:1"]],
    [["cpu=1"], ["wo\nrd"], [""], ["-"], ["one", "two"], ["--", "-x"]],
    [["--strict=yes"], ["--strict="], ["--help=1"], ["--parts=1"]],
    [["--to"], ["--khz"], ["--tasks"]],
    [["TWICE"]],
    [["--cpu=x"], ["--cpu", "8192"], ["--cpu", "01"], ["--cpu", "-1"], ["--cpu="], ["--cpu", "ALL"], ["--cpu=all,0"], ["--cpu", "al"]],
    [["--us", "0"], ["--us=1000000001"], ["--us=1.5"]],
    [["--khz=01"], ["--khz", "0"], ["--khz", "4294967296"]],
    [["--start", "0"], ["--start=4294967296"], ["--start", "1e6"], ["--start", "0:1,1:0"], ["--start=0:1:1"], ["--start", "2:"]],
    [["--start=8192:1"], ["--start", "0:1,x:1"], ["--start=:1"], ["--start=0:1,00:1"]],
    [["--start=0:1,1"], ["--start", "600000,700000"], ["--start", "0:1,"], ["--start=,"]],
    [["--start=0:1,2:1,0:1"], ["--start", "3:1,3:2"]],
    [["--start", ",".join(f"{number}:9" for number in range(1_001))]],
    [["--fixed", "0"], ["--fixed=4294967296"], ["--fixed", "1e6"], ["--fixed", "0:1"], ["--fixed="]],
    [["--fixed", "1000000", "--start=1000000"], ["--start", "0:1", "--fixed=9"]],
    [["--from=1.1234567890"], ["--to", "9223372036.854775808"], ["--from", "+"], ["--from=++2"], ["--to", "+2s"], ["--to=1."], ["--from=.5"]],
    [["--from=5", "--to=5"], ["--from", "2.000000001", "--to", "2"], ["--from=+5", "--to=+5"], ["--from", "+1", "--to", "+0.5"]],
    [["--begin=wake"], ["--begin", "Run"], ["--begin="]],
    [["--lost", "all"], ["--lost=cuts"]],
    [["--moved", "part"], ["--moved=all"], ["--moved="]],
    [["--others", "span"], ["--others=1"], ["--others="]],
    [["--cpu=all", "--others=spans"], ["--others", "spans", "--cpu", "all"]],
    [["NONE"]],
    [["--tasks", ",".join(f"t{number}:9" for number in range(1_001))]],
    "decoder", "de coder:9", ":9", "x=y:9", "4294967296=y:9", "01=y:9", "0=y:9", "y:", "y:9.1234567", "y:1,5", "y:0.000999", "y:0",
    "y:9:", "y:9:x", "y:9:1:0", "y:9::1:2", "y:9,y:10", "5=y:9,5=z:9", "=y:9", "y\\:9", "q" * 54 + ":9",
    [["--help"]],
    [["--version"]],
]
