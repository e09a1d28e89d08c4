"""exchanged.py: takes lines of a drawn trace out of the order of their times, for trace.py, table.py, long.py and everywhere.py.

Each way leads to one thing that the definition of that order speaks of (docs/definitions.md): an event behind one that is
later, behind 64 and 65 of them, by a millisecond and by a nanosecond more, over a line of lost events, over `--from` and
`--to`. What a trace has of these in the end is counted by trace.py, in the order of the second reading.
"""

import random
import re
from typing import Callable, List, NamedTuple, Optional, Tuple

from drawn import Drawn, without

STAMP = re.compile(rb"(\[)([0-9]+)(\](?: [^ ]+)? +)([0-9]+)\.([0-9]+): ")
PASSED, BACK = 64, 1_000_000


class Stamp(NamedTuple):
    """A line's processor and time, and the least time that its digits tell, in nanoseconds."""

    processor: int
    time: int
    grain: int


def stamp(line: bytes) -> Optional[Stamp]:
    """That of a line, if it has one."""
    mark = STAMP.search(line)
    if mark is None or len(mark[5]) > 9:
        return None
    return Stamp(int(mark[2]), int(mark[4]) * 10**9 + int(mark[5].ljust(9, b"0")), 10 ** (9 - len(mark[5])))


def filler(line: bytes, processor: int, time: int) -> bytes:
    """A line like this one, of an event that says nothing of threads, on this processor and at this time."""
    mark = STAMP.search(line)
    assert mark is not None
    told = b"%d.%s" % (time // 10**9, (b"%09d" % (time % 10**9))[: len(mark[5])])
    end = b"\r" if line.endswith(b"\r") else b""
    return line[: mark.start()] + b"[%03d" % processor + mark[3] + told + b": irq_handler_entry: irq=1 name=x" + end


class Text:
    """The lines of a trace, and its words."""

    def __init__(self, draw: random.Random, words: List[str], trace: bytes) -> None:
        self.draw, self.words = draw, words
        self.lines = trace.split(b"\n")
        # What no line feed ends stays the last.
        self.last = self.lines.pop()

    def trace(self) -> bytes:
        """The trace."""
        return b"\n".join([*self.lines, self.last])

    def stamps(self) -> List[Tuple[int, Stamp]]:
        """The places of the lines with a stamp."""
        return [(at, found) for at, line in enumerate(self.lines) for found in [stamp(line)] if found is not None]

    def pairs(self) -> List[int]:
        """The places at which two events follow each other, the second later by at most a millisecond."""
        found = self.stamps()
        return [at for (at, one), (behind, two) in zip(found, found[1:]) if behind == at + 1 and one.time < two.time <= one.time + BACK]

    def pair(self) -> Optional[int]:
        """One of these places; better one with two processors."""
        found = self.pairs()
        return self.draw.choice(found) if found else None

    def exchange(self, at: int) -> None:
        """Two neighbours."""
        self.lines[at], self.lines[at + 1] = self.lines[at + 1], self.lines[at]

    def set_word(self, name: str, value: str) -> None:
        """A word has this value."""
        self.words = [name, value, *without(self.words, {name})]

    def time_word(self, time: int) -> str:
        """A time as the words have it."""
        return f"{time // 10**9}.{time % 10**9:09d}".rstrip("0").rstrip(".")


# # The ways


def neighbours(it: Text) -> None:
    """Neighbours are exchanged."""
    chance = it.draw.choice([0.1, 0.5, 1.0])
    last = -2
    for at in it.pairs():
        if at > last + 1 and it.draw.random() < chance:
            it.exchange(at)
            last = at


def scattered(it: Text, chance: float = 0.3) -> None:
    """Events stand some lines behind their places, at most 64 and by at most a millisecond."""
    for at in range(len(it.lines) - 1, -1, -1):
        if it.draw.random() < chance:
            drift(it, at, it.draw.choice([1, 1, 2, 3, 9, PASSED]))


def drift(it: Text, at: int, most: int) -> None:
    """An event stands behind so many lines at most that are behind it."""
    own, behind = stamp(it.lines[at]), at
    while own is not None and behind < min(at + most, len(it.lines) - 1):
        other = stamp(it.lines[behind + 1])
        if other is None or not own.time <= other.time <= own.time + BACK:
            break
        behind += 1
    it.lines.insert(behind, it.lines.pop(at))


def gaps(it: Text) -> List[Tuple[int, Stamp, int]]:
    """The places of events behind which time passes, with the latest time before the next one."""
    found = it.stamps()
    ends = [two.time - two.grain for _, two in found[1:]] + [2**62]
    return [(at, one, min(end, one.time + BACK)) for (at, one), end in zip(found, ends) if one.time < end]


def crowd(it: Text, many: int) -> None:
    """An event stands behind so many that are later."""
    found = gaps(it)
    if found:
        at, own, end = it.draw.choice(found)
        places = [one.processor for _, one in it.stamps()]
        times = sorted(own.time + own.grain * it.draw.randrange(1, max(2, min(90, (end - own.time) // own.grain + 1))) for _ in range(many))
        it.lines[at:at] = [filler(it.lines[at], it.draw.choice(places), time) for time in times]


def as_far_as_may_be(it: Text) -> None:
    """Behind 64 that are later."""
    crowd(it, PASSED)


def one_too_far(it: Text) -> None:
    """Behind 65."""
    crowd(it, PASSED + 1)


def late_by(it: Text, more: int) -> None:
    """An event stands behind one that is a millisecond later, and so many of its least times."""
    found = it.stamps()
    if found:
        at, own = it.draw.choice(found)
        it.lines.insert(at, filler(it.lines[at], it.draw.choice(found)[1].processor, own.time + BACK + more * own.grain))


def a_millisecond(it: Text) -> None:
    """By a millisecond."""
    late_by(it, 0)


def more_than_a_millisecond(it: Text) -> None:
    """By the least time more."""
    late_by(it, 1)


def of_one_stamp(it: Text) -> None:
    """Two events of one stamp stand behind a later one."""
    found = it.stamps()
    equal = [(at, one) for (at, one), (behind, two) in zip(found, found[1:]) if behind == at + 1 and one.time == two.time]
    if equal:
        at, own = it.draw.choice(equal)
        it.lines.insert(at, filler(it.lines[at], own.processor, own.time + it.draw.choice([1, 1, 9]) * own.grain))


def over_a_loss(it: Text) -> None:
    """Neighbours are exchanged, and a line of lost events is between them, or beside them."""
    at = it.pair()
    if at is not None:
        it.exchange(at)
        it.lines.insert(at + it.draw.choice([0, 0, 0, 1, 1, 2]), b"CPU:%d [LOST EVENTS]" % it.draw.choice([0, 0, 1]))
        if it.draw.random() < 0.7:
            it.set_word("--lost", "cut")


def over_an_end(it: Text, name: str) -> None:
    """Neighbours are exchanged, and this word's time is between them."""
    at = it.pair()
    if at is not None:
        one, two = stamp(it.lines[at]), stamp(it.lines[at + 1])
        assert one is not None and two is not None
        it.exchange(at)
        it.words = without(it.words, {"--from", "--to"})
        it.set_word(name, it.time_word(it.draw.choice([one.time, (one.time + two.time) // 2, two.time])))


def over_from(it: Text) -> None:
    """Over `--from`."""
    over_an_end(it, "--from")


def over_to(it: Text) -> None:
    """Over `--to`."""
    over_an_end(it, "--to")


def behind_to(it: Text) -> None:
    """Behind `--to` an event stands too far back."""
    found = it.stamps()
    if len(found) > 3:
        _, end = found[it.draw.randrange(len(found) // 2)]
        behind = [at for at, one in found if one.time > end.time]
        it.words = without(it.words, {"--from", "--to"})
        it.set_word("--to", it.time_word(end.time))
        if len(behind) > 1:
            at = it.draw.choice(behind[:-1])
            last = stamp(it.lines[behind[-1]])
            assert last is not None
            it.lines.insert(at, filler(it.lines[at], last.processor, last.time + it.draw.choice([2, 5]) * BACK))


def in_parts(it: Text) -> None:
    """Events stand some lines behind their places, in documents in parts."""
    if not {"--parts", "--cpu=all"} & set(it.words) and ("--cpu", "all") not in zip(it.words, it.words[1:]):
        it.words = ["--parts", *it.words] if it.draw.random() < 0.5 else ["--cpu", "all", *without(it.words, {"--cpu", "--others"})]
    scattered(it)


def before_a_fault(it: Text) -> None:
    """Neighbours are exchanged, and one of them is refused, or the line behind them."""
    at = it.pair()
    if at is not None:
        it.exchange(at)
        place = at + it.draw.choice([0, 1, 1, 2])
        if place < len(it.lines):
            it.lines[place] = STAMP.sub(it.draw.choice([rb"[9000\g<3>\g<4>.\g<5>: ", rb"[\g<2>\g<3>\g<4>.\g<5>0000000: "]), it.lines[place], count=1)


WAYS: List[Callable[[Text], None]] = [
    neighbours, scattered, as_far_as_may_be, one_too_far, a_millisecond, more_than_a_millisecond, of_one_stamp, over_a_loss, over_from, over_to,
    behind_to, in_parts, before_a_fault,
]


def exchanged(seed: int, number: int, it: Drawn) -> Drawn:
    """The trace with lines out of order, in the way of this number."""
    text = Text(random.Random(f"exchanged {seed} {number}"), list(it.words), it.trace)
    WAYS[number % len(WAYS)](text)
    return it._replace(words=text.words, trace=text.trace())


def strewn(draw: random.Random, lines: List[bytes]) -> List[bytes]:
    """The lines of a long trace, of which some events stand behind their places."""
    text = Text(draw, [], b"\n".join(lines) + b"\n")
    scattered(text, draw.choice([0.001, 0.05, 0.3]))
    return text.lines
