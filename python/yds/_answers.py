"""The answers to the parts of a long document, beside their parts: what kind they are, and whether none is missing."""

from __future__ import annotations

import re
from typing import Callable, List, NamedTuple, Optional, Sequence, Tuple

from yds._heads import Head, PartsError, Text, called, lines_of, opened, read_head

_JUDGEMENT = re.compile(rb"accepted|K[1-7] .*")
_REPORT = re.compile(rb"jobs [0-9]+ work [0-9]+ from [0-9]+ to [0-9]+")
_TEXT = re.compile(rb"job \S+ [0-9]+ [0-9]+ [0-9]+|point [0-9]+ [0-9]+")
_TOO_SLOW = re.compile(rb"too-slow work ([0-9]+) length ([0-9]+) top ([0-9]+)")
_NUMBER = rb"(0|[1-9][0-9]*)"
_FRACTION = rb"(0|[1-9][0-9]*)(\+(0|[1-9][0-9]*)/[1-9][0-9]*)?"
_VERDICT = re.compile(
    rb"feasible|work \S+ given %b wanted %b|(backward|overlap|early|late|off-point) slot %b \S+ %b \S.*"
    % (_FRACTION, _NUMBER, _NUMBER, _FRACTION)
)
SIDE = re.compile(
    rb"\S+ (energy %b|time %b %b|rounded %b|too-slow units %b from %b to %b top %b)"
    % (_FRACTION, _NUMBER, _FRACTION, _NUMBER, _FRACTION, _FRACTION, _FRACTION, _NUMBER)
)
_MISSED = re.compile(rb"(?:\A|\n)(?:[0-9]+ missed deadlines?|feasible as far as the trace shows)\n\Z").search
FAMILIES = (("audit", _VERDICT), ("check", _JUDGEMENT), ("report", _REPORT), ("energies", SIDE), ("text", _TEXT))


class TooSlow(NamedTuple):
    """A part's answer that the top point is too slow."""

    part: int
    work: int
    length: int
    top: int


class Answers:
    """The parts and the answers to them, in order. What is wrong with them is collected, and raised at once."""

    def __init__(self, parts: Sequence[Text], answers: Sequence[Text]) -> None:
        if not answers:
            raise PartsError("no answer is named")
        if len(parts) != len(answers):
            raise PartsError(f"there are {len(parts)} parts and {len(answers)} answers to them")
        self.parts = parts
        self.answers = answers
        self.heads: List[Head] = []
        self.told: List[str] = []
        self.too_slow: List[TooSlow] = []
        self._faults: List[str] = []
        self._without_points = 0
        for place in range(len(parts)):
            self._see_end(place)
        self.stop_at_faults()
        for place in range(len(parts)):
            self._read_head(place)
        self.stop_at_faults()
        if not self.heads[-1].last:
            raise PartsError(
                f"{self.name(len(parts) - 1)}: is not the last part; the answers to the parts after it aren't among "
                "those named"
            )
        self.family = ""

    @property
    def open_cuts(self) -> int:
        """At how many cuts a window is open."""
        return sum(head.windows_open for head in self.heads)

    @property
    def start(self) -> int:
        """The first release of all."""
        return self.heads[0].start

    @property
    def end(self) -> int:
        """The last deadline of all."""
        return max(head.end for head in self.heads)

    @property
    def horizons(self) -> int:
        """From first release to last deadline of each part, together."""
        return sum(head.end - head.start for head in self.heads)

    def name(self, place: int) -> str:
        """How a message names the answer to this part, counted from 0."""
        return called(self.answers[place], place + 1, "answer")

    def part_name(self, place: int) -> str:
        """How a message names this part."""
        return called(self.parts[place], place + 1, "text")

    def refuse(self, place: int, text: str) -> None:
        """This answer can't be taken."""
        self._faults.append(f"{self.name(place)}: {text}")

    def tell(self, place: int, text: str) -> None:
        """This answer says no."""
        self.told.append(f"{self.name(place)}: {text}")

    def stop_at_faults(self) -> None:
        """Raises what was refused, the first ten."""
        if self._faults:
            raise PartsError("\n".join(self._faults[:10] + ["and more"] * (len(self._faults) > 10)))

    def _see_end(self, place: int) -> None:
        try:
            with opened(self.answers[place]) as source:
                size = source.seek(0, 2)
                source.seek(max(size - 1, 0))
                last = source.read(1)
        except OSError:
            return self.refuse(place, "can't be read")
        if not size:
            self.refuse(place, "is empty: lack of memory, or the program didn't run")
        elif last != b"\n":
            self.refuse(place, "ends without a line feed: it was cut")

    def _read_head(self, place: int) -> None:
        if not isinstance(self.parts[place], bytes) and self.parts[place] == self.answers[place]:
            return self.refuse(place, "is the part; the answer to it has another ending, as .plan")
        try:
            with opened(self.parts[place]) as source:
                head = read_head(source.readline(1000))
        except OSError:
            return self.refuse(place, f"there is no part {self.part_name(place)}; say where the parts are (--folder)")
        if head is None:
            return self.refuse(place, f"{self.part_name(place)} is no part of a long document")
        if self.heads and head.cpu != self.heads[0].cpu:
            both = f"is the answer to a part of {processor(head)}, and the first one of {processor(self.heads[0])}"
            self.refuse(place, f"{both}; give those of one processor (yds-whole --cpu N)")
            self.stop_at_faults()
        if head.number != place + 1:
            self.refuse(place, f"is the answer to part {head.number}, and that to part {place + 1} is missing")
            self.stop_at_faults()
        if head.last and place + 1 < len(self.parts):
            self.refuse(place + 1, "the part before it is the last")
        if self.heads and head.first != self.heads[-1].final + 1:
            self.refuse(place, f"its jobs don't follow those of part {place}; is it a part of another document?")
        self.heads.append(head)

    def classify(self) -> None:
        """Finds what command the answers are of. All without points is the answer of none, 'refused no-table'."""
        if any(map(self._tells_misses, range(len(self.answers)))):
            self.family = "misses"
            return
        for place in range(len(self.answers)):
            self._classify(place)
        if self._without_points == len(self.answers):
            self.family = "no-table"
            return
        self.stop_at_faults()

    def _tells_misses(self, place: int) -> bool:
        """Whether the answer is one of yds-misses. Its bare `feasible` is that of audit, too, which has no comments."""
        with opened(self.answers[place]) as source:
            first = source.read(1)
            source.seek(max(source.seek(0, 2) - 100, 0))
            end = source.read()
        return _MISSED(end) is not None or (first == b"#" and end.endswith(b"\nfeasible\n"))

    def _classify(self, place: int) -> None:
        first = next((line for line in lines_of(self.answers[place]) if not line.startswith(b"#")), b"").rstrip(b"\n")
        if first.startswith((b"refused", b"failed", b"usage:")):
            self._without_points += first == b"refused no-table"
            return self.refuse(place, printable(first) + self._at_line(place, first))
        slow = _TOO_SLOW.fullmatch(first)
        if slow is not None:
            self.tell(place, printable(first))
            self.too_slow.append(TooSlow(place, *map(int, slow.groups())))
            return
        family = next((name for name, pattern in FAMILIES if pattern.fullmatch(first)), None)
        if family is None:
            self.refuse(place, f'"{printable(first)}" is no line of an answer that can be put together')
        elif self.family and family != self.family:
            self.refuse(place, "another kind of answer than that to part 1")
        else:
            self.family = family

    def _at_line(self, place: int, answer: bytes) -> str:
        """The line of the part that is refused."""
        words = answer.split()
        if len(words) != 4 or words[0] != b"refused":
            return ""
        wanted = int(words[1])
        line = next((line for number, line in enumerate(lines_of(self.parts[place]), 1) if number == wanted), b"")
        return f", in {self.part_name(place)}: {printable(line.rstrip())}"

    def only_line(self, place: int) -> bytes:
        """The one line of a verdict."""
        lines = lines_of(self.answers[place])
        line = next(lines)
        more = next(lines, None)
        if more is not None:
            self.refuse(place, f'"{printable(more)}" stands after the verdict')
        return line.rstrip(b"\n")


def processor(head: Head) -> str:
    """What is said of the processor of a part."""
    return "a trace of one processor" if head.cpu is None else f"processor {head.cpu}"


def printable(line: bytes) -> str:
    """At most 60 bytes of a line, without what could move a terminal's cursor."""
    text = re.sub(rb"[^ -~]", b"?", line.rstrip(b"\n")).decode("ascii")
    return text if len(text) <= 60 else text[:60] + ".."
