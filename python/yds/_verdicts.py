"""The verdicts of audit and check on the parts as one."""

from __future__ import annotations

import re
from typing import Dict, List, Optional, Tuple

from yds._answers import Answers
from yds._heads import lines_of
from yds._spelled import lowest, moved
from yds._spelling import read_fraction

_AFTER = re.compile(rb"# slot [0-9]+ after (no slot|(slot|run) [0-9]+(\+[0-9]+/[0-9]+)?)")


class Verdict:
    """The auditor's verdict on the whole: slots before works, and the first slot before others.

    Of one slot, backward goes before overlap, and overlap before the others.
    """

    def __init__(self, answers: Answers) -> None:
        self._answers = answers
        self._of_slots: Dict[int, List[bytes]] = {}
        self._of_work: Optional[bytes] = None
        self._first: Optional[Tuple[int, int, bytes]] = None
        self._count = 0
        self._end: Optional[bytes] = None
        for place in range(len(answers.parts)):
            self._read(place)
        answers.stop_at_faults()
        for place in range(len(answers.parts)):
            self._look_at_slots(place)
        answers.stop_at_faults()

    def _read(self, place: int) -> None:
        line = self._answers.only_line(place)
        if line == b"feasible":
            return
        self._answers.tell(place, line.decode("ascii", "replace"))
        if line.startswith(b"work "):
            self._of_work = self._of_work or line
        else:
            self._of_slots[place] = line.split()

    def _look_at_slots(self, place: int) -> None:
        """Finds the slot of the verdict, and slots that begin before the one above them in another part has ended.

        A slot has the number after that of the slot above it, also in the part before. Where it hasn't, a comment
        before it tells its number in the whole, and the end of the slot above it there.
        """
        verdict = self._of_slots.get(place)
        wanted = int(verdict[2]) if verdict else -1
        shift = self._answers.heads[place].shift
        number, above = self._count, self._end
        count, ticks = 0, 1
        last = b""
        for line in lines_of(self._answers.parts[place]):
            if line.startswith((b"slot ", b"run ")):
                number += 1
                count += 1
                last = line
                if verdict and count == wanted:
                    rank = 1 if verdict[0] == b"backward" else 3
                    self._offer(number, rank, _numbered(verdict, number, shift))
                if above is not None:
                    kind, job, start = line.split()[:3]
                    self._look_above(number, job, _units(kind, start, ticks, shift), above)
                    above = None
            elif line.startswith(b"ticks "):
                ticks = int(line.split()[1])
            elif line.startswith(b"# slot "):
                fields = line.split()
                if _AFTER.fullmatch(line.rstrip(b"\n")):
                    number = int(fields[2]) - 1
                    above = None if fields[4] == b"no" else _units(fields[4], fields[5], ticks, 0)
        self._count = number
        if last:
            kind, _, _, end = last.split()[:4]
            self._end = _units(kind, end, ticks, shift)
        if verdict and not 1 <= wanted <= count:
            self._answers.refuse(place, f"tells of slot {wanted}, and the part has {count}")

    def _look_above(self, number: int, job: bytes, start: bytes, above: bytes) -> None:
        if read_fraction(start) < read_fraction(above):
            self._offer(number, 2, b"overlap slot %d %b %b previous %b" % (number, job, start, above))

    def _offer(self, number: int, rank: int, line: bytes) -> None:
        if self._first is None or (number, rank) < self._first[:2]:
            self._first = number, rank, line

    @property
    def line(self) -> bytes:
        """The verdict."""
        if self._first is not None:
            return self._first[2]
        return self._of_work or b"feasible"


def _units(kind: bytes, text: bytes, ticks: int, shift: int) -> bytes:
    """A slot's time, or a run's in ticks, in units of time of the whole, as the program writes it."""
    if kind == b"run":
        whole, rest = divmod(int(text), ticks)
        text = b"%d+%d/%d" % (whole, rest, ticks) if rest else b"%d" % whole
    elif read_fraction(text).denominator == 1:
        text = lowest(read_fraction(text))
    return moved(text, shift)


def _numbered(verdict: List[bytes], number: int, shift: int) -> bytes:
    """The verdict with the slot's number and times of the whole."""
    fields = list(verdict)
    fields[2] = b"%d" % number
    last = 5 if fields[0] in (b"backward", b"off-point") else 6
    for place in (4, last):
        fields[place] = moved(fields[place], shift)
    return b" ".join(fields)


def judgement(answers: Answers) -> bytes:
    """The verdict of check: accepted, or the first condition that fails."""
    first: Optional[bytes] = None
    for place in range(len(answers.parts)):
        line = answers.only_line(place)
        if line == b"accepted":
            continue
        answers.tell(place, line.decode("ascii", "replace"))
        if first is None or line[:2] < first[:2]:
            first = line
    answers.stop_at_faults()
    return first or b"accepted"
