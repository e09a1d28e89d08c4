"""The answers of yds-misses to the parts as one: each miss by its slot and its times in the whole, and their number."""

from __future__ import annotations

import re
from typing import List, Optional

from yds._answers import Answers, printable
from yds._comments import workless
from yds._heads import lines_of
from yds._lacking import AS_FAR, lack_of, of_parts
from yds._spelled import moved
from yds._text import counted
from yds._unknown import is_told
from yds._unknown import of_parts as unknown_of_parts

_LATE = re.compile(rb"late slot ([0-9]+) ([^ ]+) ([0-9]+(?:\+[0-9]+/[0-9]+)?) deadline ([0-9]+)(, .*)").fullmatch
_TOLD = re.compile(rb"(?:work [^ ]+ given|[a-z ,]+: [^ ]+) .*|[a-z ,]+: [^ ]+").fullmatch
_WINDOW = re.compile(rb"; window (-?[0-9]+) (-?[0-9]+)")
_WORKLESS = re.compile(rb"# ([0-9]+) jobs? ha(?:s|ve) no work: .*, the first ([^ ]+)").fullmatch
_COUNT = re.compile(rb"([0-9]+) missed deadlines?|feasible(?: as far as the trace shows)?").fullmatch


class MissedOfParts:
    """The lines of all parts."""

    def __init__(self, answers: Answers) -> None:
        self._answers = answers
        self._workless = 0
        self._first_workless = ""
        self._slots = 0
        self.misses: List[bytes] = []
        for place in range(len(answers.parts)):
            self._read(place)
        answers.stop_at_faults()
        self._lacking = of_parts(answers.parts).whole()
        self._unknown = unknown_of_parts(answers.parts)

    @property
    def is_open(self) -> bool:
        """Whether no deadline is known to be missed, and the trace doesn't show enough for a yes."""
        return not self.misses and (self._lacking.may_hide or self._unknown.may_hide)

    def _read(self, place: int) -> None:
        *lines, last = (line.rstrip(b"\n") for line in lines_of(self._answers.answers[place]))
        count = _COUNT(last)
        numbers = self._numbers(place)
        found = [self._miss(place, line, numbers) for line in lines if not self._is_comment(line)]
        misses = [line for line in found if line is not None]
        if count is None or len(misses) != int(count.group(1) or 0):
            here = counted(len(misses), "missed deadline", "missed deadlines")
            self._answers.refuse(place, f"ends with {printable(last)}, and tells {here}")
        elif misses:
            self._answers.tell(place, printable(last))
        self.misses += misses

    def _is_comment(self, line: bytes) -> bool:
        """Whether the line is a comment: those on jobs without work are added up, the rest the parts tell themselves."""
        found = _WORKLESS(line)
        if found is not None:
            self._workless += int(found.group(1))
            self._first_workless = self._first_workless or found.group(2).decode("latin-1")
        text = line.decode("latin-1")
        return found is not None or lack_of(text) is not None or is_told(text)

    def _miss(self, place: int, line: bytes, numbers: List[int]) -> Optional[bytes]:
        """The line with the slot's number and the times of the whole; None where it can't be read."""
        shift = self._answers.heads[place].shift
        late = _LATE(line)
        if late is not None and 1 <= int(late.group(1)) <= len(numbers):
            slot, name, end, due, rest = late.groups()
            due = moved(due, shift)
            return b"late slot %d %b %b deadline %b%b" % (numbers[int(slot) - 1], name, moved(end, shift), due, rest)
        if late is not None or not _TOLD(line):
            self._answers.refuse(place, f'"{printable(line)}" is no line of yds-misses that suits this part')
            return None
        return _WINDOW.sub(lambda found: b"; window %d %d" % tuple(int(time) + shift for time in found.groups()), line)

    def _numbers(self, place: int) -> List[int]:
        """The number in the whole of each slot and run of the part. A comment tells one that isn't the next."""
        found = []
        for line in lines_of(self._answers.parts[place]):
            if line.startswith((b"slot ", b"run ")):
                self._slots += 1
                found.append(self._slots)
            elif line.startswith(b"# slot ") and b" after " in line:
                self._slots = int(line.split()[2]) - 1
        return found

    def lines(self) -> List[bytes]:
        """The lines of the whole."""
        told = [workless(self._workless, self._first_workless)] if self._workless else []
        told += [*self._unknown.beside_verdict(), *self._lacking.beside_verdict()]
        met = "feasible" + (AS_FAR if self.is_open else "")
        count = len(self.misses)
        end = counted(count, "missed deadline", "missed deadlines") if count else met
        return [*self.misses, *(text.encode("latin-1") for text in [*told, end])]
