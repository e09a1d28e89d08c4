"""What comments of yds_trace tell that a trace lacks: events, switches of other threads, time, a processor's lines at
the end; and what programs wrote.

A part of a trace tells what was counted from the trace's begin up to where the part ends. So of several comments of one
kind the last one holds.
"""

from __future__ import annotations

import re
from typing import Dict, Iterable, List, NamedTuple, Optional

from yds._heads import Text, opened

HOLES = "places where events were lost"
SWITCHES = "switches of other threads that are missing"
MARKERS = "lines that programs wrote into the trace"
SILENT = "no line of CPU"
CLOCK = "no line for"
_COUNTED = re.compile(
    rf"# ({HOLES}|{SWITCHES}|{MARKERS})(, up to here)?(?:: ([0-9]{{1,20}})(?:: .*)?| .*|:.*)?"
).fullmatch
_LINES = re.compile(rb"^# (?:up to here, no|places|switches|lines|no line) .*$", re.MULTILINE).findall
"""Lines that may be such comments, of a text of many."""
_UNTOLD = re.compile(r"# (up to here, )?no line for (.*)").fullmatch
_LENGTH = re.compile(r"([0-9.]{1,30}) s, from ([0-9.]{1,30}) s on: did the clock jump\?(?: .*)?").fullmatch
_SILENT = re.compile(r"# (up to here, )?no line of CPU (.*)").fullmatch
_OF_CPU = re.compile(
    r"([0-9]{1,10}) for ([0-9.]{1,30}) s, from ([0-9.]{1,30}) s on(?: to the end)?: what it did then isn't known(?:: .*)?"
).fullmatch
UNREAD = "?"
"""What is told of a number that can't be read: the comment still tells that something is missing."""

AS_FAR = " as far as the trace shows"
"""Behind the word that says that deadlines were met."""
NOT_JUDGED = "whole jobs may have been there"
NOT_SPENT = "what ran there is in no line"
NOT_WHOLE = "the time of others isn't whole"
JUMPED = "if it did, times behind it are later than they were; if nothing was recorded, whole jobs may have been there"


class Lack(NamedTuple):
    """What one comment tells."""

    kind: str
    """HOLES, SWITCHES, MARKERS, CLOCK or SILENT."""
    amount: str
    """How many; of CLOCK and SILENT how many seconds."""
    since: str
    """Of these, from when on, in seconds of the trace's clock; else empty."""
    is_up_to_here: bool
    """Whether it's told of the trace up to the end of a part."""
    processor: str = ""
    """Of SILENT, which one; else empty."""

    @property
    def told(self) -> str:
        """The comment without its #."""
        if self.kind == CLOCK:
            here = "up to here, " if self.is_up_to_here else ""
            return f"{here}no line for {self.amount} s, from {self.since} s on: did the clock jump?"
        if self.kind == SILENT:
            here, end = ("up to here, ", "") if self.is_up_to_here else ("", " to the end")
            told = f"no line of CPU {self.processor} for {self.amount} s, from {self.since} s on{end}"
            return f"{here}{told}: what it did then isn't known"
        return f"{self.kind}{', up to here' if self.is_up_to_here else ''}: {self.amount}"


def lack_of(text: str) -> Optional[Lack]:
    """What the comment tells; None where it is none of these.

    >>> lack_of("# places where events were lost, up to here: 3")
    Lack(kind='places where events were lost', amount='3', since='', is_up_to_here=True, processor='')
    >>> lack_of("# no line for 60.001000000 s, from 100.001000000 s on: did the clock jump?").amount
    '60.001000000'
    """
    counted, untold, silent = _COUNTED(text), _UNTOLD(text), _SILENT(text)
    if counted is not None:
        return Lack(counted.group(1), counted.group(3) or UNREAD, "", counted.group(2) is not None)
    if untold is not None:
        length = _LENGTH(untold.group(2))
        amount, since = (UNREAD, UNREAD) if length is None else length.groups()
        return Lack(CLOCK, amount, since, untold.group(1) is not None)
    if silent is not None:
        length = _OF_CPU(silent.group(2))
        processor, amount, since = (UNREAD, UNREAD, UNREAD) if length is None else length.groups()
        return Lack(SILENT, amount, since, silent.group(1) is not None, processor)
    return None


class Lacking:
    """What the comments of a document, or of several parts one after another, tell."""

    def __init__(self) -> None:
        self.found: Dict[str, Lack] = {}

    def take(self, text: str) -> bool:
        """Reads a comment, and says whether it was one of these."""
        lack = lack_of(text)
        if lack is not None:
            self.found[lack.kind] = lack
        return lack is not None

    def told(self, kind: str) -> str:
        """What is told of this kind; empty where nothing is."""
        return self.found[kind].told if kind in self.found else ""

    @property
    def may_hide(self) -> bool:
        """Whether whole jobs may have been there of which no line tells."""
        return not self.found.keys().isdisjoint((HOLES, CLOCK, SILENT))

    def beside_verdict(self) -> List[str]:
        """Comments that say beside a verdict on deadlines of what it isn't."""
        holes, silent = ([f"# {self.told(kind)}: {NOT_JUDGED}"] if kind in self.found else [] for kind in (HOLES, SILENT))
        return holes + ([f"# {self.told(CLOCK)} {JUMPED}"] if CLOCK in self.found else []) + silent

    def beside_energy(self) -> List[str]:
        """Comments that say beside energies what is in none of them."""
        holes = [f"# {self.told(HOLES)}: {NOT_SPENT}"] if HOLES in self.found else []
        return holes + ([f"# {self.told(SWITCHES)}: {NOT_WHOLE}"] if SWITCHES in self.found else [])

    def whole(self) -> Lacking:
        """The same, told of the whole trace, as what the last part tells is."""
        found = Lacking()
        found.found = {kind: lack._replace(is_up_to_here=False) for kind, lack in self.found.items()}
        return found

    def comments(self) -> List[str]:
        """The comments of yds_trace themselves, in the order in which it writes them."""
        return [f"# {self.found[kind].told}" for kind in (HOLES, SWITCHES, MARKERS, CLOCK, SILENT) if kind in self.found]


def of_parts(parts: Iterable[Text]) -> Lacking:
    """What the parts of a trace tell together, in their order."""
    found = Lacking()
    for part in parts:
        with opened(part) as source:
            for line in _LINES(source.read()):
                found.take(line.rstrip(b"\r").decode("latin-1"))
    return found
