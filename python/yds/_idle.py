"""Threads that aren't listed and that are taken for idle, as the user says (--idle): they don't count as others."""

from __future__ import annotations

from typing import Dict, Iterable, List

from yds._comments import IDLE_THREADS, OtherSpan
from yds._text import counted, printable


class Idle:
    """The names, and for how many ticks a thread of each had the processor while a job waited."""

    def __init__(self, names: Iterable[str] = ()) -> None:
        self.ticks: Dict[str, int] = {name: 0 for name in names}

    def takes(self, span: OtherSpan) -> bool:
        """Whether the span is one of such a thread. Then its time is added up."""
        if span.name not in self.ticks:
            return False
        self.ticks[span.name] += span.end - span.start
        return True

    def told(self) -> List[str]:
        """A comment for each name."""
        return [f"# {IDLE_THREADS}{printable(name)}, {_for(ticks)}" for name, ticks in self.ticks.items()]


def _for(ticks: int) -> str:
    if not ticks:
        return "which no comment names"
    return f"which had the processor for {counted(ticks, 'tick', 'ticks')} while a job waited"
