"""The threads of a kernel's trace, as `yds_trace --tasks ?` tells them, and the tasks that are asked for by their names."""

from __future__ import annotations

import re
from difflib import get_close_matches
from fractions import Fraction
from typing import Dict, Iterable, List, NamedTuple, Optional, Sequence, Tuple

from yds._text import NO, Fault, Line, counted, printable

__all__ = ["Thread", "Threads", "read", "tasks"]

MOST_TASKS = 1000
MOST_LABEL = 53
"""The limits of yds_trace: tasks, and bytes of what their jobs are called."""
_SIGNS = ",:="
_HEAD = re.compile(r"threads ([0-9]{1,9})").fullmatch
_MORE = re.compile(r"# and ([0-9]{1,18}) more threads?").fullmatch
_ROW = re.compile(r"([0-9]{1,10})\t([0-9]{1,20}\.[0-9]{6})\t([0-9]{1,18})\t([0-9]{1,18})\t([^\t]*)").fullmatch
_TIMES = re.compile(r"[0-9]{1,19}(?:\.[0-9]{1,6})?(?::[0-9]{1,19}(?:\.[0-9]{1,6})?)?").fullmatch
_PID = re.compile(r"[0-9]{1,10}").fullmatch
_PLAIN = re.compile(r"[!->@-~]+").fullmatch
"""A name by which yds_trace finds its thread: visible signs, and no ?, which stands in the table for others, too."""


class Thread(NamedTuple):
    """A thread of a trace."""

    pid: int
    ran: Fraction
    """For how many milliseconds it had a processor."""
    wake_ups: int
    switches: int
    """How often it came to a processor."""
    name: str
    """As the trace has it, with ? for each control byte."""


class Threads(NamedTuple):
    """The threads of a trace, those that ran longest first."""

    threads: List[Thread]
    more: int
    """How many there are that the table doesn't have."""


class _Asked(NamedTuple):
    """A task that is asked for, or several of one form."""

    text: str
    pid: Optional[int]
    name: str
    is_front: bool
    """Whether the name is the begin of names."""
    times: str
    """The deadline, and perhaps APART, as they are written."""


def read(lines: Iterable[Line]) -> Threads:
    """The table of these lines. One that is cut short is a fault, and so is another text."""
    wanted: Optional[int] = None
    more = 0
    found: List[Thread] = []
    for line in lines:
        head, row, others = _HEAD(line.text), _ROW(line.text), _MORE(line.text)
        if line.fields[:1] and line.fields[0] in NO:
            raise line.fault(f"the input is an answer of no: {printable(line.text)}")
        if wanted is None:
            if head is None:
                raise line.fault(f'"{printable(line.text)}" begins no table of threads; give what yds_trace --tasks ? writes')
            wanted = int(head.group(1))
        elif row is not None:
            pid, ran, wake_ups, switches, name = row.groups()
            found.append(Thread(int(pid), Fraction(ran), int(wake_ups), int(switches), name))
        elif others is not None:
            more = int(others.group(1))
        elif not line.text.startswith("#"):
            raise line.fault(f'"{printable(line.text)}" is no thread: PID, ran_ms, wake_ups, switches and name, parted by tabs')
    if wanted != len(found):
        told = counted(wanted or 0, "thread", "threads")
        raise Fault(f"the table has {len(found)} of {told}: it is cut short" if wanted else "no thread; look at what wrote it")
    return Threads(found, more)


def tasks(asked: str, threads: Threads) -> List[str]:
    """The tasks for `yds_trace --tasks`, one a thread, in the order of what is asked for and then of the table.

    asked: as `worker*:12,audio:10`. A name that ends with * is each thread whose name begins so. Where a name is that of
    one thread, it stays; else each of its threads is PID=NAME-PID. Fault is raised where a name is none, where a thread
    is named twice, or where there are more than 1,000 tasks; its text names similar names.

    >>> table = Threads([Thread(7, Fraction(1), 1, 1, "worker1"), Thread(8, Fraction(1), 1, 1, "worker2")], 0)
    >>> tasks("worker*:12", table), tasks("worker2:16.667:20", table)
    (['7=worker1-7:12', '8=worker2-8:12'], ['worker2:16.667:20'])
    """
    found: List[str] = []
    by: Dict[int, str] = {}
    for one in map(_asked, _split(_letters(asked), ",")):
        named = _named(one, threads)
        for thread in named:
            if thread.pid in by:
                who = f"{printable(thread.name)}, the thread {thread.pid},"
                raise Fault(f"{who} is named by {by[thread.pid]} and by {one.text}; let one of them name it")
            by[thread.pid] = one.text
            found.append(_spelled(one, thread, len(named)))
        if len(found) > MOST_TASKS:
            raise Fault(f"{one.text} makes {len(found)} tasks, and yds_trace takes {MOST_TASKS}; name fewer threads")
    return found


def has_front(asked: str) -> bool:
    """Whether a name of these ends with *, so that it may be that of a thread which isn't in the table."""
    return any(_asked(letters).is_front for letters in _split(_letters(asked), ","))


# --- What is asked for.

_Letter = Tuple[str, bool]
"""A sign of a word, and whether it parts: a backslash before a comma, a colon, an equals sign or a star makes it a letter."""


def _letters(text: str) -> List[_Letter]:
    found: List[_Letter] = []
    place = 0
    while place < len(text):
        is_letter = text[place] == "\\" and text[place + 1 : place + 2] in [*_SIGNS, "*"]
        place += is_letter
        found.append((text[place], not is_letter and text[place] in _SIGNS + "*"))
        place += 1
    return found


def _split(letters: Sequence[_Letter], sign: str) -> List[Sequence[_Letter]]:
    places = [place for place, letter in enumerate(letters) if letter == (sign, True)]
    return [letters[begin:end] for begin, end in zip([0, *(place + 1 for place in places)], [*places, len(letters)])]


def _text(letters: Iterable[_Letter]) -> str:
    return "".join(letter for letter, _ in letters)


def _asked(letters: Sequence[_Letter]) -> _Asked:
    """One task, as PID=NAME:DEADLINE:APART."""
    called, *times = _split(letters, ":")
    shown = printable(_text(letters))
    first, *rest = _split(called, "=")
    name = called if not rest else called[len(first) + 1 :]
    if not times or not name:
        raise Fault(f"{shown or 'an empty task'} is no NAME:DEADLINE, as worker*:12 or 57=ui:16.667")
    told = ":".join(map(_text, times))
    if not _TIMES(told):
        raise Fault(f"{printable(told)} of {shown} is no deadline: milliseconds with at most six decimals, and perhaps :APART")
    if rest and not _PID(_text(first)):
        raise Fault(f"{printable(_text(first))} of {shown} is no number of a thread")
    is_front = name[-1] == ("*", True) and not rest
    return _Asked(shown, int(_text(first)) if rest else None, _text(name[:-1] if is_front else name), is_front, told)


# --- Whom it names.


def _named(one: _Asked, threads: Threads) -> List[Thread]:
    """The threads that are asked for."""
    if one.pid is not None:
        found = [thread for thread in threads.threads if thread.pid == one.pid]
    elif one.is_front:
        found = [thread for thread in threads.threads if thread.name.startswith(one.name)]
    else:
        found = [thread for thread in threads.threads if thread.name == one.name]
    if not found:
        raise Fault(_none(one, threads))
    return found


def _none(one: _Asked, threads: Threads) -> str:
    """What is told where nobody is named."""
    more = ""
    if threads.more:
        ran = counted(threads.more, "thread that ran", "threads that ran")
        more = f"; the table lacks {ran} shortest"
    if one.pid is not None:
        return f"no thread has the number {one.pid} of {one.text}{more}"
    names = list(dict.fromkeys(thread.name for thread in threads.threads))
    near = get_close_matches(one.name, names, 3, 0.5)
    near += [name for name in names if one.name.lower() in name.lower() and name not in near][: 3 - len(near)]
    what = "begins with" if one.is_front else "is"
    similar = f"; similar: {', '.join(map(printable, near))}" if near else ""
    return f"no thread's name {what} {printable(one.name)}{similar}{more}"


def _spelled(one: _Asked, thread: Thread, many: int) -> str:
    """The task of a thread, as yds_trace reads it."""
    if one.pid is not None:
        return f"{one.pid}={_escaped(one.name)}:{one.times}"
    if not one.is_front and many == 1 and _PLAIN(one.name) and len(one.name) <= MOST_LABEL and one.name[-1] != "\\":
        return f"{_escaped(one.name)}:{one.times}"
    number = f"-{thread.pid}"
    name = re.sub(r"[^!-~]", "_", thread.name)[: MOST_LABEL - len(number)]
    return f"{thread.pid}={_escaped(name + number)}:{one.times}"


def _escaped(name: str) -> str:
    return re.sub(f"[{_SIGNS}]", r"\\\g<0>", name)
