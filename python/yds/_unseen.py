"""What a document's comments tell of jobs that couldn't be judged, and whether that can hide a missed deadline."""

from __future__ import annotations

import re
from typing import Dict, Iterable, List, NamedTuple, Sequence, Tuple

from yds._comments import LEFT_OUT, left_out_jobs, note_of
from yds._heads import closing
from yds._lacking import CLOCK, HOLES, JUMPED, MARKERS, NOT_JUDGED, NOT_WHOLE, SILENT, SWITCHES, lack_of
from yds._text import counted
from yds._timeline import task_of
from yds._unknown import EXITED, OfThread, of_thread


class Unjudged(NamedTuple):
    """Something that wasn't judged."""

    told: str
    """What, and why."""
    hides: bool
    """Whether it can hide a missed deadline."""
    why: str
    """Why it can, or can't."""
    jobs: int = 0
    """How many jobs that are."""


_REFUSED = re.compile(r"# refuse ([^ ]+) from [0-9]+ to [0-9]+ work ").match
_NOT_DUE = re.compile(r"# not due by [0-9]+: (.+)").fullmatch
_WRONG_UNIT = re.compile(r"# (the deadline|APART) of .*: is it in another unit\?").fullmatch
_SHORT = re.compile(r"# [0-9]+ stretch(es)? within one unit of time, ").match

_CUT = "it lies outside what was asked for"
_KNOWN = "its begin and its end are known, and it wasn't late"
_UNKNOWN = "it isn't known whether it was late"
_REASONS: List[Tuple[str, bool, str]] = [
    ("before from", False, _CUT),
    ("after to", False, _CUT),
    ("not ended", True, "the trace ended before its deadline"),
    ("ran on ", False, _KNOWN),
    ("frequency not known", False, _KNOWN),
    ("due before it begins", False, _KNOWN),
]
"""The begins of reasons, whether a job left out for it can be late, and why."""
_OF_LACKS: Dict[str, Tuple[bool, str]] = {
    HOLES: (True, NOT_JUDGED),
    SWITCHES: (False, f"{NOT_WHOLE}; where a switch of a listed task is missing, its job is told"),
    MARKERS: (False, "they tell of no thread that ran"),
    CLOCK: (True, JUMPED),
    SILENT: (True, NOT_JUDGED),
}
"""Of each kind of what a trace lacks, whether it can hide a missed deadline, and why."""


def unjudged(comments: Sequence[str], jobs: int) -> List[Unjudged]:
    """What wasn't judged, by the comments of a document that has so many jobs; what can hide a miss goes first."""
    lossy = any(lack is not None and lack.kind == HOLES for lack in map(lack_of, comments))
    found = [*_left_out(comments, lossy), *_others(comments), *_by_count(comments, jobs)]
    return sorted(found, key=lambda one: not one.hides)


class _Group:
    """Jobs of one task that were left out for one reason."""

    def __init__(self, first: str, count: int = 1) -> None:
        self.first = self.last = first
        self.count = count


def _left_out(comments: Iterable[str], lossy: bool) -> List[Unjudged]:
    """The jobs that were left out, by task and reason."""
    groups: Dict[Tuple[str, str], _Group] = {}
    told: List[Tuple[str, int, str]] = []
    for text in comments:
        several = left_out_jobs(text)
        if several is not None:
            told.append((text.split(": ", 1)[1], several.number, several.reason))
            continue
        note = note_of(text)
        if note is None or note.kind != LEFT_OUT or note.late is not None:
            continue
        key = task_of(note.job), note.reason
        if key in groups:
            groups[key].count += 1
            groups[key].last = note.job
        else:
            groups[key] = _Group(note.job)
    for (task, reason), group in groups.items():
        if group.count == 1:
            told.append((f"{group.first} ({reason})", 1, reason))
        else:
            which = f"the first {group.first}, the last {group.last}"
            told.append((f"{group.count} jobs of {task} ({reason}), {which}", group.count, reason))
    return [Unjudged(f"left out: {text}", *_judged(reason, lossy), count) for text, count, reason in told]


def _judged(reason: str, lossy: bool) -> Tuple[bool, str]:
    """Whether a job that was left out for this reason can be late, and why."""
    for begin, hides, why in _REASONS:
        if reason.startswith(begin):
            if lossy and why == _KNOWN:
                return True, "events were lost, and perhaps its end"
            return hides, why
    return True, _UNKNOWN


def _others(comments: Iterable[str]) -> List[Unjudged]:
    """What else the comments tell. Of several parts the last one's number of what the trace lacks holds."""
    found: List[Unjudged] = []
    lacking: Dict[str, Unjudged] = {}
    for text in comments:
        refused, not_due, lack, thread = _REFUSED(text), _NOT_DUE(text), lack_of(text), of_thread(text)
        if refused is not None:
            found.append(Unjudged(f"refused by admit: {refused.group(1)}", True, "it isn't served at all", 1))
        elif not_due is not None:
            found.append(Unjudged(text[2:], True, "these jobs aren't in the document"))
        elif lack is not None:
            lacking[lack.kind] = Unjudged(lack.told, *_OF_LACKS[lack.kind])
        elif thread is not None:
            found.append(_of_its_thread(text, thread))
        elif _WRONG_UNIT(text):
            found.append(Unjudged(text[2:], True, "in another unit each job may be in time, or late"))
        elif _SHORT(text):
            found.append(Unjudged(text[2:], False, "a job that was late in one is told"))
    return [*found, *lacking.values()]


def _of_its_thread(text: str, thread: OfThread) -> Unjudged:
    """What a job's thread did that no run shows."""
    if thread.kind == EXITED:
        return Unjudged(text[2:], True, "its thread was over, perhaps before the job was done")
    return Unjudged(text[2:], False, "it is one job, from its wake-up on")


def _by_count(comments: Iterable[str], jobs: int) -> List[Unjudged]:
    """What the closing line of a trace's document tells: how many jobs were written."""
    found = [closed.written for closed in map(closing, comments) if closed is not None]
    written = sum(found)
    if not found or written == jobs:
        return []
    told = f"the closing line tells {counted(written, 'job', 'jobs')}, and {counted(jobs, 'is', 'are')} here"
    return [Unjudged(told, written > jobs, "jobs were taken away" if written > jobs else "jobs were added", 0)]
