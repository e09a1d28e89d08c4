"""yds: a planner and auditor for jobs on one processor whose speed can be changed.

It says when each job runs and how fast, so that every deadline is met with the least energy. It is the program yds_cli
as a library: each answer has the program's bytes as `text`, and its numbers as ints and Fractions.

>>> import yds
>>> document = yds.Document(jobs=[("a", 0, 12, 4), ("b", 2, 10, 8), ("c", 4, 6, 6)])
>>> plan = document.plan()
>>> for slot in plan.slots:
...     print(slot.job, slot.start, slot.end, slot.speed)
a 0 2 1
b 2 4 4/3
c 4 6 3
b 6 10 4/3
a 10 12 1

A yes and a no are values; Refused is raised where the document has a fault.

What is proved is the library under this package: yds.answer hands words and bytes to it, and gives back what it wrote.
This package spells documents and reads answers, and is only tested.
"""

from __future__ import annotations

from importlib import import_module
from typing import TYPE_CHECKING, Any, List

from yds._version import VERSION as __version__

if TYPE_CHECKING:
    from yds import energy, pictures, schedule
    from yds._library import Answer, Status, answer
    from yds._many import map
    from yds.document import Admission, Document, Expansion, OneLevel, Plan, Rounded, Run, draw, expand, trial
    from yds.errors import OutOfMemory, Refused, UsageError, YdsError
    from yds.policy import Moment, Pending, Policy, Simulation, simulate
    from yds.results import (
        Break,
        Comparison,
        Curve,
        Judgement,
        Least,
        Overload,
        Refusal,
        Report,
        ReportLevel,
        Side,
        TooSlow,
        Trial,
        Verdict,
    )
    from yds.rows import Exact, Job, Level, Piece, Point, Rows, Slot, Task

__all__ = [
    "Admission",
    "Answer",
    "Break",
    "Comparison",
    "Curve",
    "Document",
    "Exact",
    "Expansion",
    "Job",
    "Judgement",
    "Least",
    "Level",
    "Moment",
    "OneLevel",
    "OutOfMemory",
    "Overload",
    "Pending",
    "Piece",
    "Plan",
    "Point",
    "Policy",
    "Refusal",
    "Refused",
    "Report",
    "ReportLevel",
    "Rounded",
    "Rows",
    "Run",
    "Side",
    "Simulation",
    "Slot",
    "Status",
    "Task",
    "TooSlow",
    "Trial",
    "UsageError",
    "Verdict",
    "YdsError",
    "answer",
    "draw",
    "energy",
    "expand",
    "map",
    "pictures",
    "schedule",
    "simulate",
    "trial",
]

_FROM = {
    "yds._library": "Answer Status answer",
    "yds._many": "map",
    "yds.document": "Admission Document Expansion OneLevel Plan Rounded Run draw expand trial",
    "yds.errors": "OutOfMemory Refused UsageError YdsError",
    "yds.policy": "Moment Pending Policy Simulation simulate",
    "yds.results": "Break Comparison Curve Judgement Least Overload Refusal Report ReportLevel Side TooSlow Trial "
    "Verdict",
    "yds.rows": "Exact Job Level Piece Point Rows Slot Task",
}
"""The names of each module, which is read when one of them is asked for. So a command that moves text alone starts at
once, and where there is no shared object."""

_PLACES = {name: module for module, names in _FROM.items() for name in names.split()}
_MODULES = frozenset("document energy errors jobs parts pictures points policy results rows schedule tables tasks".split())


def __getattr__(name: str) -> Any:
    """A name of the package."""
    if name in _PLACES:
        value = getattr(import_module(_PLACES[name]), name)
    elif name in _MODULES:
        value = import_module(f"yds.{name}")
    else:
        raise AttributeError(f"module 'yds' has no attribute {name!r}")
    globals()[name] = value
    return value


def __dir__() -> List[str]:
    return sorted({*globals(), *__all__})
