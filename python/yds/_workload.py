"""The JSON of an rt-app workload: its text as JSON, and its tasks."""

from __future__ import annotations

import json
import re
from fractions import Fraction
from typing import Any, Dict, List, NamedTuple, Optional, Sequence, Tuple

from yds._text import Fault, printable

_ATTRIBUTE = re.compile(
    r"loop|cpus|instance|delay|policy|priority|dl-runtime|dl-period|dl-deadline|util_min|util_max|taskgroup"
    r"|nodes_membind|phases"
).fullmatch
_KIND = re.compile(r"runtime|run|timer|sleep|yield").match
MOST_NAME = 59

Pairs = List[Tuple[str, Any]]


class _Object(Dict[str, Any]):
    """An object of JSON, and a key that stands twice in it."""

    twice: Optional[str] = None


def parsed(text: str) -> Dict[str, Any]:
    """The object of a workload's text, which may have comments, and commas before closing brackets."""
    try:
        found = json.loads(
            _plain(text), object_pairs_hook=_object, parse_float=_decimal, parse_int=_decimal, parse_constant=_decimal
        )
    except RecursionError:
        raise Fault("the JSON has too many brackets within one another") from None
    except json.JSONDecodeError as fault:
        raise Fault(f"{fault.msg} at line {fault.lineno}, column {fault.colno}") from None
    if not isinstance(found, dict):
        raise Fault("the input is no JSON object")
    twice = _twice(found, [])
    if twice:
        advice = "every reader of JSON keeps but one; number the keys, as run0 and run1"
        raise Fault(f"the key {twice} stands twice, and {advice}")
    return found


_NUMBER = re.compile(r"-?[0-9]{1,30}(\.[0-9]{1,30})?([eE][-+]?[0-9]{1,2})?").fullmatch


def _decimal(text: str) -> Fraction:
    if not _NUMBER(text):
        raise Fault(f"{printable(text)} is no number that is read here")
    return Fraction(text)


def _object(pairs: Pairs) -> _Object:
    found = _Object(pairs)
    names = [name for name, _ in pairs]
    found.twice = next((name for place, name in enumerate(names) if name in names[:place]), None)
    return found


def _twice(value: Any, path: List[str]) -> str:
    """Where a key stands twice; empty where none does."""
    if isinstance(value, _Object):
        if value.twice is not None:
            return ".".join([*path, value.twice])
        inner = value.items()
    elif isinstance(value, list):
        inner = {str(place): one for place, one in enumerate(value)}.items()
    else:
        return ""
    return next((found for name, one in inner for found in [_twice(one, [*path, name])] if found), "")


_TOKEN = re.compile(r'"(?:\\.|[^"\\])*"?|//[^\n]*|/\*.*?(?:\*/|$)|,(?=(?:\s|//[^\n]*|/\*.*?\*/)*[\]}])', re.DOTALL)


def _plain(text: str) -> str:
    """The text as JSON: comments and spare commas are blank, so that lines and columns stay."""

    def blank(found: "re.Match[str]") -> str:
        token = found.group()
        return token if token.startswith('"') else re.sub(r"[^\n]", " ", token)

    return _TOKEN.sub(blank, text)


class Events(NamedTuple):
    """The events of one phase, in microseconds."""

    run: Fraction
    runs: int
    period: Optional[Fraction]
    """Of its timer; None where it has none."""
    sleep: Fraction


class Phase(NamedTuple):
    """A phase: where it stands, how often it loops (below 0 for ever), its object and its events."""

    where: str
    loop: int
    given: Dict[str, Any]
    events: Events


class Instance(NamedTuple):
    """An instance of a task."""

    name: str
    task: Dict[str, Any]

    @property
    def cpus(self) -> List[int]:
        """The CPUs that it is bound to; none where nothing is said."""
        cpus = self.task.get("cpus")
        found = cpus if isinstance(cpus, list) else [] if cpus is None else [cpus]
        return [int(number(cpu, f"{self.name}: cpus")) for cpu in found]

    @property
    def delay(self) -> Fraction:
        """Microseconds before its first event."""
        return number(self.task.get("delay") or Fraction(0), f"{self.name}: the delay")

    @property
    def loop(self) -> int:
        """How often its phases are gone through; below 0 for ever."""
        return _loop(self.task, self.name, -1)

    def phases(self) -> List[Phase]:
        """Its phases; the task itself where it has none."""
        if "phases" not in self.task:
            return [Phase(self.name, 1, self.task, events(self.task, self.name))]
        given = self.task["phases"]
        if not isinstance(given, dict) or not given:
            raise Fault(f"{self.name}: phases is no object with a phase")
        found = []
        for key, phase in given.items():
            where = f"{self.name}, phase {key}"
            if not isinstance(phase, dict):
                raise Fault(f"{where}: no object")
            found.append(Phase(where, _loop(phase, where, 1), phase, events(phase, where)))
        return found

    def deadline(self, phase: Phase) -> Fraction:
        """Microseconds from a release to its deadline."""
        assert phase.events.period is not None
        for given in (phase.given, self.task):
            for name in ("dl-deadline", "dl-period"):
                if given.get(name):
                    return number(given[name], f"{phase.where}: {name}")
        return phase.events.period


def _loop(given: Dict[str, Any], where: str, usual: int) -> int:
    loop = given.get("loop")
    if loop is None or loop is False:
        return usual
    if not isinstance(loop, Fraction) or loop.denominator != 1:
        raise Fault(f"{where}: loop is no whole number")
    return int(loop)


def number(value: Any, what: str) -> Fraction:
    """The value of a number of 0 or more."""
    if not isinstance(value, Fraction) or value < 0:
        raise Fault(f"{what} is no number")
    return value


def events(given: Dict[str, Any], where: str) -> Events:
    """The events of a phase; a fault where its jobs depend on more than time."""
    run = sleep = Fraction(0)
    runs = sleeps = 0
    timers: List[Fraction] = []
    for key, value in given.items():
        if _ATTRIBUTE(key):
            continue
        found = _KIND(key)
        kind = found.group() if found else ""
        if kind == "run":
            run, runs = run + number(value, f"{where}: {key}"), runs + 1
        elif kind == "timer":
            period = value.get("period") if isinstance(value, dict) else None
            timers.append(number(period, f"{where}: the period of {key}"))
        elif kind == "sleep":
            sleep, sleeps = sleep + number(value, f"{where}: {key}"), sleeps + 1
        elif kind == "runtime":
            raise Fault(f"{where}: runtime is time and not work; give run")
        elif kind != "yield":
            advice = "only run, timer, sleep and yield can be read"
            raise Fault(f"{where}: {key} makes jobs depend on more than time; {advice}")
    wrong = _wrong(timers, runs, sleeps)
    if wrong:
        raise Fault(f"{where}: {wrong}")
    return Events(run, runs, timers[0] if timers else None, sleep)


def _wrong(timers: Sequence[Fraction], runs: int, sleeps: int) -> str:
    if len(timers) > 1:
        return "two timers"
    if timers and not timers[0]:
        return "a period of 0"
    if timers and sleeps:
        return "a timer and a sleep together"
    return "a run without a timer has no period" if runs and not timers else ""


def instances(workload: Dict[str, Any], cpu: Optional[int]) -> List[Instance]:
    """The instances of the tasks, or of those that are bound to this CPU alone."""
    tasks = workload.get("tasks")
    if not isinstance(tasks, dict):
        raise Fault("no tasks")
    found = [one for key, task in tasks.items() for one in _of_task(key, task)]
    found = [one for one in found if cpu is None or one.cpus == [cpu]]
    if not found:
        raise Fault("no task" if cpu is None else f"no task has the cpus [{cpu}] alone")
    if len({tuple(one.cpus) for one in found}) > 1:
        raise Fault("the tasks have different cpus; give -c CPU")
    if len({one.name for one in found}) < len(found):
        raise Fault("two tasks have one name")
    return found


def _of_task(key: str, task: Any) -> List[Instance]:
    if not isinstance(task, dict):
        raise Fault(f"{key}: no object")
    name = re.sub(r"[^!-~]", "_", key)
    names = [name]
    if "instance" in task:
        count = number(task["instance"], f"{key}: instance")
        if count > 4000:
            raise Fault(f"{key}: more than 4000 instances")
        names = [f"{name}-{place}" for place in range(-(-count.numerator // count.denominator))]
    for one in names:
        if len(one) > MOST_NAME:
            raise Fault(f"{one}: a name of more than {MOST_NAME} bytes")
    return [Instance(one, task) for one in names]
