"""verdicts.py: what the prover says of a crate, read: which goals it refuses, of which function or declaration.

A goal's name is the prover's own: `returns-then-found-clause-first` is the clause `first` where the function returns,
`push-requires-clause-room` what the call `push` asks for, `loop-job-preserved` the invariant of a loop, `overflow_add-x`
that a sum fits.
"""

import re
from typing import Dict, List, NamedTuple, Sequence, Set, Tuple

LINE = re.compile(r"(?:\./)?((?:proofs|specs|src)/[^:\s]+):(\d+):(\d+): error: (.*)")
NAMED = re.compile(r"`([^`]+)`: (.*)", re.S)
UNCHECKED = re.compile(r"\d+ declarations? that depends? on `([^`]+)`, which was (?:rejected|not admitted), w(?:as|ere) not checked: (.*)")
NOTE = re.compile(r"note: src/\S+:\d+:\d+: it is not proved .*?\(`([^`]+)`\)")
OF_FUNCTION = re.compile(r"fn (\w+)::(\S+): (.*)")
NOT_PROVED = re.compile(r"search` did not prove ((?:`[^`]+`(?:, )?)+)")
CALLS = re.compile(r"it (?:calls|passes the block) ((?:`[^`]+`(?:, | and )?)+)")
TAKEN_AWAY = re.compile(r"has no field|is not in scope|has no `|was not admitted|record `[^`]*` \(nearest")
LIMITS = re.compile(
    r"antt ran out of (stack|the (steps|memory) that the check of one declaration may (take|use))"
    r"|(outgrew the memory limit|stopped at the step limit) \("
)
STALE = re.compile(r"module .Rattle-(\w+)-.*Run the lower steps again")
UNREADABLE = re.compile(r"is not in scope|has no field|is no name|operand is missing|expected the end|cannot continue")
COMPILED = re.compile(r"\berror\[[\w-]+\]")
GOAL = re.compile(r"(returns|invariant|invariant_of)\b|.*-requires\b|(overflow|nonzero)_|(slice_|offset_)?bounds-|.*-(init|preserved|smaller)\b")

NAMES = "names"
"""What stands for the goals of a proof that names what isn't there, outside of any goal."""

REFUSED, BY_NAMES, AT_LIMIT, BAD, NOT_REFUSED, UNKNOWN = "refused", "by names", "at a limit", "bad", "not refused", "unknown"
"""What a trial came to. `BY_NAMES` is a refusal only because a proof names what the edit took away."""


class Rejection(NamedTuple):
    """A declaration of a file of proofs that the prover refuses, and why."""

    file: str
    name: str
    why: str

    def is_by_name(self) -> bool:
        """Whether it is refused only because it names what isn't there."""
        return not self.name or bool(TAKEN_AWAY.search(self.why))


class Said(NamedTuple):
    """What the prover said.

    `goals` has the refused goals of each function, with whether a name that was taken away is all that refuses it, and
    `waiting` the functions that one calls and that aren't proved. `proved` and `unproved` are the functions that it
    tells. `unchecked` has pairs: a declaration that is refused or passed over, and the place of one that rests on it.
    """

    goals: Dict[str, Dict[str, bool]]
    waiting: Dict[str, List[str]]
    proved: Set[str]
    unproved: Set[str]
    rejections: List[Rejection]
    unchecked: List[Tuple[str, str]]
    lines: List[str]


def in_ticks(text: str) -> List[str]:
    """Gives the words of a text that stand between backticks."""
    return re.findall(r"`([^`]+)`", text)


def function_of(file: str) -> str:
    """Gives the function whose proof stands in a file, as the prover names it, or '' for a file of lemmas."""
    parts = file.split("/")
    if parts[0] != "proofs" or parts[-1] not in ("Answers.antt", "Invariants.antt", "Proof.antt"):
        return ""
    return "::".join(part.lstrip("+") for part in parts[1:-1])


def read_lines(lines: Sequence[str]) -> Tuple[List[Rejection], List[Tuple[str, str]]]:
    """Reads the lines of errors: what is rejected, and what wasn't checked since it rests on it, as 'FILE NAME'."""
    rejections: List[Rejection] = []
    unchecked: List[Tuple[str, str]] = []
    for line in lines:
        found = LINE.match(line)
        if found is None:
            continue
        file, said = found.group(1), found.group(4)
        rests, named = UNCHECKED.match(said), NAMED.match(said)
        if rests:
            behind = re.sub(r" \(via [^)]*\)| and \d+ more$", "", rests.group(2)).split(", ")
            unchecked += [(rests.group(1), f"{file} {name.strip()}") for name in behind]
        elif named:
            rejections.append(Rejection(file, named.group(1), named.group(2)))
        else:
            rejections.append(Rejection(file, "", said))
    return rejections, unchecked


def goals_of_functions(lines: Sequence[str]) -> Tuple[Dict[str, Dict[str, bool]], Dict[str, List[str]], Set[str]]:
    """Reads the lines of functions: the goals that aren't proved, the functions that each that isn't proved waits for, and the proved."""
    goals: Dict[str, Dict[str, bool]] = {}
    waiting: Dict[str, List[str]] = {}
    proved: Set[str] = set()
    pending: List[str] = []
    for line in lines:
        note, said = NOTE.match(line), OF_FUNCTION.match(line)
        if note:
            pending.append(note.group(1))
        elif said:
            path, what = said.group(2), said.group(3)
            missing = [name for it in NOT_PROVED.findall(what) for name in in_ticks(it)]
            if what.startswith("proved"):
                proved.add(path)
            else:
                waiting[path] = [name.partition("::")[2] for it in CALLS.findall(what) for name in in_ticks(it)]
            if pending or missing:
                goals[path] = {name: False for name in [*pending, *missing]}
            pending = []
    return goals, waiting, proved


def goals_behind(name: str, file: str, unchecked: Sequence[Tuple[str, str]]) -> List[str]:
    """Gives the goals of a function's proof that rest on a lemma of its own that is rejected."""
    found: List[str] = []
    for rejected, place in unchecked:
        other, _, goal = place.partition(" ")
        if rejected == name and other == file and GOAL.match(goal):
            found.append(goal)
    return found


def read_said(text: str) -> Said:
    """Reads what the prover wrote."""
    lines = text.rstrip("\n").split("\n")
    rejections, unchecked = read_lines(lines)
    goals, waiting, proved = goals_of_functions(lines)
    for it in rejections:
        path = function_of(it.file)
        names = [it.name] if GOAL.match(it.name) else goals_behind(it.name, it.file, unchecked) or [it.name or NAMES]
        for name in names if path else []:
            own = goals.setdefault(path, {})
            own[name] = own.get(name, True) and it.is_by_name()
    return Said(goals, waiting, proved, set(waiting), rejections, unchecked, lines)


def belongs(path: str, function: str) -> bool:
    """Whether what the prover names so is the function or a closure in it, as `shared::fn::is_failing::any` is of `shared::is_failing`."""
    module, _, name = function.rpartition("::")
    inner = "::".join(part for part in (module, "fn", name) if part)
    return path == function or path.startswith((f"{function}::", f"{inner}::"))


def own_goals(said: Said, function: str) -> Dict[str, bool]:
    """Gives the refused goals of a function and of the closures in it. Those of a closure have its name before them."""
    found: Dict[str, bool] = {}
    for path, goals in said.goals.items():
        if belongs(path, function):
            before = "" if path == function else path.rpartition("::")[2] + " "
            found.update({before + name: by_name for name, by_name in goals.items()})
    return found


def is_unreadable(line: str, changed: Set[str]) -> bool:
    """Whether the prover couldn't read a text of src/ or specs/, or an edited file, where a false statement reads well."""
    found = LINE.match(line)
    if found is None or (found.group(1) not in changed and not found.group(1).startswith(("src/", "specs/"))):
        return False
    named = NAMED.match(found.group(4))
    said = re.sub(r"`[^`]*`", "", named.group(2) if named else found.group(4))
    return named is None or bool(UNREADABLE.search(said))


def fault_of(status: int, said: Said, changed: Set[str]) -> Tuple[str, str]:
    """Gives what keeps a run from saying anything of its edits: BAD, AT_LIMIT or UNKNOWN with the line that tells it, or two empty texts."""
    unreadable = next((line for line in said.lines if is_unreadable(line, changed)), "")
    if unreadable and status == 1:
        return BAD, unreadable
    last = said.lines[-1] if said.lines else ""
    if status in (0, 1) and last.startswith(("logic=", "only=")):
        return "", ""
    limit = next((line for line in said.lines if LIMITS.search(line)), "")
    if status == 3 and limit:
        return AT_LIMIT, limit
    compiled = next((line for line in said.lines if COMPILED.search(line)), "")
    if status == 1 and compiled:
        return BAD, compiled
    return UNKNOWN, f"the check ended with status {status}: {last[:160]}"
