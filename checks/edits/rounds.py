"""rounds.py: which edits of a crate can be tried in one check, and what a check says of each of them.

An edit of a function's body can't touch another function's proof, which rests on its contract alone. So it is refused
only by a goal of its own function. An edit of a definition or a statement is refused only by a declaration that cites
what it turns, and no other edit of the round.
"""

import re
from pathlib import Path
from typing import Dict, List, NamedTuple, Optional, Sequence, Set

from citing import Declaration, citing, declaration_at, place_of, read_declarations, touched
from edit_files import Change, Edit, changes_of, function_of_change, overlap
from functions import Function, crate_functions, page_names, passed_on
from verdicts import BY_NAMES, NOT_REFUSED, REFUSED, UNKNOWN, Said, own_goals


class Target(NamedTuple):
    """What an edit turns: a function, or the declarations that cite what it turns. One with neither is tried alone."""

    edit: Edit
    changes: List[Change]
    function: str
    reached: Set[str]


class Verdict(NamedTuple):
    """What a check says of an edit: how it ended, what it breaks as lines `# breaks:` name it, and the goals that refuse it by the prover's names."""

    state: str
    broken: Set[str]
    goals: List[str]


class Crate(NamedTuple):
    """A crate as rounds see it: its functions by their files and by their paths, their names in lines `# breaks:`, and its declarations."""

    folder: Path
    files: Dict[str, List[Function]]
    functions: Dict[str, Function]
    names: Dict[str, str]
    declarations: List[Declaration]


def read_crate(folder: Path) -> Crate:
    """Reads a crate."""
    files = crate_functions(folder)
    functions = {one.path: one for some in files.values() for one in some}
    return Crate(folder, files, functions, page_names(functions, passed_on(folder)), read_declarations(folder))


def target_of(crate: Crate, edit: Edit) -> Target:
    """Finds what an edit turns. EditFault, where it can't be applied."""
    changes = changes_of(edit, crate.folder)
    texts = {it.file: (crate.folder / it.file).read_text(encoding="utf-8") for it in changes}
    functions = {function_of_change(it, crate.files) for it in changes}
    function = functions.pop() if len(functions) == 1 else ""
    reached: Set[str] = set()
    for it in changes:
        one = declaration_at(crate.declarations, it.file, it.start)
        if one is None or it.file.startswith("src/"):
            return Target(edit, changes, function, set())
        reached |= citing(one, touched(one, texts[it.file], it.start, it.end), crate.declarations)
    return Target(edit, changes, function, reached)


def go_together(one: Target, other: Target) -> bool:
    """Whether two edits can be in one round: not two of a function, and not two statements that one declaration cites."""
    if overlap(one.changes, other.changes) or bool(one.function) != bool(other.function):
        return False
    return one.function != other.function if one.function else not one.reached & other.reached


def next_round(targets: Sequence[Target], alone: Set[str]) -> List[Target]:
    """Gives the edits of the next round: the first, and each further one that can go with those before it.

    Of statements those come first that few declarations cite. A function that calls another one that is edited, too, may
    show no goal of its own, and goes into a later round. What has to be tried alone is, behind all others.
    """
    free = [it for it in targets if it.edit.name not in alone and (it.function or it.reached)]
    if not free:
        return [targets[0]]
    chosen: List[Target] = []
    for it in sorted(free, key=lambda target: len(target.reached)):
        if all(go_together(it, one) for one in chosen):
            chosen.append(it)
    return chosen


def names_of_return(name: str, function: Function, clause: str) -> Set[str]:
    """Gives the lines `# breaks:` that are true where a function doesn't ensure a clause, or where '' stands for any of its clauses.

    What a trait asks of an impl, which has no clause of its own, is a clause of the trait, maybe of another crate: it begins with '*/'.
    """
    named = [it for it in function.clauses if it]
    if function.trait and not function.clauses:
        of_trait = f"*/{function.trait}::{function.name}"
        return {name, f"{of_trait}.{clause}" if clause else of_trait}
    if clause in named:
        return {f"{name}.{clause}"}
    if clause and function.trait:
        return {f"*/{function.trait}::{function.name}.{clause}"}
    return {f"{name}.{it}" for it in named} or {name}


def names_of_goal(crate: Crate, path: str, goal: str) -> Set[str]:
    """Gives the lines `# breaks:` that a refused goal of a function makes true."""
    name, clause = crate.names[path], re.search(r"-clause-(\w+)$", goal)
    asks = re.match(r"([^ -]+)[^ ]*-requires\b", goal)
    if asks:
        return {f"{name} asks {asks.group(1)}"}
    if goal == "returns" or goal.startswith("returns-"):
        return names_of_return(name, crate.functions[path], clause.group(1) if clause else "")
    return {f"{name} at {goal}"}


def is_confirmed(line: str, broken: Set[str]) -> bool:
    """Whether a line `# breaks:` is among those that are true. A crate stands only before what a trait asks."""
    crate, slash, name = line.partition("/")
    return f"*/{name}" in broken if slash else line in broken or f"*/{line}" in broken


def judge_function(crate: Crate, target: Target, said: Said) -> Optional[Verdict]:
    """Says what a check says of an edit of a function's body, or None where it shows no goal of its own."""
    goals = own_goals(said, target.function)
    real = sorted(name for name, by_name in goals.items() if not by_name)
    if goals:
        names = {line for goal in real or goals for line in names_of_goal(crate, target.function, goal)}
        return Verdict(REFUSED if real else BY_NAMES, names, [f"{target.function} {it}" for it in real or sorted(goals)])
    if target.function in said.proved:
        return Verdict(NOT_REFUSED, set(), [])
    return None


def bare_name(place: str) -> str:
    """Gives the name of a declaration by its place: of a function that of its last part."""
    return place.rpartition("::")[2].rpartition(" ")[2]


def follow(said: Said, places: Set[str]) -> Set[str]:
    """Gives the places of these declarations, and of those that weren't checked since they rest on them.

    A function's proof stands for the function.
    """
    found, grows = set(places), True
    while grows:
        names = {bare_name(it) for it in found if not it.startswith("fn ")}
        more = {place_of(*place.split(" ", 1)) for rejected, place in said.unchecked if rejected in names}
        grows = not more <= found
        found |= more
    return found


def judge_statement(crate: Crate, target: Target, others: Sequence[Target], said: Said) -> Optional[Verdict]:
    """Says what a check says of an edit of what is no body, or None where nothing that is refused cites it alone."""

    def is_mine(place: str) -> bool:
        return not others or (place in target.reached and not any(place in it.reached for it in others))

    mine = [it for it in said.rejections if is_mine(place_of(it.file, it.name))]
    real = [it for it in mine if not it.is_by_name()]
    goals = [(path, goal) for path, own in said.goals.items() if is_mine(f"fn {path}") for goal in sorted(own)]
    if not mine and not goals:
        return None
    places = {place_of(it.file, it.name) for it in real or mine} | {f"fn {path} {goal}" for path, goal in goals}
    fallen = {it for it in places if it.count(" ") == 1} | {f"fn {path}" for path, _ in goals}
    fallen = follow(said, fallen) | {f"fn {path}" for path in said.unproved if is_mine(f"fn {path}")}
    names = {bare_name(it) for it in fallen}
    names |= {name for path, goal in goals if path in crate.names for name in names_of_goal(crate, path, goal)}
    return Verdict(REFUSED if real or goals else BY_NAMES, names, sorted(places, key=lambda it: (it.startswith("fn "), it)))


def is_told_by_none(targets: Sequence[Target], said: Said) -> bool:
    """Whether a declaration is refused that cites nothing that these edits of statements turn, by its text.

    Then texts don't tell all, and such a round says nothing.
    """
    places = {place_of(it.file, it.name) for it in said.rejections} | {f"fn {path}" for path in said.goals}
    return not any(it.function for it in targets) and not places <= set().union(*(it.reached for it in targets))


def judge(crate: Crate, target: Target, others: Sequence[Target], said: Said, is_proved: bool) -> Optional[Verdict]:
    """Says what a check says of an edit that is tried with these others, or None where it says nothing of it.

    What is tried alone gets a verdict: where its own function shows no goal, a refusal of any other is none of it.
    """
    if is_proved:
        return Verdict(NOT_REFUSED, set(), [])
    if target.function:
        found = judge_function(crate, target, said)
    else:
        found = judge_statement(crate, target, others, said)
    if found or others:
        return found
    return Verdict(UNKNOWN, set(), [])
