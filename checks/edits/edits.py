"""edits.py: tries the edits that the prover has to refuse, many in one check, and holds them against the record.

    python3 checks/edits/edits.py              those whose line in checks/edits/refused.txt isn't fresh, and twenty more
    python3 checks/edits/edits.py --all        all, and writes the record (`make edits`)
    python3 checks/edits/edits.py CRATE..      those of these crates, and writes their lines

With --libraries FOLDER the libraries are those in FOLDER/CRATE/out/rlib, and not those that `rt ci` left in crates/.
With --jobs N so many checks run side by side, and with --keep FOLDER what the prover writes is kept there.

A line of the record is fresh where what the edit's refusal rests on hasn't changed (record.py). The twenty are drawn by
the sum of the whole tree, so that nobody chooses them. A round has edits that can't touch one another (rounds.py), and
what shows nothing of its own there is tried alone. Failed is an edit that can't be applied or read, that isn't refused,
that came to no verdict, of which a line `# breaks:` names a goal that doesn't refuse it or a line `# so:` what is still
proved, or that another goal refuses than the record says; and a line of the record without an edit. The last line is
'N passed, M failed'; the status is 1 where M isn't 0.
"""

import argparse
import os
import random
import sys
import tempfile
import threading
import time
from concurrent.futures import ThreadPoolExecutor
from pathlib import Path
from typing import Dict, List, NamedTuple, Optional, Sequence, Set, Tuple

import record
import rounds
import trials

sys.path.insert(0, str(Path(__file__).resolve().parent.parent.parent / "packaging"))
import over
from edit_files import Edit, EditFault, read_edits, stands_at
from verdicts import AT_LIMIT, BAD, BY_NAMES, NOT_REFUSED, REFUSED, UNKNOWN, Said, fault_of, read_said

ROOT = Path(__file__).resolve().parent.parent.parent
RECORD = ROOT / "checks" / "edits" / "refused.txt"
DRAWN = 20

TOLD = {
    BAD: "BAD EDIT: ",
    NOT_REFUSED: "NOT REFUSED: it is still proved with this edit; one that means the same as before can't be refused: remove it",
    UNKNOWN: "NOT TRIED: ",
    AT_LIMIT: "refused, but only by a limit of the prover, which says less: choose a change that it refuses sooner: ",
    BY_NAMES: "refused, but only because a proof names what the edit took away, which says little: change a value and keep the names: ",
}


class Outcome(NamedTuple):
    """What the trial of an edit came to: how it ended, the goal that refused it, what is told of it, and its faults."""

    edit: Edit
    state: str
    goal: str
    told: str
    faults: List[str]


class Trial:
    """The trial of the edits of one crate, in rounds one after the other."""

    def __init__(self, tried: "Trying", name: str, edits: Sequence[Edit]) -> None:
        self.tried, self.name = tried, name
        self.crate = rounds.read_crate(tried.crates / name)
        self.outcomes: List[Outcome] = []
        self.targets: List[rounds.Target] = []
        self.alone: Set[str] = set()
        self.is_whole = False
        self.asked: Set[str] = set()
        for edit in edits:
            try:
                self.targets.append(rounds.target_of(self.crate, edit))
            except (EditFault, OSError) as fault:
                self.outcomes.append(Outcome(edit, BAD, "", TOLD[BAD] + str(fault), [str(fault)]))

    def run(self) -> List[Outcome]:
        """Tries all, and gives what each came to."""
        number = 0
        while self.targets:
            number += 1
            chosen = rounds.next_round(self.targets, self.alone)
            began = time.monotonic()
            ran = self.check(chosen)
            ended = self.settle(chosen, ran)
            names = {it.edit.name for it in ended}
            self.targets = [it for it in self.targets if it.edit.name not in names]
            self.outcomes += ended
            self.tried.tell_round(self.name, number, chosen, ended, time.monotonic() - began, ran)
        return self.outcomes

    def check(self, chosen: Sequence[rounds.Target]) -> trials.Ran:
        """Checks the crate with these edits: of bodies their functions alone."""
        only = [it.function for it in chosen] if all(it.function for it in chosen) and not self.is_whole else []
        changes = [change for it in chosen for change in it.changes]
        return self.tried.check(self.name, only, changes)

    def settle(self, chosen: Sequence[rounds.Target], ran: trials.Ran) -> List[Outcome]:
        """Gives the edits of which the round says what they came to. The others go into a later one, or are tried alone."""
        said = read_said(ran.text)
        state, why = fault_of(ran.status, said, {change.file for it in chosen for change in it.changes})
        if state:
            return self.settle_fault(chosen, state, why)
        if len(chosen) > 1 and rounds.is_told_by_none(chosen, said):
            self.alone |= {it.edit.name for it in chosen}
            return []
        ended = [self.outcome(it, [one for one in chosen if one is not it], said, ran.status == 0) for it in chosen]
        again = [it.edit.name for it, outcome in zip(chosen, ended) if outcome is None]
        self.alone |= {it.edit.name for it in chosen if not it.function} & set(again) | set(again) & self.asked
        self.asked |= set(again)
        return [it for it in ended if it is not None]

    def settle_fault(self, chosen: Sequence[rounds.Target], state: str, why: str) -> List[Outcome]:
        """Takes a round that said nothing of its edits: the one at the line that it names is tried alone, or all are.

        Where the prover has another name for a function, the whole crate is checked from then on.
        """
        if "has no function" in why and not self.is_whole:
            self.is_whole = True
            return []
        if len(chosen) == 1:
            edit = chosen[0].edit
            faults = [] if state == AT_LIMIT else [TOLD[state] + why]
            return [Outcome(edit, state, f"limit {why[:80]}" if state == AT_LIMIT else "", TOLD[state] + why, faults)]
        folder = self.crate.folder
        named = [it.edit.name for it in chosen if any(stands_at(change, folder, why) for change in it.changes)]
        self.alone |= set(named or [it.edit.name for it in chosen])
        return []

    def outcome(
        self, target: rounds.Target, others: Sequence[rounds.Target], said: Said, is_proved: bool
    ) -> Optional[Outcome]:
        """Gives what a round says of an edit, or None where it has to be tried again."""
        edit, verdict = target.edit, rounds.judge(self.crate, target, others, said, is_proved)
        if verdict is None:
            return None
        recorded = self.tried.recorded.get(edit.label(), "")
        if verdict.state in (NOT_REFUSED, UNKNOWN):
            why = TOLD[verdict.state] + ("" if verdict.state == NOT_REFUSED else "no goal of its own is refused")
            return Outcome(edit, verdict.state, "", why, [why])
        false = [it for it in edit.breaks if not rounds.is_confirmed(it, verdict.broken)]
        differs = bool(recorded) and recorded not in verdict.goals
        may_hide = not target.function or bool(said.waiting.get(target.function))
        if (false or differs) and others and may_hide:
            return None
        faults = [f"it isn't refused at `# breaks: {it}`, but at {', '.join(sorted(verdict.broken))}" for it in false]
        faults += [f"`# so: {it}` isn't so: it is still proved" for it in edit.so if self.is_proved(it, verdict, said)]
        faults += [] if edit.breaks else ["it has no line `# breaks:`"]
        faults += [f"the record says that {recorded} refuses it, and it was {', '.join(verdict.goals)}"] if differs else []
        told = TOLD[BY_NAMES] + verdict.goals[0] if verdict.state == BY_NAMES else ""
        return Outcome(edit, verdict.state, recorded or verdict.goals[0], told, faults)

    def is_proved(self, so: str, verdict: rounds.Verdict, said: Said) -> bool:
        """Whether the prover says that the function of a line `# so:` is proved. What it doesn't tell, and another crate's, isn't known.

        Nor is it where a type doesn't keep its invariant: what is proved by it isn't true then, whether or not it calls.
        """
        paths = {path for path, name in self.crate.names.items() if name == so.partition(".")[0]}
        keeps = not any("invariant_of" in goal for goal in verdict.goals)
        return keeps and bool(paths) and paths <= said.proved


class Trying:
    """The trials of many crates side by side."""

    def __init__(
        self, crates: Path, libraries: Path, lines: Dict[str, trials.Line], jobs: Optional[int], keep: Optional[Path]
    ) -> None:
        self.crates, self.libraries, self.lines, self.keep = crates, libraries, lines, keep
        self.recorded: Dict[str, str] = {}
        self.jobs = jobs or len(os.sched_getaffinity(0))
        self.room = trials.Room(trials.free_memory() * 85 // 100)
        self.lock = threading.Lock()
        self.began = time.monotonic()
        self.rounds, self.done, self.seconds, self.all = 0, 0, 0.0, 0

    def check(self, name: str, only: Sequence[str], changes: Sequence[trials.Change]) -> trials.Ran:
        """Checks a copy of a crate, once there is memory."""
        command = trials.words(self.libraries, self.lines, name, only)
        with self.room.of(trials.memory_of(self.crates, self.lines, name)):
            ran = trials.run(command, self.crates / name, changes)
        return ran

    def tell_round(
        self, name: str, number: int, chosen: Sequence[rounds.Target], ended: Sequence[Outcome], took: float, ran: trials.Ran
    ) -> None:
        """Tells a round, and what failed in it or says little."""
        with self.lock:
            self.rounds, self.done, self.seconds = self.rounds + 1, self.done + len(ended), self.seconds + ran.seconds
            if self.keep:
                self.keep.mkdir(parents=True, exist_ok=True)
                (self.keep / f"{name}-{number}").write_text(ran.text, encoding="utf-8")
            refused = sum(1 for it in ended if not it.faults)
            told = f"{name}, round {number}: {len(chosen)} edits, {refused} refused"
            told += f", {len(chosen) - len(ended)} to be tried again" if len(ended) < len(chosen) else ""
            took_told = f"{took:.0f} s, {ran.seconds:.0f} of a processor, {ran.memory} MB"
            print(f"edits: {told}; {took_told} ({self.done} of {self.all} done)", flush=True)
            for it in ended:
                for text in it.faults or ([it.told] if it.told else []):
                    print(f"crates/{it.edit.crate}/edits/{it.edit.name}.edit: {text[:600]}", flush=True)

    def missing(self, name: str) -> List[str]:
        """Gives the crates below one whose libraries aren't there."""
        return [
            it
            for it in sorted(trials.below(self.lines, name))
            if not (trials.library_of(self.libraries, it) / f"{it}.rlib").is_dir()
        ]

    def one(self, name: str, edits: Sequence[Edit]) -> List[Outcome]:
        """Tries the edits of a crate."""
        missing = self.missing(name) if name in self.lines else [f"{name} in crates.txt"]
        if missing:
            why = f"{TOLD[UNKNOWN]}there is no library of {', '.join(missing)}; rt ci leaves it"
            with self.lock:
                print(f"crates/{name}/edits: {why}", flush=True)
            return [Outcome(it, UNKNOWN, "", why, [why]) for it in edits]
        return Trial(self, name, edits).run()

    def run(self, edits: Sequence[Edit]) -> List[Outcome]:
        """Tries these edits, those of the largest crates first."""
        of_crate: Dict[str, List[Edit]] = {}
        for it in edits:
            of_crate.setdefault(it.crate, []).append(it)
        self.all = len(edits)
        size = {name: trials.lines_below(self.crates / name) * (2 + len(of)) for name, of in of_crate.items()}
        with ThreadPoolExecutor(self.jobs) as pool:
            order = sorted(of_crate, key=lambda name: -size[name])
            found = list(pool.map(lambda name: self.one(name, of_crate[name]), order))
        return [it for some in found for it in some]


def chosen_of(
    edits: Sequence[Edit], known: Dict[str, record.Refusal], sums: Dict[str, str], tree: str
) -> Tuple[List[Edit], List[Edit]]:
    """Gives the edits without a fresh line, and those that are drawn of the others."""
    stale = [it for it in edits if it.label() not in known or known[it.label()].sum != sums[it.label()]]
    fresh = [it for it in edits if it not in stale]
    return stale, random.Random(tree).sample(fresh, min(DRAWN, len(fresh)))


def written(
    outcomes: Sequence[Outcome], known: Dict[str, record.Refusal], sums: Dict[str, str]
) -> Dict[str, record.Refusal]:
    """Gives the record with the lines of what was found, and without those of edits that failed."""
    found = dict(known)
    for it in outcomes:
        found.pop(it.edit.label(), None)
        if not it.faults:
            found[it.edit.label()] = record.Refusal(sums[it.edit.label()], it.goal)
    return found


def libraries_for(lines: Dict[str, trials.Line], names: Set[str], room: Path) -> Path:
    """Gives the crates' folder in which libraries below these crates are: the checkout's, or a copy in the room.

    Those that `rt check` left in the checkout may be older than the sources. Then `rt ci` gives the copy what it has kept.
    """
    crates = ROOT / "crates"
    needed = sorted(set().union(*(trials.below(lines, name) for name in names if name in lines)))
    if not over.was_put_back(crates, needed):
        return crates
    print("edits: `rt check` left libraries here, so `rt ci` makes those below anew, in a copy", flush=True)
    copied = over.copy_of(crates, needed, room)
    if not over.run([str(trials.kit() / "bin" / "rt"), "ci"], room):
        print("edits: rt ci failed in the copy", flush=True)
    return copied


def parse(words: Sequence[str]) -> argparse.Namespace:
    """Reads the words."""
    parser = argparse.ArgumentParser(prog="edits.py", description="Tries the edits that the prover has to refuse.")
    parser.add_argument("--all", action="store_true", help="all of them, and writes the record")
    parser.add_argument("--libraries", metavar="FOLDER", help="the crates' folder in which libraries are")
    parser.add_argument("--jobs", type=int, metavar="N", help="so many checks side by side; without it as many as processors")
    parser.add_argument("--keep", metavar="FOLDER", help="where to keep what the prover writes, a file for each round")
    parser.add_argument("crates", nargs="*", metavar="CRATE", help="the edits of this crate alone, and writes its lines")
    return parser.parse_args(words)


def main(words: Sequence[str]) -> int:
    """Tries what the words say, and tells the sums. Gives the status."""
    asked = parse(words)
    crates = ROOT / "crates"
    folders = [it for it in sorted(crates.iterdir()) if (it / "edits").is_dir()]
    unknown = sorted(set(asked.crates) - {it.name for it in folders})
    if unknown:
        print(f"{', '.join(unknown)}: no crate with edits\n0 passed, {len(unknown)} failed", flush=True)
        return 1
    edits = [edit for it in folders for edit in read_edits(it)]
    lines = trials.read_lines((ROOT / "crates.txt").read_text(encoding="utf-8"))
    found = record.Sums(crates, lines, trials.identity())
    sums = {it.label(): found.of(it) for it in edits if it.crate in lines}
    for it in edits:
        sums.setdefault(it.label(), "none")
    known = record.read_record(RECORD)
    stale, drawn = chosen_of(edits, known, sums, record.tree_sum(crates))
    print(f"edits: {len(edits)}; {len(edits) - len(stale)} have a fresh line in checks/edits/{RECORD.name}", flush=True)
    if asked.all or asked.crates:
        chosen = [it for it in edits if asked.all or it.crate in asked.crates]
        return tell_sums(*write_tried(asked, edits, chosen, lines, known, sums))
    print(f"edits: the other {len(stale)} are tried, and {len(drawn)} that are drawn of those", flush=True)
    outcomes, trying = try_all(asked, [*stale, *drawn], lines, {it.label(): known[it.label()].goal for it in drawn})
    gone = sorted(set(known) - {it.label() for it in edits})
    for label in gone:
        print(f"checks/edits/{RECORD.name}: there is no edit {label}", flush=True)
    if stale:
        print(f"edits: {len(stale)} lines of the record are stale or missing; `make edits` writes them", flush=True)
    return tell_sums(outcomes, trying, len(gone))


def try_all(
    asked: argparse.Namespace, chosen: Sequence[Edit], lines: Dict[str, trials.Line], recorded: Dict[str, str]
) -> Tuple[List[Outcome], Trying]:
    """Tries these edits, over the libraries that are asked for or those that are here, and holds them against the goals that are recorded."""
    with tempfile.TemporaryDirectory() as room:
        names = {it.crate for it in chosen}
        libraries = Path(asked.libraries).resolve() if asked.libraries else libraries_for(lines, names, Path(room))
        keep = Path(asked.keep).resolve() if asked.keep else None
        trying = Trying(ROOT / "crates", libraries, lines, asked.jobs, keep)
        trying.recorded = recorded
        return trying.run(chosen), trying


def write_tried(
    asked: argparse.Namespace,
    edits: Sequence[Edit],
    chosen: Sequence[Edit],
    lines: Dict[str, trials.Line],
    known: Dict[str, record.Refusal],
    sums: Dict[str, str],
) -> Tuple[List[Outcome], Trying, int]:
    """Tries the edits that are chosen, and writes their lines of the record. Those of edits that are gone go."""
    outcomes, trying = try_all(asked, chosen, lines, {})
    there = {it.label() for it in edits}
    found = {label: it for label, it in known.items() if label in there}
    record.write_record(RECORD, written(outcomes, found, sums))
    return outcomes, trying, 0


def tell_sums(outcomes: Sequence[Outcome], trying: Trying, gone: int) -> int:
    """Tells what the trials took and how many edits passed. Gives the status."""
    took = time.monotonic() - trying.began
    print(f"edits: {trying.rounds} checks, {took:.0f} s, {trying.seconds:.0f} s of a processor", flush=True)
    failed = sum(1 for it in outcomes if it.faults)
    print(f"{len(outcomes) - failed} passed, {failed + gone} failed", flush=True)
    return int(failed + gone > 0)


if __name__ == "__main__":
    sys.exit(main(sys.argv[1:]))
