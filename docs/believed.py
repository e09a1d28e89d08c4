#!/usr/bin/env python3
"""Counts what has to be believed for a clause: the definitions that its own rests on, and their lines.

    python3 docs/believed.py                      of the promises that the programs keep
    python3 docs/believed.py CRATE/FILE NAME..    of these definitions of crates/CRATE/specs/FILE.antt, together
    python3 docs/believed.py --list CRATE/FILE NAME..    each definition with its lines, too

Counted are lines of crates/*/specs without comments, blank ones and lines `use`. The types of the code, and what the
toolchain's own libraries define, are not. What a definition cites is found by words: what its own file declares, and what
lines `use` of the file name. A field that has the name of a definition counts as that one: so more may be counted than
the prover sees, and nothing less.
"""

import argparse
import re
import sys
from pathlib import Path
from typing import Dict, Iterator, List, NamedTuple, Sequence, Set

ROOT = Path(__file__).resolve().parent.parent
sys.path.insert(0, str(ROOT / "checks" / "edits"))

from citing import Declaration, declared_in, parts_of  # noqa: E402

USED = re.compile(r"^(?:pub )?use Rattle\.(\w+)\.(specs|proofs)\.([^{\s]+)\.\{([^}]*)\}", re.M)


class Place(NamedTuple):
    """Where a definition stands: its file, as crate/specs/File, and its name."""

    file: str
    name: str


class Promise(NamedTuple):
    """A promise, and the definitions that say it."""

    name: str
    places: Sequence[Place]


ASKED = [Place("yds_trace_run/specs/Worth", "OfTrace"), Place("yds_trace_words/specs/Request", "request_of")]
"""What words and bytes ask for, and which lines a trace has by them."""

PROMISES = [
    Promise("a job's lateness", [Place("yds_trace/specs/Late", "lateness"), Place("yds_trace/specs/Document", "jobs_of")]),
    Promise("nothing_late, of lines", [Place("yds_trace_again/specs/Worth", "NothingLate")]),
    Promise("nothing_late, of words and bytes", [*ASKED, Place("yds_trace_again/specs/Worth", "NothingLate")]),
    Promise("nothing_late, in parts, too", [*ASKED, Place("yds_trace_run/specs/Worth", "HidesNothing")]),
    Promise("all that a trace's text is worth", [*ASKED, Place("yds_trace_run/specs/Worth", "IsWorth")]),
    Promise("all that an answer of yds_cli is worth", [Place("yds_run/specs/Worth", "IsWorth")]),
]


class Definitions:
    """The definitions of all crates, read as they are asked for."""

    def __init__(self, crates: Path) -> None:
        self.crates = crates
        self.texts: Dict[str, str] = {}
        self.declared: Dict[str, Dict[str, Declaration]] = {}
        self.named: Dict[str, Dict[str, Set[Place]]] = {}

    def path(self, file: str) -> Path:
        """Gives the path of a file."""
        return self.crates / f"{file}.antt"

    def read(self, file: str) -> Dict[str, Declaration]:
        """Gives the definitions of a file by their names."""
        if file not in self.declared:
            self.texts[file] = self.path(file).read_text(encoding="utf-8")
            crate = file.partition("/")[0]
            self.declared[file] = {it.name: it for it in declared_in(file, self.texts[file], crate)}
        return self.declared[file]

    def names(self, file: str) -> Dict[str, Set[Place]]:
        """Gives what each word in a file can mean: a definition of its own, or one that it uses."""
        if file not in self.named:
            found: Dict[str, Set[Place]] = {}
            places = [Place(file, name) for name in self.read(file)] + list(self.used(file))
            for place in places:
                for part in parts_of(place.name):
                    found.setdefault(part, set()).add(place)
            self.named[file] = found
        return self.named[file]

    def used(self, file: str) -> Iterator[Place]:
        """Gives the definitions that a file's lines `use` name. What isn't one of the crates' is passed over."""
        self.read(file)
        for crate, part, path, names in USED.findall(self.texts[file]):
            other = f"{crate}/{part}/{path.replace('.', '/')}"
            if self.path(other).is_file():
                yield from (Place(other, name) for name in self.meant(other, names))

    def meant(self, file: str, names: str) -> Iterator[str]:
        """Gives the names in a list that a file declares, as they stand there or behind `as`."""
        declared = self.read(file)
        for name in re.split(r"\s*,\s*", names.strip()):
            own = name.partition(" as ")[0]
            if own in declared:
                yield own

    def reached(self, places: Sequence[Place]) -> Set[Place]:
        """Gives the definitions on which these rest, and these."""
        found, waiting = set(places), list(places)
        while waiting:
            one = waiting.pop()
            names = self.names(one.file)
            cited = {it for word in self.read(one.file)[one.name].words for it in names.get(word, set())}
            waiting += cited - found
            found |= cited
        return found

    def lines(self, place: Place) -> List[str]:
        """Gives the lines of a definition, without comments and blank ones."""
        one = self.read(place.file)[place.name]
        text = "".join(self.texts[place.file][it.start : it.end] for it in one.spans)
        return [it for it in text.splitlines() if it.strip() and not it.strip().startswith("--")]


def told(definitions: Definitions, name: str, places: Sequence[Place]) -> str:
    """Gives the line that tells how much a promise rests on."""
    reached = definitions.reached(places)
    lines = sum(len(definitions.lines(it)) for it in reached)
    return f"{name}: {len(reached)} definitions, {lines} lines"


def main(words: Sequence[str]) -> int:
    """Counts what the words ask for. Gives the status."""
    parser = argparse.ArgumentParser(prog="believed.py", description="Counts what has to be believed for a clause.")
    parser.add_argument("--list", action="store_true", help="each definition with its lines")
    parser.add_argument("--crates", type=Path, default=ROOT / "crates", help="the folder of the crates")
    parser.add_argument("file", nargs="?", metavar="CRATE/FILE", help="the file, without specs and .antt")
    parser.add_argument("names", nargs="*", metavar="NAME", help="its definitions")
    asked = parser.parse_args(words)
    definitions = Definitions(asked.crates)
    promises = PROMISES
    if asked.file:
        crate, _, file = asked.file.partition("/")
        places = [Place(f"{crate}/specs/{file}", name) for name in asked.names]
        promises = [Promise(" and ".join(asked.names), places)]
    for promise in promises:
        missing = [it for it in promise.places if not definitions.path(it.file).is_file() or it.name not in definitions.read(it.file)]
        if missing:
            print(f"believed.py: there is no {', '.join(f'{it.name} in {it.file}.antt' for it in missing)}", file=sys.stderr)
            return 1
        print(told(definitions, promise.name, promise.places))
        for it in sorted(definitions.reached(promise.places)) if asked.list else []:
            print(f"    {len(definitions.lines(it)):4} {it.file} {it.name}")
    return 0


if __name__ == "__main__":
    sys.exit(main(sys.argv[1:]))
