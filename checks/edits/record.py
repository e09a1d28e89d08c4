"""record.py: the record of the refused edits, checks/edits/refused.txt: of each edit a sum of what its refusal rests on, and the goal that refused it.

A line is `CRATE/EDIT SUM GOAL`. The sum is of the edit's text, the crate's own files and its line of crates.txt, the
toolchain's identity, and of each crate below the signatures of its functions, its types and its definitions. The body
of a function below, or a proof, can't change what an edit here is refused for.
"""

import hashlib
from pathlib import Path
from typing import Dict, Iterable, List, NamedTuple

from edit_files import PARTS, Edit
from functions import read_code, signatures_of
from trials import Line, below


class Refusal(NamedTuple):
    """A line of the record, without the edit: the sum, and the goal."""

    sum: str
    goal: str


def sum_of(parts: Iterable[str]) -> str:
    """Gives a sum of texts, of which none runs into the next."""
    found = hashlib.sha256()
    for part in parts:
        data = part.encode()
        found.update(b"%d " % len(data))
        found.update(data)
    return found.hexdigest()[:16]


def files_of(folder: Path, parts: Iterable[str]) -> List[str]:
    """Gives the names and the texts of the files in these folders of a crate."""
    found: List[str] = []
    for part in parts:
        for it in sorted((folder / part).rglob("*")):
            if it.is_file():
                found += [str(it.relative_to(folder)), it.read_text(encoding="utf-8")]
    return found


def offered(folder: Path) -> List[str]:
    """Gives what crates above see of a crate: its code without bodies, and its definitions."""
    code = [text for name, it in read_code(folder).items() for text in (name, signatures_of(name, it))]
    return code + files_of(folder, ["specs"])


class Sums:
    """The sums of edits, of a checkout's crates. Those of crates are made once."""

    def __init__(self, crates: Path, lines: Dict[str, Line], toolchain: str) -> None:
        self.crates, self.lines, self.toolchain = crates, lines, toolchain
        self.offers: Dict[str, str] = {}
        self.owns: Dict[str, str] = {}

    def offer(self, crate: str) -> str:
        """Gives the sum of what crates above see of a crate."""
        if crate not in self.offers:
            self.offers[crate] = sum_of(offered(self.crates / crate))
        return self.offers[crate]

    def own(self, crate: str) -> str:
        """Gives the sum of all that an edit of a crate rests on but the edit itself."""
        if crate not in self.owns:
            line = self.lines[crate]
            parts = [self.toolchain, crate, str(line.is_static), *line.names, "files", *files_of(self.crates / crate, PARTS)]
            for name in sorted(below(self.lines, crate)):
                parts += ["below", name, self.offer(name)]
            self.owns[crate] = sum_of(parts)
        return self.owns[crate]

    def of(self, edit: Edit) -> str:
        """Gives the sum of an edit."""
        return sum_of([edit.text, self.own(edit.crate)])


def tree_sum(crates: Path) -> str:
    """Gives a sum of all that stands in the crates, what is built left out."""
    parts: List[str] = []
    for folder in sorted(crates.iterdir()):
        parts += [folder.name, *files_of(folder, [*PARTS, "edits"])]
    return sum_of(parts)


def read_record(path: Path) -> Dict[str, Refusal]:
    """Reads the record, which may not be there. A line that has no goal is a ValueError."""
    found: Dict[str, Refusal] = {}
    for line in path.read_text(encoding="utf-8").splitlines() if path.is_file() else []:
        if not line.startswith("#"):
            label, sum_, goal = line.split(" ", 2)
            found[label] = Refusal(sum_, goal)
    return found


HEAD = """# Each edit, a sum of what its refusal rests on, and the goal that refused it. `make edits` writes it (checks/edits/edits.py).
"""


def write_record(path: Path, record: Dict[str, Refusal]) -> None:
    """Writes the record, by the names of the edits."""
    lines = [f"{label} {it.sum} {it.goal}\n" for label, it in sorted(record.items())]
    path.write_text(HEAD + "".join(lines), encoding="utf-8")
