"""edit_files.py: the edits of the crates, files `crates/CRATE/edits/NAME.edit`: what each says, and where it stands.

An edit has a line `file: FILE`, then pairs of lines `old: TEXT` and `new: TEXT`, each text one line. An old text stands
once in its file as the earlier pairs made it. Lines `# breaks:` say which goals refuse it, and lines `# so:` what isn't
true then either (docs/extending.md).
"""

import re
from pathlib import Path
from typing import Dict, List, NamedTuple, Sequence, Tuple

from functions import Function, function_at

PARTS = ("src", "specs", "proofs")
"""The folders of a crate that a check reads."""


class EditFault(ValueError):
    """An edit that can't be applied; its text says why."""


class Change(NamedTuple):
    """A stretch of a file, from `start` to `end`, and what an edit puts in its place."""

    file: str
    start: int
    end: int
    new: str


class Edit(NamedTuple):
    """An edit of a crate: its whole text, and its lines `# breaks:` and `# so:`."""

    crate: str
    name: str
    text: str
    breaks: List[str]
    so: List[str]

    def label(self) -> str:
        """Gives its name among all edits."""
        return f"{self.crate}/{self.name}"


def read_edit(path: Path) -> Edit:
    """Reads an edit."""
    text = path.read_text(encoding="utf-8")
    said = {word: re.findall(rf"^# {word}: *(.+?) *$", text, re.M) for word in ("breaks", "so")}
    return Edit(path.parent.parent.name, path.stem, text, said["breaks"], said["so"])


def read_edits(folder: Path) -> List[Edit]:
    """Reads the edits of a crate by its folder, in the order of their names."""
    return [read_edit(it) for it in sorted((folder / "edits").glob("*.edit"))]


def text_of(folder: Path, file: str) -> str:
    """Gives the text of a file of a crate. One that isn't in the folders that a check reads is a fault."""
    if file.split("/")[0] not in PARTS or ".." in file.split("/") or not (folder / file).is_file():
        raise EditFault(f"there is no file {file or 'named'} in {', '.join(PARTS)}")
    return (folder / file).read_text(encoding="utf-8")


def edited(edit: Edit, folder: Path) -> Dict[str, Tuple[str, str]]:
    """Gives the texts of the files that an edit changes, before and after, by their paths in the crate's folder."""
    texts: Dict[str, Tuple[str, str]] = {}
    file, old = "", ""
    for line in edit.text.split("\n"):
        if line.startswith("file: "):
            file = line[len("file: ") :].strip()
        elif line.startswith("old: "):
            old = line[len("old: ") :]
        elif line.startswith("new:"):
            before, now = texts.get(file) or (text_of(folder, file),) * 2
            times = now.count(old) if old else 0
            if times != 1:
                raise EditFault(f"its old text stands {times} times in {file}, and not once")
            texts[file] = before, now.replace(old, re.sub("^new: ?", "", line))
            old = ""
    if not texts or all(before == now for before, now in texts.values()):
        raise EditFault("it changes nothing")
    return texts


def change_between(file: str, before: str, now: str) -> Change:
    """Gives the shortest stretch that differs between two texts of a file."""
    start, most = 0, min(len(before), len(now))
    while start < most and before[start] == now[start]:
        start += 1
    tail = 0
    while tail < most - start and before[-1 - tail] == now[-1 - tail]:
        tail += 1
    return Change(file, start, len(before) - tail, now[start : len(now) - tail])


def changes_of(edit: Edit, folder: Path) -> List[Change]:
    """Gives the changes of an edit."""
    return [change_between(file, *texts) for file, texts in edited(edit, folder).items() if texts[0] != texts[1]]


def function_of_change(change: Change, files: Dict[str, List[Function]]) -> str:
    """Gives the function in whose body a whole change is, as the prover names it, or '' where there is none.

    The crate's functions are given by their files. The body of a constant function can be seen from outside, so it is none.
    """
    part, _, file = change.file.partition("/")
    functions = files.get(file, []) if part == "src" else []
    first, last = (function_at(functions, at) for at in (change.start, max(change.start, change.end - 1)))
    return first.path if first and last and first == last and not first.is_constant else ""


def stands_at(change: Change, folder: Path, place: str) -> bool:
    """Whether a change touches the place FILE:LINE that a line of the prover begins with.

    Each text of an edit is one line, so lines stay where they are.
    """
    found = re.match(r"(?:\./)?([^:\s]+):(\d+):", place)
    if found is None or found.group(1) != change.file:
        return False
    text = (folder / change.file).read_text(encoding="utf-8")
    first, last = (text.count("\n", 0, at) + 1 for at in (change.start, change.end))
    return first <= int(found.group(2)) <= last


def put_in(text: str, changes: Sequence[Change]) -> str:
    """Gives the text of a file with these changes, which don't overlap."""
    kept, at = [], 0
    for it in sorted(changes, key=lambda change: change.start):
        kept += [text[at : it.start], it.new]
        at = it.end
    return "".join([*kept, text[at:]])


def overlap(one: Sequence[Change], other: Sequence[Change]) -> bool:
    """Whether changes of two edits touch the same stretch of a file."""
    return any(a.file == b.file and a.start <= b.end and b.start <= a.end for a in one for b in other)
