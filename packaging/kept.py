"""kept.py: carries what `rt ci` keeps of this tree, from one machine to another (`make kept`, `make gate KEPT=FILE`).

    python3 packaging/kept.py pack FILE       writes what a passed gate of this tree kept
    python3 packaging/kept.py unpack FILE     puts it where `rt ci` of this machine looks

Beside its own folder the toolchain keeps what `rt ci` proved: an entry for each crate, and one for its tests, in folders
whose names are the sums of all that was read, the toolchain with the times of its files among it. So an entry serves
wherever the same toolchain was unpacked with its times, and a crate that changed finds none.

`rt ci` believes an entry. So whoever unpacks a file believes whoever packed it, as he believes his own machine: it is a
cache, and whoever believes nothing leaves it out. A file of another toolchain is refused, and so is one that is cut off
or that would write anywhere else. What is there already stays as it is.

Of each crate that entry is packed whose files stand in the crate's folder out, as `rt ci` leaves them. Where `rt check`
has put its own there, the newest one is packed, and that is told. FILE is an archive by tar and gzip. The status is 1
where nothing was packed, or where a file was refused.
"""

import argparse
import hashlib
import io
import json
import os
import re
import subprocess
import sys
import tarfile
import tempfile
from collections.abc import Iterator, Sequence
from pathlib import Path
from typing import NamedTuple

from over import kit
from prove import ROOT, read_graph

TOOLCHAIN = "toolchain.json"
"""The first file of an archive: which toolchain it is of."""

ENTRY = re.compile(r"(?P<kind>proof|tests)-(?P<crate>[a-z0-9_]+)-(?P<key>[0-9a-f]{64})")
MEMBER = re.compile(rf"(?P<entry>{ENTRY.pattern})/(?:made\.json|[0-9]+)")
OF_NO_SUM = ("out", "__pycache__")
"""Folders of the toolchain's that it writes as it runs."""


class Refused(Exception):
    """Why a file can't be packed or unpacked."""


class Entry(NamedTuple):
    """What is kept of a crate, or of its tests: the folder, and the sums of its files by where they stand in the crate's folder out."""

    folder: Path
    sums: dict[str, str]


class Chosen(NamedTuple):
    """An entry of a crate, and whether its files are those that stand in the crate's folder."""

    entry: Entry
    is_of_tree: bool


def store() -> Path:
    """The folder in which `rt ci` keeps what it proved."""
    return kit().parent / "rattle-kept"


def toolchain() -> dict[str, str]:
    """What tells this toolchain from another: its name, and a sum of the place, kind, size and time of each of its files."""
    home, total = kit(), hashlib.sha256()
    for at, folders, files in os.walk(home):
        folders[:] = sorted(name for name in folders if name not in OF_NO_SUM)
        for name in sorted(files):
            found = os.lstat(os.path.join(at, name))
            place = os.path.relpath(os.path.join(at, name), home)
            total.update(f"{place} {found.st_mode} {found.st_size} {found.st_mtime_ns}\n".encode())
    told = subprocess.run([str(home / "bin" / "rt"), "version"], stdout=subprocess.PIPE, check=True)
    return {"name": told.stdout.decode().strip(), "sum": total.hexdigest()}


def sum_of(path: Path) -> str:
    """The sum of a file, as the toolchain takes it; 'none' where there is no such file."""
    return hashlib.sha256(path.read_bytes()).hexdigest() if path.is_file() else "none"


def read_entry(folder: Path) -> Entry:
    """An entry, by what it tells of itself. One that tells something else than its name is an error."""
    found = ENTRY.fullmatch(folder.name)
    try:
        made = json.loads((folder / "made.json").read_text(encoding="utf-8"))
        if found is None or made["key"] != found["key"]:
            raise ValueError(folder.name)
        return Entry(folder, {str(path): str(total) for path, total in made["files"]})
    except (OSError, ValueError, KeyError, TypeError) as error:
        raise Refused(f"{folder.name} isn't whole: {error}") from error


def entries(kind: str, crate: str) -> list[Entry]:
    """What is kept of a crate, the newest first. What isn't whole is passed over."""
    found = []
    for folder in store().glob(f"{kind}-{crate}-*"):
        try:
            found.append((folder.stat().st_mtime, read_entry(folder)))
        except (Refused, OSError):
            continue
    return [entry for _, entry in sorted(found, key=lambda each: each[0], reverse=True)]


def chosen(kind: str, crate: str) -> list[Chosen]:
    """The entry of a crate of this tree: the newest whose files stand in the crate's folder, or else the newest. There may be none."""
    out = ROOT / "crates" / crate / "out"
    sums: dict[str, str] = {}
    kept = entries(kind, crate)
    for entry in kept:
        for path in entry.sums:
            sums.setdefault(path, sum_of(out / path))
        if all(sums[path] == total for path, total in entry.sums.items()):
            return [Chosen(entry, True)]
    return [Chosen(entry, False) for entry in kept[:1]]


def add(archive: tarfile.TarFile, name: str, content: bytes) -> None:
    """Puts a file into an archive."""
    member = tarfile.TarInfo(name)
    member.size, member.mode = len(content), 0o644
    archive.addfile(member, io.BytesIO(content))


def pack(to: Path) -> None:
    """Packs the entries of all crates of this tree, and tells of which there is none."""
    crates = sorted(read_graph((ROOT / "crates.txt").read_text(encoding="utf-8")))
    found = {crate: chosen("proof", crate) for crate in crates}
    missing = [crate for crate in crates if not found[crate]]
    if len(missing) == len(crates):
        raise Refused(f"{store()} has nothing of these crates: make gate fills it")
    packed = [each for crate in crates for each in (*found[crate], *chosen("tests", crate))]
    to.parent.mkdir(parents=True, exist_ok=True)
    part = to.with_name(f"{to.name}.part")
    with tarfile.open(part, "w:gz", compresslevel=6) as archive:
        add(archive, TOOLCHAIN, json.dumps(toolchain()).encode())
        for entry, _ in packed:
            for place in sorted(entry.folder.iterdir()):
                add(archive, f"{entry.folder.name}/{place.name}", place.read_bytes())
    part.replace(to)
    others = [entry.folder.name.split("-")[1] for entry, is_of_tree in packed if not is_of_tree]
    if others:
        print(f"taken by its time, since other files stand in its folder out: {' '.join(others)}")
    if missing:
        print(f"left out, since nothing is kept of it: {' '.join(missing)}")
    size = to.stat().st_size / 1e6
    print(f"{to}: {len(packed)} entries of {len(crates) - len(missing)} of the {len(crates)} crates, {size:.0f} MB")


def checked(member: tarfile.TarInfo) -> str:
    """The entry that a file of an archive belongs to. What is no plain file of an entry is refused."""
    found = MEMBER.fullmatch(member.name)
    if found is None or not member.isreg():
        raise Refused(f"it has {member.name!r}, which is no file of an entry")
    return found["entry"]


def members(archive: tarfile.TarFile) -> Iterator[tuple[tarfile.TarInfo, bytes]]:
    """The files of an archive, each with its content."""
    for member in archive:
        content = archive.extractfile(member) if member.isreg() else None
        yield member, content.read() if content else b""


def hold_toolchain(member: tarfile.TarInfo, content: bytes) -> None:
    """Refuses an archive whose first file doesn't name this toolchain."""
    try:
        theirs = json.loads(content) if member.name == TOOLCHAIN else {}
        name, total = theirs["name"], theirs["sum"]
    except (ValueError, KeyError, TypeError) as error:
        raise Refused("it doesn't tell of which toolchain it is") from error
    ours = toolchain()
    if name != ours["name"]:
        raise Refused(f"it is of the toolchain {name}, and here is {ours['name']}")
    if total != ours["sum"]:
        raise Refused(f"it is of another copy of {name}: a file's place, kind, size or time differs")


def whole(folder: Path) -> None:
    """Refuses an entry whose files aren't those that it tells of."""
    entry = read_entry(folder)
    for number, (path, total) in enumerate(entry.sums.items()):
        if sum_of(folder / str(number)) != total:
            raise Refused(f"{folder.name}: {path} isn't what was packed")


def own_store() -> Path:
    """The folder in which `rt ci` keeps what it proved, made as it makes it. Another user's is refused."""
    to = store()
    try:
        to.mkdir(mode=0o700, exist_ok=True)
        if to.is_symlink() or os.lstat(to).st_uid != os.geteuid():
            raise Refused(f"{to} is another user's, so rt ci wouldn't read it")
        to.chmod(0o700)
    except OSError as error:
        raise Refused(f"{to} can't be made: {error.strerror}") from error
    return to


def lay_out(file: Path, room: Path) -> list[str]:
    """Unpacks an archive into an empty folder, and gives its entries, each of which is whole."""
    names: dict[str, None] = {}
    with tarfile.open(file, "r:*") as archive:
        for number, (member, content) in enumerate(members(archive)):
            if number == 0:
                hold_toolchain(member, content)
                continue
            name = checked(member)
            names.setdefault(name)
            (room / name).mkdir(exist_ok=True)
            (room / member.name).write_bytes(content)
    if not names:
        raise Refused("it has no entry")
    for name in names:
        whole(room / name)
    return list(names)


def unpack(file: Path) -> None:
    """Puts the entries of an archive where `rt ci` looks. All of it is read before anything is put there."""
    to = own_store()
    with tempfile.TemporaryDirectory(prefix=f"rt-new-{os.getpid()}-", dir=to) as name:
        room = Path(name)
        try:
            found = lay_out(file, room)
        except (OSError, EOFError, tarfile.TarError) as error:
            raise Refused(str(error)) from error
        new = [entry for entry in found if not (to / entry).exists()]
        for entry in new:
            os.replace(room / entry, to / entry)
    print(f"{file}: {len(new)} entries put into {to}, {len(found) - len(new)} were there")


def main(words: Sequence[str]) -> int:
    """Packs or unpacks. Gives the status."""
    parser = argparse.ArgumentParser(prog="kept.py", allow_abbrev=False)
    parser.add_argument("what", choices=("pack", "unpack"))
    parser.add_argument("file", type=Path)
    options = parser.parse_args(words)
    try:
        (pack if options.what == "pack" else unpack)(options.file)
    except (Refused, OSError) as error:
        print(f"kept.py: {options.file}: {error}", file=sys.stderr, flush=True)
        return 1
    return 0


if __name__ == "__main__":
    sys.exit(main(sys.argv[1:]))
