"""trials.py: runs the prover on a copy of a crate with some edits, over the libraries that `rt ci` left in the crates.

A copy has the crate's src/, specs/ and proofs/ alone, and stands outside the checkout.
"""

import os
import shutil
import subprocess
import tempfile
import threading
from contextlib import contextmanager
from pathlib import Path
from typing import Dict, Iterator, List, NamedTuple, Sequence, Set

from edit_files import PARTS, Change, put_in

KILLED = -9


class Line(NamedTuple):
    """A line of crates.txt: a crate, whether it is a static library, and the libraries that it names."""

    crate: str
    is_static: bool
    names: List[str]


class Ran(NamedTuple):
    """A check that ended: its status, what it wrote, the processor's seconds, and the memory that it took, in MB."""

    status: int
    text: str
    seconds: float
    memory: int


def read_lines(text: str) -> Dict[str, Line]:
    """Reads crates.txt."""
    found: Dict[str, Line] = {}
    for line in text.splitlines():
        head, colon, rest = line.partition("#")[0].partition(":")
        words = head.split()
        if colon and words:
            found[words[0]] = Line(words[0], "staticlib" in words[1:], rest.split())
    return found


def below(lines: Dict[str, Line], crate: str) -> Set[str]:
    """Gives the crates of the repository that one stands on, however far below."""
    found: Set[str] = set()
    wanted = [crate]
    while wanted:
        for name in lines[wanted.pop()].names:
            if name in lines and name not in found:
                found.add(name)
                wanted.append(name)
    return found


def kit() -> Path:
    """The folder of the toolchain, by its command `rt`."""
    command = shutil.which("rt")
    if command is None:
        raise FileNotFoundError("the command 'rt' of the Rattle toolchain isn't on the PATH")
    return Path(command).resolve().parent.parent


def identity() -> str:
    """The line by which the toolchain names itself, with the sum of its logic."""
    return subprocess.run([str(kit() / "bin" / "rt"), "version"], capture_output=True, text=True, check=True).stdout.strip()


def library_of(crates: Path, name: str) -> Path:
    """Where `rt ci` left the library of a crate."""
    return crates / name / "out" / "rlib"


def words(crates: Path, lines: Dict[str, Line], crate: str, only: Sequence[str]) -> List[str]:
    """The words of a check of these functions of a crate, or of all where none is named, in the folder of its copy."""
    home, line = kit(), lines[crate]
    root = "src/main.rt" if (crates / crate / "src" / "main.rt").is_file() else "src/lib.rt"
    found = [str(home / "bin" / "rattle"), "check", "--crate-name", crate, root]
    found += ["--extern", f"std={home / 'rlibs' / 'std.rlib'}"]
    for name in line.names:
        place = library_of(crates, name) if name in lines else home / "rlibs"
        found += ["--extern", f"{name}={place / name}.rlib"]
    for name in sorted(below(lines, crate)):
        found += ["-L", f"dependency={library_of(crates, name)}"]
    found += ["-L", f"dependency={home / 'rlibs'}", "--antt-project", str(home / "rattle" / "logic" / "antt-project.json")]
    found += ["--logic-built", str(home / "logic_built"), "--links", f"{crate}="]
    found += ["--crate-type", "staticlib"] if line.is_static else []
    return found + [word for name in only for word in ("--only", name)]


def copy(folder: Path, to: Path, changes: Sequence[Change]) -> None:
    """Copies what a check reads of a crate's folder, with these changes."""
    for part in PARTS:
        if (folder / part).is_dir():
            shutil.copytree(folder / part, to / part)
    for file in sorted({it.file for it in changes}):
        text = (folder / file).read_text(encoding="utf-8")
        (to / file).write_text(put_in(text, [it for it in changes if it.file == file]), encoding="utf-8")


def run_once(command: Sequence[str], folder: Path, log: Path) -> Ran:
    """Runs a check, and tells what it took."""
    with open(log, "wb") as out:
        process = subprocess.Popen(command, cwd=folder, stdin=subprocess.DEVNULL, stdout=out, stderr=subprocess.STDOUT)
        _, status, usage = os.wait4(process.pid, 0)
        process.returncode = os.waitstatus_to_exitcode(status)
    text = log.read_text(encoding="utf-8", errors="replace")
    return Ran(process.returncode, text, usage.ru_utime + usage.ru_stime, usage.ru_maxrss // 1024)


def run(command: Sequence[str], folder: Path, changes: Sequence[Change]) -> Ran:
    """Runs a check on a copy of a crate's folder with these changes. One that is killed, as for want of memory, is run once more."""
    with tempfile.TemporaryDirectory(prefix="edits-") as name:
        room = Path(name)
        copy(folder, room / "crate", changes)
        first = run_once(command, room / "crate", room / "log")
        if first.status != KILLED:
            return first
        again = run_once(command, room / "crate", room / "log")
        return again._replace(seconds=first.seconds + again.seconds)


def lines_below(folder: Path) -> int:
    """Gives the lines of a crate's code, and a fifth of those of its definitions and proofs."""
    code = sum(it.read_bytes().count(b"\n") for it in (folder / "src").rglob("*.rt"))
    texts = sum(it.read_bytes().count(b"\n") for part in ("specs", "proofs") for it in (folder / part).rglob("*.antt"))
    return code + texts // 5


def memory_of(crates: Path, lines: Dict[str, Line], crate: str) -> int:
    """Gives the memory that a check of a crate is likely to take, in MB."""
    return 700 + lines_below(crates / crate) // 2 + sum(lines_below(crates / it) for it in below(lines, crate)) // 40


def free_memory() -> int:
    """Gives the memory that is free now, in MB."""
    for line in Path("/proc/meminfo").read_text(encoding="utf-8").splitlines():
        if line.startswith("MemAvailable:"):
            return int(line.split()[1]) // 1024
    return 4096


class Room:
    """The memory that checks which run side by side may take, in MB. One that needs more than all runs alone."""

    def __init__(self, most: int) -> None:
        self.most, self.taken, self.changed = most, 0, threading.Condition()

    @contextmanager
    def of(self, needed: int) -> Iterator[None]:
        """Waits until so much is free, and takes it until the block ends."""
        with self.changed:
            self.changed.wait_for(lambda: self.taken == 0 or self.taken + needed <= self.most)
            self.taken += needed
        try:
            yield
        finally:
            with self.changed:
                self.taken -= needed
                self.changed.notify_all()
