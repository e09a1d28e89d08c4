"""over.py: compiles the programs and the C library over what `rt ci` has proved here (`make built`, checks/built.py).

    python3 packaging/over.py programs FOLDER     NAME.o and NAME-dynamic of each program, as `make` would make them
    python3 packaging/over.py library FOLDER      libyds.a and libyds.so (library/build.sh)

`rt ci` keeps no object file, and of the crate yds_c nothing that could be linked. But it leaves each library as it was
proved, in the folder out of its crate. The toolchain's compiler takes the highest crate alone over these: it proves the
crate's few functions once more, since it compiles only what it has just proved. No other crate is proved again.

Where `rt check` had built libraries here, `rt ci` has put these back in the place of its own, and they may be older
than the sources. Then `rt ci` is run in a copy of the crates, to which it gives what it has kept. The last line is
'N passed, M failed'; the status is 1 where M isn't 0.
"""

import filecmp
import os
import shutil
import subprocess
import sys
import tempfile
from pathlib import Path
from typing import List, Sequence

from prove import LIBRARY, PROGRAM, ROOT, TRACE, Graph, all_below, read_graph

PROGRAMS = {"yds_cli": PROGRAM, "yds_trace": TRACE}
"""The programs, and the crate that each is built of."""


def kit() -> Path:
    """The folder of the toolchain, by its command `rt`."""
    command = shutil.which("rt")
    if command is None:
        raise FileNotFoundError("the command 'rt' of the Rattle toolchain isn't on the PATH")
    return Path(command).resolve().parent.parent


def compiler(crates: Path, graph: Graph, crate: str, to: Path) -> List[str]:
    """The compiler's words by which this crate becomes an object file or an archive, over the libraries in the crates."""
    home, below = kit(), sorted(all_below(graph, crate) - {crate})
    own = {name: crates / name / "out" / "rlib" for name in below}
    words = [str(home / "bin" / "rattle"), "build", "--crate-name", crate]
    words += ["src/lib.rt", "--crate-type", "staticlib"] if crate == LIBRARY else ["src/main.rt"]
    words += ["--extern", f"std={home / 'rlibs' / 'std.rlib'}", "-L", f"dependency={home / 'rlibs'}"]
    for name in graph[crate]:
        words += ["--extern", f"{name}={own[name] / name}.rlib"]
    for name in below:
        words += ["-L", f"dependency={own[name]}"]
    words += ["--antt-project", str(home / "rattle" / "logic" / "antt-project.json")]
    words += ["--logic-built", str(home / "logic_built"), "--toolchain", str(home / "toolchain")]
    return [*words, "--links", f"{crate}=", "--backend", "llvm", "--jobs", "2", "-o", str(to)]


def linker(made: Path, program: Path) -> List[str]:
    """The words by which the toolchain links a program of an object file, as `rt ci` does."""
    home = kit()
    words = [str(home / "bin" / "rattle-link"), "--target", "x86_64-unknown-linux-gnu"]
    words += ["--toolchain", str(home / "toolchain"), "-o", str(program), str(made)]
    return [*words, str(home / "c" / "libos_c.a"), str(home / "c" / "liblibc_c.a")]


def run(words: Sequence[str], folder: Path) -> bool:
    """Runs a command, and tells what it wrote where it fails. Gives whether it didn't."""
    done = subprocess.run(words, cwd=folder, stdin=subprocess.DEVNULL, stdout=subprocess.PIPE, stderr=subprocess.STDOUT)
    if done.returncode:
        print(done.stdout.decode(errors="replace")[-4000:], flush=True)
        print(f"{Path(words[0]).name} {words[1]} ended with status {done.returncode}", flush=True)
    return done.returncode == 0


def was_put_back(crates: Path, below: Sequence[str]) -> bool:
    """Whether a library here is one of `rt check`, which leaves a stamp beside what it builds."""
    return any((crates / name / "out" / "rlib" / "stamp").exists() for name in below)


def copy_of(crates: Path, below: Sequence[str], folder: Path) -> Path:
    """A copy of these crates and of their lines of crates.txt, without what is built."""
    for name in below:
        shutil.copytree(crates / name, folder / "crates" / name, ignore=shutil.ignore_patterns("out", "edits"))
    lines = (ROOT / "crates.txt").read_text(encoding="utf-8").splitlines(keepends=True)
    (folder / "crates.txt").write_text("".join(line for line in lines if line.split(":")[0] in below), encoding="utf-8")
    shutil.copy(ROOT / "HANDLES", folder)
    return folder / "crates"


def compiled(crate: str, to: Path, room: Path) -> bool:
    """Compiles a crate, over what `rt ci` left or gives to a copy in the room. Gives whether it could."""
    crates, graph = ROOT / "crates", read_graph((ROOT / "crates.txt").read_text(encoding="utf-8"))
    below = sorted(all_below(graph, crate) - {crate})
    if was_put_back(crates, below):
        crates = copy_of(crates, below, room)
        if not run([str(kit() / "bin" / "rt"), "ci"], room):
            return False
    return run(compiler(crates, graph, crate, to), ROOT / "crates" / crate)


def make_program(name: str, folder: Path, room: Path) -> bool:
    """Makes the object file of a program, and the program that the toolchain links of it. Gives whether it could."""
    made, program = folder / f"{name}.o", folder / f"{name}-dynamic"
    if not compiled(PROGRAMS[name], made, room) or not run(linker(made, program), ROOT):
        return False
    tried = ROOT / "crates" / PROGRAMS[name] / "out" / PROGRAMS[name]
    if os.path.isfile(tried) and not filecmp.cmp(tried, program, shallow=False):
        print(f"{program} isn't {tried}, which rt ci has built", flush=True)
        return False
    return True


def make_library(folder: Path, room: Path) -> bool:
    """Makes both files of the library. Gives whether it could."""
    archive = room / f"lib{LIBRARY}.a"
    return compiled(LIBRARY, archive, room) and run(
        ["sh", str(ROOT / "library" / "build.sh"), str(archive), str(folder)], ROOT
    )


def made_in(room: Path, what: str, folder: Path) -> List[bool]:
    """Makes what the words say, and gives what could be made."""
    folder.mkdir(parents=True, exist_ok=True)
    if what == "library":
        return [make_library(folder, room)]
    rooms = {name: room / name for name in PROGRAMS}
    for each in rooms.values():
        each.mkdir()
    return [make_program(name, folder, rooms[name]) for name in PROGRAMS]


def main(words: Sequence[str]) -> int:
    """Makes what the words say, and tells what could be made. Gives the status."""
    what, to = words
    with tempfile.TemporaryDirectory() as name:
        try:
            made = made_in(Path(name), what, Path(to).resolve())
        except OSError as error:
            print(error, flush=True)
            made = [False]
    print(f"{sum(made)} passed, {len(made) - sum(made)} failed", flush=True)
    return int(not all(made))


if __name__ == "__main__":
    sys.exit(main(sys.argv[1:]))
