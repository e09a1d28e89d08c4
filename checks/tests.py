"""tests.py: the tests, without any proof (`make test`).

    python3 checks/tests.py

It runs what the gate runs before the proofs, and unproved, by `rt try`: both programs on each stored row and trace, and
the tests of the crates. What needs a built program, or the library, is run where build has it, as new as the sources.
Else it is named as left to the gate. The last line is 'N passed, M failed'; the status is that of the first command
that failed.
"""

import sys
import time
from collections.abc import Sequence
from shutil import which

import crate_tests
import tools
from gate import CHECKS
from runner import ROOT, Beside, Command, in_words, lanes, processors
from stored import CRATES

sys.path.insert(0, str(ROOT / "packaging"))

from typed import commands as commands_of  # noqa: E402

BUILD = ROOT / "build"

SECONDS = 155
"""What it takes on four processors of 2.5 GHz that have nothing else to do."""

TRY = 2
"""Gigabytes that `rt try` takes of a program."""


def unproved() -> list[Command]:
    """What `rt try` runs, the longest first."""
    programs: list[Command] = [(sys.executable, "checks/stored.py", name) for name in CRATES]
    return [*programs, *((sys.executable, "checks/crate_tests.py", crate) for crate in crate_tests.crates())]


def is_new(*names: str) -> bool:
    """Whether build has these files, and none is older than a source of the crates."""
    built = [BUILD / name for name in names]
    if not all(path.is_file() for path in built):
        return False
    sources = [path for kind in ("rt", "antt") for path in (ROOT / "crates").glob(f"*/[!o]*/**/*.{kind}")]
    newest = max(path.stat().st_mtime for path in [ROOT / "crates.txt", *sources])
    return all(path.stat().st_mtime >= newest for path in built)


def of_built() -> tuple[list[Command], list[str]]:
    """What is run of what build has, and what is left to the gate, with what it lacks."""
    run: list[Command] = []
    left: list[str] = []
    rows = sum(1 for folder in ("rows", "traces") for _ in (ROOT / "examples" / folder).iterdir())
    typed = len(commands_of(ROOT / "README.md"))
    if is_new("yds_cli", "yds_trace"):
        run.append((sys.executable, "checks/built.py", "--only", "programs", "build"))
    else:
        left.append(f"{rows} rows and traces, {typed} commands of README.md, and drawn documents, of the built programs: make builds them")
    if is_new("yds_cli", "yds_trace", "libyds.a", "libyds.so"):
        run.append((sys.executable, "checks/built.py", "--only", "calls", "build"))
        if which("gcc") and which("g++"):
            run.append((sys.executable, "checks/built.py", "--only", "library", "build"))
        else:
            left.append("the tests of library/test: they need gcc and g++")
    else:
        left.append(f"{tools.LEAST_BUILT} tests that ask the library, and those of library/test: make library builds it")
    return run, left


def main() -> int:
    """Runs the tests. Gives the status."""
    began = time.monotonic()
    minutes = SECONDS * 4 / min(4, processors()) / 60
    print("Nothing is proved here: the programs and the tests of their crates run unproved. make gate proves them.")
    print(f"It takes about {minutes:.0f} minutes on {processors()} idle processors.", flush=True)
    if which("rt") is None:
        print("the command 'rt' of the Rattle toolchain isn't on the PATH; install the kit that README.md names")
        print("0 passed, 1 failed")
        return 1
    built, left = of_built()
    commands: Sequence[Command] = [*unproved(), *CHECKS, *built]
    result = Beside(commands).run(lanes(TRY))
    for line in left:
        print(f"left to the gate: {line}")
    print("left to the gate: every proof, and the edits that a proof has to refuse")
    print(f"{in_words(time.monotonic() - began)} on {processors()} processors")
    print(result.line(), flush=True)
    return result.status


if __name__ == "__main__":
    sys.exit(main())
