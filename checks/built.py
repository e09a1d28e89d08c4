"""built.py: holds what `rt ci` has proved and built here, and the commands around it, against what is stored or drawn.

    python3 checks/built.py [--only PART ..] [FOLDER]

`rt ci` leaves each program in the folder out of its crate, so nothing is proved a second time. FOLDER is another folder
that has yds_cli, yds_trace and, for the last two parts, libyds.a and libyds.so. The parts are:

    programs     the programs answer each stored row and trace, byte for byte (examples/check.sh,
                 examples/check-traces.sh), and the commands of README.md are typed with them, as a reader types them
                 (packaging/typed.py); and yds_cli answers drawn documents as a second program does, 200 by each form of
                 command (robustness/answers.py)
    library      the C library answers the rows and the examples (library/test/test.sh): it needs gcc and g++
    calls        so do the calls of the Python package (tools.py)

Without a FOLDER packaging/over.py first makes the library over what `rt ci` has proved, with gcc. What doesn't disturb one
another runs side by side. The last line is 'N passed, M failed'; the status is 1 where M isn't 0.
"""

import argparse
import os
import sys
import tempfile
from collections.abc import Sequence
from pathlib import Path

from runner import ROOT, Beside, Command, Result, lanes
from stored import CRATES

LIBRARY = ("libyds.a", "libyds.so")
"""The two files of the library."""

PARTS = ("programs", "library", "calls")


def files(folder: Path | None, parts: Sequence[str]) -> dict[str, Path]:
    """Where what is tried is, but for a library that has yet to be made."""
    if folder is None:
        return {name: ROOT / "crates" / crate / "out" / crate for name, crate in CRATES.items()}
    library = LIBRARY if set(parts) - {"programs"} else ()
    return {name: folder.resolve() / name for name in (*CRATES, *library)}


def lay_out(folder: Path, found: dict[str, Path]) -> None:
    """Makes what a reader has: the programs and the commands in bin, in share what the pages' commands read; in built what is built."""
    for name in ("bin", "share", "built"):
        (folder / name).mkdir()
    for name, place in found.items():
        (folder / "built" / name).symlink_to(place)
    for name in CRATES:
        (folder / "bin" / name).symlink_to(found[name])
    for place in (ROOT / "recipes" / "bin").iterdir():
        (folder / "bin" / place.name).symlink_to(place)
    for name in ("examples", "recipes"):
        (folder / "share" / name).symlink_to(ROOT / name)


def of_programs(folder: Path) -> list[Command]:
    """What is run with the programs alone."""
    return [
        (sys.executable, "packaging/typed.py", "--shared", str(folder / "share"), str(ROOT / "README.md")),
        ("sh", "examples/check-traces.sh", str(folder / "bin" / "yds_trace")),
        ("sh", "examples/check.sh", str(folder / "bin" / "yds_cli")),
        (sys.executable, "robustness/answers.py", "1", "200", str(folder / "bin" / "yds_cli")),
    ]


def of_library(folder: Path, parts: Sequence[str]) -> list[Command]:
    """What is run with the library."""
    built = folder / "built"
    asked = (f"YDS={built / 'yds_cli'}", f"YDS_LIBRARY={built / 'libyds.so'}")
    tried = ("names", "rows", "words", "threads", "memory", "examples", "earlier")
    run: dict[str, Command] = {
        "calls": ("env", *asked, sys.executable, "checks/tools.py", "--built"),
        "library": ("env", f"BUILT={built}", "sh", "library/test/test.sh", *tried),
    }
    return [command for part, command in run.items() if part in parts]


def run_parts(folder: Path, parts: Sequence[str], makes_library: bool) -> Result:
    """Runs these parts: with the library's making, if it has yet to be made, runs what needs the programs alone."""
    programs, library = of_programs(folder) if "programs" in parts else [], of_library(folder, parts)
    if not makes_library or not library:
        return Beside([*library, *programs]).run(lanes(1))
    making: Command = (sys.executable, "packaging/over.py", "library", str(folder / "built"))
    made = Beside([making, *programs]).run(lanes(2))
    if not all((folder / "built" / name).is_file() for name in LIBRARY):
        print(f"not tried, since there is no library: {', '.join(part for part in parts if part != 'programs')}")
        return made
    return made.and_then(Beside(library).run(lanes(1)))


def main(words: Sequence[str]) -> int:
    """Runs the checks, and tells the sums. Gives the status."""
    parser = argparse.ArgumentParser(prog="built.py", allow_abbrev=False)
    parser.add_argument("--only", choices=PARTS, action="append")
    parser.add_argument("folder", type=Path, nargs="?")
    options = parser.parse_args(words)
    parts = options.only or PARTS
    found = files(options.folder, parts)
    absent = [place for place in found.values() if not os.path.isfile(place)]
    for place in absent:
        print(f"{place} isn't there; rt ci builds it" if options.folder is None else f"{place} isn't there", flush=True)
    if absent:
        print(f"0 passed, {len(absent)} failed", flush=True)
        return 1
    for name in ("YDS", "YDS_LIBRARY"):
        os.environ.pop(name, None)
    with tempfile.TemporaryDirectory() as name:
        folder = Path(name)
        lay_out(folder, found)
        os.environ.update(PATH=f"{folder / 'bin'}:{os.environ['PATH']}", PYTHONDONTWRITEBYTECODE="1")
        result = run_parts(folder, parts, options.folder is None)
    print(result.line(), flush=True)
    return result.status


if __name__ == "__main__":
    sys.exit(main(sys.argv[1:]))
