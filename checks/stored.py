"""stored.py: whether a program answers each stored row, or each stored trace, unproved (a part of `make test`).

    python3 checks/stored.py yds_cli      the rows of examples/rows, and two documents about as long as one may be
    python3 checks/stored.py yds_trace    the traces of examples/traces

`rt try` takes a minute before a program runs, and keeps no program. So it gets all inputs of a program in one run. What
a program writes and its status are compared with what is stored; that it writes nothing to standard error is seen by
examples/check.sh and examples/check-traces.sh, which try the proved programs. The last line is 'N passed, M failed'; the
status is 1 where M isn't 0.
"""

import re
import subprocess
import sys
import tempfile
from collections.abc import Iterator, Sequence
from pathlib import Path
from typing import NamedTuple

ROOT = Path(__file__).resolve().parent.parent
EXAMPLES = ROOT / "examples"

LONGEST = 1 << 23
"""A document may have so many bytes."""

CRATES = {"yds_cli": "yds_cli", "yds_trace": "yds_trace_cli"}
"""The programs, and the crate that each is built of."""

_ENDED = re.compile(r"case=(\S+) run=(\S+)(?: status=(\d+))?.*? output=(\S+)")


class Row(NamedTuple):
    """A stored answer: the words, the input, and what is written and with which status."""

    name: str
    words: list[str]
    given: bytes
    written: bytes
    status: int


def row_of(folder: Path, given: bytes) -> Row:
    """The row of a folder, with this input."""
    words = (folder / "args").read_text(encoding="utf-8").splitlines()
    status = int((folder / "status").read_text(encoding="utf-8"))
    return Row(folder.name, words, given, (folder / "stdout").read_bytes(), status)


def documents() -> Iterator[Row]:
    """Each row of examples/rows, and a document of the greatest size and one that is a byte longer."""
    for folder in sorted((EXAMPLES / "rows").iterdir()):
        named = folder / "document"
        place = EXAMPLES / named.read_text(encoding="utf-8").strip() if named.is_file() else folder / "stdin"
        yield row_of(folder, place.read_bytes())
    longest = b"#" * LONGEST
    yield Row("the-longest-document", ["plan"], longest, b"", 0)
    yield Row("a-document-that-is-too-long", ["plan"], longest + b"\n", b"refused too-long\n", 3)


def traces() -> Iterator[Row]:
    """Each row of examples/traces. One without a trace of its own reads the files that its words name."""
    for folder in sorted((EXAMPLES / "traces").iterdir()):
        named, own = folder / "trace", folder / "stdin"
        if named.is_file():
            own = ROOT / named.read_text(encoding="utf-8").strip()
        yield row_of(folder, own.read_bytes() if own.is_file() else b"")


def examples_without_row() -> list[str]:
    """The examples that are the document of no row."""
    named = {path.read_text(encoding="utf-8").strip() for path in (EXAMPLES / "rows").glob("*/document")}
    return sorted(path.name for path in EXAMPLES.glob("*.txt") if path.name not in named)


def lay_out(rows: Sequence[Row], folder: Path) -> list[str]:
    """Writes the rows as cases of `rt try --cases`, and gives its words for the files that they name."""
    files: dict[str, Path] = {}
    for row in rows:
        (folder / row.name).write_bytes(row.given)
        (folder / f"{row.name}.args").write_text("".join(f"{word}\n" for word in row.words), encoding="utf-8")
        (folder / f"{row.name}.stdout").write_bytes(row.written)
        files.update({word: EXAMPLES / word for word in row.words if "/" in word and (EXAMPLES / word).is_file()})
    return [word for name, place in files.items() for word in ("--data", f"{name}={place}")]


def fault_of(row: Row, told: dict[str, str]) -> str:
    """What is wrong with a row, by the line that `rt try` tells of it; empty where nothing is."""
    found = _ENDED.match(told.get(row.name, ""))
    if found is None or found.group(2) != "ended":
        return told.get(row.name, "it wasn't run")
    if int(found.group(3) or -1) != row.status:
        return f"status {found.group(3)}, stored is {row.status}"
    return "" if found.group(4) == "expected" else "what it writes isn't what is stored"


def answers(program: str, rows: Sequence[Row]) -> tuple[dict[str, str], list[str]]:
    """Runs the program on all rows: the line of each, by the row's name, and what else was told."""
    crate = CRATES[program]
    with tempfile.TemporaryDirectory() as name:
        cases = Path(name, "cases")
        cases.mkdir()
        words = ["rt", "try", crate, "--cases", str(cases), *lay_out(rows, cases)]
        done = subprocess.run(
            words, cwd=ROOT / "crates" / crate, stdin=subprocess.DEVNULL, stdout=subprocess.PIPE,
            stderr=subprocess.PIPE, check=False,
        )
    lines = done.stderr.decode(errors="replace").splitlines()
    told = {line.split()[0].removeprefix("case="): line for line in lines if line.startswith("case=")}
    others = [line for line in lines if not line.startswith(("case=", "cases="))]
    return told, others + done.stdout.decode(errors="replace").splitlines()


def main(words: Sequence[str]) -> int:
    """Tries the program of this name. Gives the status."""
    (program,) = words
    rows = list(documents() if program == "yds_cli" else traces())
    told, others = answers(program, rows)
    faults = [f"{row.name}: {fault}" for row in rows if (fault := fault_of(row, told))]
    passed = len(rows) - len(faults)
    if program == "yds_cli":
        faults += [f"no row has {name}" for name in examples_without_row()]
    for line in others if faults else []:
        print(line)
    for fault in faults:
        print(f"FAILED: {fault}")
    print(f"{passed} passed, {len(faults)} failed")
    return int(bool(faults))


if __name__ == "__main__":
    sys.exit(main(sys.argv[1:]))
