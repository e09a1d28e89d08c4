"""rows.py: tells which stored traces the second reading answers otherwise, and writes their answers anew.

    python3 robustness/rows.py                          tells the rows of examples/traces whose text or status isn't that of second.py
    python3 robustness/rows.py --write                  writes these anew
    python3 robustness/rows.py --new NAME TRACE WORD..  makes a row of this trace, with these words

A row has its words in `args`, its trace in `stdin`, or named in `trace`, what is written in `stdout`, and the status.
So what the program is to write comes from a reading that shares no code with it, and not from the program. Tables of
threads, and files that aren't there or end within a line, are no matter of second.py: their rows stay as they are. The
last line is 'N as they are, M otherwise'; the status is 1 where M isn't 0 and nothing is written.
"""

import difflib
import os
import sys
from pathlib import Path
from typing import Iterator, List, NamedTuple, Optional

sys.path.insert(0, str(Path(__file__).resolve().parent))
from second import as_bytes, as_text, files_in  # noqa: E402
from trace import told  # noqa: E402

ROOT = Path(__file__).resolve().parent.parent
EXAMPLES = ROOT / "examples"


class Answer(NamedTuple):
    """What is written, and the status."""

    text: bytes
    status: int


def trace_of(row: Path, words: List[str]) -> Optional[bytes]:
    """The trace of a row; None where its files can't be read as one."""
    named, own = row / "trace", row / "stdin"
    given = ROOT / named.read_text(encoding="utf-8").strip() if named.is_file() else own
    data = given.read_bytes() if given.is_file() else b""
    pieces: List[bytes] = []
    for name in files_in(words):
        if name != "-" and not (EXAMPLES / name).is_file():
            return None
        pieces.append(data if name == "-" else (EXAMPLES / name).read_bytes())
    is_whole = all(piece.endswith(b"\n") for piece in pieces[:-1])
    return (b"".join(pieces) if pieces else data) if is_whole else None


def answer_of(row: Path) -> Optional[Answer]:
    """What the second reading says of a row; None where it is none of its matter."""
    words = (row / "args").read_text(encoding="utf-8").splitlines()
    trace = None if "?" in words else trace_of(row, words)
    if trace is None:
        return None
    said = told(words, trace)
    return Answer(as_bytes(said.text), said.status)


def stored(row: Path) -> Answer:
    """What is stored."""
    return Answer((row / "stdout").read_bytes(), int((row / "status").read_text(encoding="utf-8")))


def write(row: Path, answer: Answer) -> None:
    """Writes an answer."""
    (row / "stdout").write_bytes(answer.text)
    (row / "status").write_text(f"{answer.status}\n", encoding="utf-8")


def changed(old: Answer, new: Answer) -> Iterator[str]:
    """The lines in which they differ."""
    texts = [as_text(each.text).splitlines() + [f"status {each.status}"] for each in (old, new)]
    for line in difflib.unified_diff(*texts, lineterm="", n=0):
        if not line.startswith(("---", "+++", "@@")):
            yield f"    {line}"


def make(name: str, trace: str, words: List[str]) -> None:
    """Makes a row."""
    row = EXAMPLES / "traces" / name
    row.mkdir()
    (row / "args").write_text("".join(f"{word}\n" for word in words), encoding="utf-8")
    place = Path(trace).resolve()
    if ROOT in place.parents:
        (row / "trace").write_text(f"{place.relative_to(ROOT)}\n", encoding="utf-8")
    else:
        (row / "stdin").write_bytes(place.read_bytes())
    answer = answer_of(row)
    assert answer is not None
    write(row, answer)
    sys.stdout.buffer.write(answer.text)


def main(words: List[str]) -> int:
    """Compares the rows, or writes them. Gives the status."""
    if words[:1] == ["--new"]:
        make(words[1], words[2], words[3:])
        return 0
    same = other = 0
    for row in sorted((EXAMPLES / "traces").iterdir()):
        new, old = answer_of(row), stored(row)
        if new is None or new == old:
            same += 1
            continue
        other += 1
        print(row.name, *changed(old, new), sep="\n")
        if words == ["--write"]:
            write(row, new)
    print(f"{same} as they are, {other} otherwise")
    return int(other > 0 and words != ["--write"])


if __name__ == "__main__":
    here = [os.path.abspath(word) if place == 3 and sys.argv[1] == "--new" else word for place, word in enumerate(sys.argv) if place > 0]
    os.chdir(ROOT)
    sys.exit(main(here))
