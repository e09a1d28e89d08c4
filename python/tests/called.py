"""Commands called within this process: status, output and errors."""

import io
import sys
from importlib import import_module
from pathlib import Path
from typing import NamedTuple, Sequence
from unittest import mock

ROOT = Path(__file__).resolve().parents[2]
SAMPLES = ROOT / "recipes" / "samples"
EXPECTED = ROOT / "recipes" / "expected"


class Called(NamedTuple):
    """How a command ended."""

    status: int
    out: str
    err: str


def call(name: str, *words: object, given: bytes = b"") -> Called:
    """Calls the command of this name, without yds-, with these words and this standard input."""
    main = import_module(f"yds.commands.{name}").main
    streams = [io.TextIOWrapper(io.BytesIO(text), encoding="utf-8", newline="") for text in (given, b"", b"")]
    with mock.patch("sys.stdin", streams[0]), mock.patch("sys.stdout", streams[1]), mock.patch(
        "sys.stderr", streams[2]
    ):
        status = main([str(word) for word in words])
        sys.stdout.flush()
        sys.stderr.flush()
    out, err = (stream.buffer.getvalue() for stream in streams[1:])  # type: ignore[attr-defined]
    return Called(status, out.decode("latin-1"), err.decode("utf-8"))


def broken(line: str, first: int = 1) -> Sequence[str]:
    """The line with each field from this one on broken: missing, doubled, negative, too great, another unit, cut off."""
    fields = line.split(" ")
    found = []
    for place in range(first, len(fields)):
        for other in ("", fields[place] + " " + fields[place], "-1", "9" * 40, fields[place] + "ms", "1+1/0", "1.5"):
            found.append(" ".join(word for word in [*fields[:place], other, *fields[place + 1 :]] if word))
        found.append(" ".join(fields[:place]))
    return found
