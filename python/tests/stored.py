"""The rows that are stored with the program: words, an input, and the answer to them."""

import os
from pathlib import Path
from typing import Iterator, List, NamedTuple

import yds

ROOT = Path(__file__).resolve().parents[2]
PROGRAM = os.environ.get("YDS", str(ROOT / "build" / "yds_cli"))


class Row(NamedTuple):
    """A stored row."""

    name: str
    words: List[str]
    document: bytes
    wanted: yds.Answer


def rows() -> Iterator[Row]:
    """Each stored row."""
    for folder in sorted((ROOT / "examples" / "rows").iterdir()):
        words = (folder / "args").read_text().splitlines()
        named = folder / "document"
        place = ROOT / "examples" / named.read_text().strip() if named.exists() else folder / "stdin"
        status = yds.Status(int((folder / "status").read_text()))
        yield Row(folder.name, words, place.read_bytes(), yds.Answer(status, (folder / "stdout").read_bytes()))
