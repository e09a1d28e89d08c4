"""What the tests of long documents share: parts as texts, and the answers to them."""

from functools import lru_cache
from typing import Iterable, List, Sequence, Tuple

import yds
from yds import parts

GRID = "720720"


@lru_cache(maxsize=None)
def program(document: bytes, *words: str) -> Tuple[int, bytes]:
    """What the program answers to a document."""
    status, text = yds.answer(list(words), document)
    return int(status), text


def texts(lines: Iterable[bytes], jobs: int = 4000, shift: bool = False) -> List[bytes]:
    """The texts of the parts."""
    return [part.text for part in parts.cut(lines, jobs, shift)]


def answered(texts_of_parts: Sequence[bytes], *words: str) -> List[bytes]:
    """The answers to the parts."""
    return [program(text, *words)[1] for text in texts_of_parts]


def joined(found: "parts.Whole") -> bytes:
    """The text of the whole."""
    return b"".join(found.lines)


def lines(*text: str) -> List[bytes]:
    """Lines as a file has them."""
    return [line.encode("ascii") + b"\n" for line in text]


SHORT = lines("job a 0 4 8", "job b 4 6 4", "job c 9 12 3", "point 0 1", "point 2 5")
