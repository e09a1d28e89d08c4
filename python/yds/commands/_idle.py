"""The word --idle of commands that tell of others."""

from __future__ import annotations

import os
import re
from typing import Optional, Sequence

from yds._words import Option, WordsError

IDLE = Option(
    "idle",
    "threads of these names, by comments `# other`, don't count as others: their time is as if nobody ran, and the "
    "answer says so; a comma in a name is \\,",
    "NAME[,NAME]",
)


def names_of(word: Optional[str]) -> Sequence[str]:
    """The names of the option's value, as comments are read; none where it isn't given.

    >>> names_of("burn,a\\\\,b"), names_of(None)
    (('burn', 'a,b'), ())
    """
    if word is None:
        return ()
    found = [name.replace("\\,", ",") for name in re.split(r"(?<!\\),", os.fsencode(word).decode("latin-1"))]
    if not all(found):
        raise WordsError("--idle has an empty name; it is NAME, or NAME,NAME")
    return tuple(dict.fromkeys(found))
