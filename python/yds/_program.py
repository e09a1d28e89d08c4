"""Answers of the program itself, where the environment's YDS names it; elsewhere those of the library."""

from __future__ import annotations

import os
import shutil
import subprocess
from typing import Callable, Sequence, Tuple

Answer = Callable[[Sequence[str], bytes], Tuple[int, bytes]]
"""Words and a document in; a status of the program and its answer out."""


def of_program(place: str) -> Answer:
    """The answers of the program at this place."""

    def answer(words: Sequence[str], document: bytes) -> Tuple[int, bytes]:
        try:
            done = subprocess.run([place, *words], input=document, stdout=subprocess.PIPE, check=False)
        except OSError as fault:
            raise ValueError(f"the program {place} can't be run: {fault.strerror}") from None
        return done.returncode, done.stdout

    return answer


def of_library() -> Answer:
    """The answers of the library."""
    from yds._library import answer

    return answer


def of_environment() -> Answer:
    """Those of the program that YDS names, else of the library, else of the program yds_cli on the PATH."""
    place = os.environ.get("YDS")
    if place:
        return of_program(place)
    try:
        return of_library()
    except ImportError:
        found = shutil.which("yds_cli")
        if found is None:
            raise ImportError(missing(os.uname().machine)) from None
        return of_program(found)


def missing(machine: str) -> str:
    """What is told where nothing answers, on a processor of this name. What only moves text works without either."""
    told = "this needs an answer, and neither the program yds_cli nor the library is here: "
    if machine != "x86_64":
        told += f"there are none for a processor {machine}, only for x86_64; let YDS name a script that runs yds_cli on "
        return told + "such a machine, with the same words and standard input"
    told += "install the package yds-cli or libyds1, or the wheel, or let YDS name the file yds_cli, or YDS_LIBRARY "
    return told + "the file libyds.so.1"
