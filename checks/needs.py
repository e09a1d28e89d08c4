"""needs.py: what the gate runs, and which package has what isn't there.

    python3 checks/needs.py      names what isn't there, and ends with 1 if anything is

Names of packages are Debian's.
"""

import os
import subprocess
import sys
from collections.abc import Callable
from shutil import which
from typing import NamedTuple

PYTHON = (3, 10)
"""The oldest Python that the checks run on."""

DISK = 15
"""Gigabytes that a gate takes where nothing is kept: what is proved, and what is kept of it."""


class Need(NamedTuple):
    """Something that is run, who has it, and whether it's there."""

    name: str
    package: str
    is_there: Callable[[], bool]


def command(name: str, package: str) -> Need:
    """A command on the PATH."""
    return Need(f"the command '{name}'", package, lambda: which(name) is not None)


def finds(compiler: str, file: str) -> bool:
    """Whether a compiler, if it's there, finds this file of the C library: it tells the whole path of what it finds."""
    if which(compiler) is None:
        return True
    told = subprocess.run([compiler, f"-print-file-name={file}"], stdout=subprocess.PIPE, check=False)
    return os.path.isabs(told.stdout.decode().strip())


def needs() -> list[Need]:
    """All that the gate needs. CC and CXX name other compilers."""
    c, cpp = os.environ.get("CC") or "gcc", os.environ.get("CXX") or "g++"
    tools = {"make": "make", "bash": "bash", "awk": "mawk", "diff": "diffutils", "cmp": "diffutils", "xargs": "findutils"}
    tools.update(dict.fromkeys(("ld", "ar", "objcopy", "nm", "readelf"), "binutils"))
    return [
        Need("the command 'rt' of the Rattle toolchain", "the kit that README.md names", lambda: which("rt") is not None),
        Need(f"Python {PYTHON[0]}.{PYTHON[1]} or later", "python3", lambda: sys.version_info >= PYTHON),
        command(c, "gcc"),
        Need("the C library's files for a compiler", "libc6-dev", lambda: finds(c, "crt1.o")),
        command(cpp, "g++"),
        *(command(name, package) for name, package in tools.items()),
    ]


def lacking() -> list[str]:
    """What isn't there, a line each."""
    return [
        f"{need.name} isn't here: {'on Debian: apt-get install ' if ' ' not in need.package else ''}{need.package}"
        for need in needs()
        if not need.is_there()
    ]


def free_disk(folder: str) -> float:
    """How many gigabytes are free where a folder is."""
    found = os.statvfs(folder)
    return found.f_bavail * found.f_frsize / 1e9


if __name__ == "__main__":
    told = lacking()
    for line in told:
        print(line)
    sys.exit(int(bool(told)))
