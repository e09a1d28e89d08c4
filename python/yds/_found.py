"""Where the library and the program are that an answer comes from, and of which version each is."""

from __future__ import annotations

import ctypes
import hashlib
import os
import re
import shutil
import subprocess
from pathlib import Path
from typing import List, Optional

from yds._version import VERSION

SONAME = "libyds.so.1"


def library() -> str:
    """A line about the shared object. It is opened as a call opens it, and asked for its version."""
    named = os.environ.get("YDS_LIBRARY")
    beside = Path(__file__).with_name(SONAME)
    place = named or (str(beside) if beside.exists() else SONAME)
    try:
        opened = ctypes.CDLL(place)
    except OSError as fault:
        if place == SONAME:
            return "library: not found; commands that need an answer run the program"
        return f"library: {place} can't be opened: {fault}; commands that need an answer run the program"
    told = _asked(opened)
    where = place if place != SONAME else _loaded() or place
    if told is None:
        return f"library: {where}, which tells no version, as before 2.0.0{_wrong('')}"
    return f"library: {where}, version {told}{_wrong(told)}"


def _asked(opened: ctypes.CDLL) -> Optional[str]:
    """The version that the library tells."""
    try:
        opened.yds_version.restype = ctypes.c_char_p
        told: bytes = opened.yds_version()
    except AttributeError:
        return None
    return told.decode("ascii", "replace")


def _loaded() -> Optional[str]:
    """The file of the shared object that the loader found."""
    try:
        mapped = Path("/proc/self/maps").read_text(encoding="utf-8", errors="surrogateescape")
    except OSError:
        return None
    found = re.search(r" (/\S*/libyds\.so\S*)", mapped)
    return None if found is None else found.group(1)


def _wrong(version: str) -> str:
    return "" if version == VERSION else f", and the package is {VERSION}: install both of one version"


def program() -> str:
    """A line about the program, which has no word that tells its version."""
    named = os.environ.get("YDS")
    found = shutil.which(named or "yds_cli") or named
    if found is None:
        return "program: yds_cli isn't on the PATH"
    told = _of_debian(found)
    if told is not None:
        return f"program: {found}, version {told} by its Debian package{_wrong(told)}"
    try:
        digest = hashlib.sha256(Path(found).read_bytes()).hexdigest()
    except OSError as fault:
        return f"program: {found} can't be read: {fault.strerror}"
    return f"program: {found}, which tells no version; its SHA-256 is {digest}"


def _of_debian(place: str) -> Optional[str]:
    """The version of the Debian package that the file came with; None where it came with none."""
    query = shutil.which("dpkg-query")
    if query is None:
        return None
    owner = _line([query, "--search", os.path.realpath(place)])
    package = owner.split(":")[0] if owner and ", " not in owner else None
    if package is None:
        return None
    told = _line([query, "--show", "--showformat=${Version}", package])
    return None if told is None else re.sub(r"^[0-9]+:|-[^-]*$", "", told)


def _line(command: "list[str]") -> Optional[str]:
    """The first line that a command writes; None where it fails."""
    try:
        done = subprocess.run(command, stdout=subprocess.PIPE, stderr=subprocess.DEVNULL, check=False, timeout=10)
    except (OSError, subprocess.TimeoutExpired):
        return None
    lines = done.stdout.decode("utf-8", "replace").splitlines()
    return lines[0] if lines and not done.returncode else None


def answering() -> List[str]:
    """A line on what answers, the library or the program: its name and its sum, without the folders of this machine."""
    named = os.environ.get("YDS")
    told = library()
    if not named and "run the program" not in told:
        place, _, rest = told[len("library: ") :].partition(", ")
        return [f"answered by the library {os.path.basename(place)}, {rest}{_sum(place)}"]
    found = shutil.which(named or "yds_cli")
    return [] if found is None else [f"answered by the program {os.path.basename(found)}{_sum(found)}"]


def _sum(place: str) -> str:
    """The file's sum, behind a comma; nothing where there is no such file, as where the loader finds it."""
    if not os.path.isfile(place):
        return ""
    with open(place, "rb") as source:
        return f", SHA-256 {hashlib.sha256(source.read()).hexdigest()}"
