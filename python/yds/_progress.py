"""How far a command is, on a terminal, where it takes more than two seconds."""

from __future__ import annotations

import os
import sys
import threading
import time
from types import TracebackType
from typing import List, Optional, Sequence, Tuple, Type

PATIENCE = 2.0
"""So many seconds pass before anything is told."""
EACH = 0.5
"""Seconds from one look to the next."""
_CLEAR = "\r\x1b[K"
_SHOWN = threading.Event()
"""Whether a line is on the terminal now."""
_TURN = threading.Lock()
_OPEN = "/proc/self/fd"


class Progress:
    """Tells on standard error, while the block runs, how long it has run and how much of the files is read.

    Only a terminal is told, and not where lines are written to a terminal meanwhile. A thread of its own looks at where
    the open files stand, so what reads them needs to know nothing of it. At the end the line is gone.
    """

    def __init__(self, name: str, files: Sequence[str], is_streaming: bool) -> None:
        self._name, self._files = name, [file for file in files if file != "-"]
        self._is_on = _is_terminal(sys.stderr) and not (is_streaming and _is_terminal(sys.stdout))
        self._over = threading.Event()
        self._thread: Optional[threading.Thread] = None
        self._began = time.monotonic()

    def __enter__(self) -> "Progress":
        if self._is_on:
            self._thread = threading.Thread(target=self._tell, daemon=True)
            self._thread.start()
        return self

    def __exit__(
        self, kind: Optional[Type[BaseException]], fault: Optional[BaseException], trace: Optional[TracebackType]
    ) -> None:
        self._over.set()
        if self._thread is not None:
            self._thread.join()
        beside("")

    def _tell(self) -> None:
        wait = PATIENCE
        while not self._over.wait(wait):
            with _TURN:
                _SHOWN.set()
                _write(_CLEAR + self.line())
            wait = EACH

    def line(self) -> str:
        """What is told now."""
        told = f"{self._name}: {time.monotonic() - self._began:.0f} s"
        place, size = _position(self._files)
        if size:
            told += f", {place / 1e6:.0f} of {size / 1e6:.0f} MB read"
        if len(self._files) > 1:
            number = _number_of(self._files)
            told += f", file {number} of {len(self._files)}" if number else ""
        return told


def beside(text: str) -> None:
    """Writes a text on standard error, in place of the line that is told there now."""
    with _TURN:
        if _SHOWN.is_set():
            _SHOWN.clear()
            _write(_CLEAR)
        sys.stderr.write(text)


def _is_terminal(stream: object) -> bool:
    try:
        return bool(stream.isatty())  # type: ignore[attr-defined]
    except (AttributeError, ValueError):
        return False


def _write(text: str) -> None:
    """Writes to the terminal; one that is gone is no fault."""
    try:
        sys.stderr.write(text)
        sys.stderr.flush()
    except (OSError, ValueError):
        pass


def _opened(files: Sequence[str]) -> List[Tuple[int, str]]:
    """The descriptors of standard input and of these files that are open now, each with its file."""
    wanted = {os.path.realpath(file) for file in files}
    found = []
    try:
        for name in os.listdir(_OPEN):
            target = os.readlink(os.path.join(_OPEN, name))
            if target in wanted or name == "0":
                found.append((int(name), target))
    except OSError:
        pass
    return found


def _position(files: Sequence[str]) -> Tuple[int, int]:
    """How many bytes are read of the file that is open, and how many it has; 0 where that isn't known, as of a pipe."""
    for number, _ in sorted(_opened(files), reverse=True):
        try:
            size = os.fstat(number).st_size
            with open(f"/proc/self/fdinfo/{number}", encoding="ascii") as told:
                place = int(told.readline().split()[1])
        except (OSError, ValueError, IndexError):
            continue
        if 0 < place <= size:
            return place, size
    return 0, 0


def _number_of(files: Sequence[str]) -> int:
    """Which of the files is open, from 1; 0 where none is."""
    targets = {target for _, target in _opened(files)}
    return next((number for number, file in enumerate(files, 1) if os.path.realpath(file) in targets), 0)
