"""The shared object: where it is found, and its one call."""

from __future__ import annotations

import ctypes
import os
import struct
from collections.abc import Sequence as SequenceType
from enum import IntEnum
from functools import lru_cache
from pathlib import Path
from typing import List, NamedTuple, Optional, Sequence, Tuple, Union

SONAME = "libyds.so.1"


class Status(IntEnum):
    """How a call ends: the program's exit statuses. 4 and 5 tell of streams, and there are none here."""

    DONE = 0
    """The text is the command's answer."""
    NO = 1
    """The text is an answer that says no."""
    USAGE = 2
    """The words name no command: the text is the usage line."""
    REFUSED = 3
    """The document is refused: the text is the line that says where and why."""
    MEMORY = 6
    """Lack of memory: there is no text."""
    WORDS = 7
    """A word isn't UTF-8: there is no text."""


class Answer(NamedTuple):
    """What the program would end with and write."""

    status: Status
    text: bytes


class _Word(ctypes.Structure):
    """struct yds_word."""

    _fields_ = [("bytes", ctypes.c_char_p), ("length", ctypes.c_size_t)]


class _Room:
    """Where a text goes, and its length, at addresses that are taken once."""

    __slots__ = ("size", "address", "needed", "needed_address", "_bytes", "_view")

    def __init__(self, size: int) -> None:
        self.size = size
        self._bytes = ctypes.create_string_buffer(size)
        self._view = memoryview(self._bytes)
        self.address = ctypes.addressof(self._bytes)
        self.needed = ctypes.c_size_t()
        self.needed_address = ctypes.addressof(self.needed)

    def text(self) -> bytes:
        """The first bytes, as many as are needed."""
        return self._view[: self.needed.value].tobytes()


class Library:
    """An open shared object, and the two keys of the tables in which it looks up names, drawn once.

    Rooms that no call uses are kept for the next. A call takes one out of the list, so no two calls share one: neither
    those of two threads, nor that of a signal's handler and the one in which the signal came.
    """

    def __init__(self, place: str) -> None:
        self.place = place
        self._call = ctypes.CDLL(place).yds_answer
        self._call.restype = ctypes.c_uint8
        number, length, pointer = ctypes.c_uint64, ctypes.c_size_t, ctypes.c_void_p
        self._call.argtypes = (
            *(pointer, length),
            *(ctypes.c_char_p, length),
            *(number, number),
            *(pointer, length, pointer),
        )
        self._keys = struct.unpack("=2Q", os.urandom(16))
        self._rooms: List[_Room] = []

    def answer(self, words: Sequence[Union[str, bytes]], data: bytes = b"") -> Answer:
        """The answer to the words, from the data. Where the first room is too small, a second has the needed size."""
        if isinstance(words, (str, bytes)) or not isinstance(words, SequenceType):
            raise TypeError(f"the words are a list, a string for each, and not {words!r}")
        if type(data) is not bytes:
            data = as_bytes(data)
        array, place, count = _array_of(_hashable(words))
        size = _first_room(len(data))
        while True:
            room = self._room(size)
            where = room.address, room.size, room.needed_address
            status = self._call(place, count, data, len(data), *self._keys, *where)
            size = room.needed.value
            text = room.text() if size <= room.size else None
            if room.size == _KEPT_ROOM:
                self._rooms.append(room)
            if text is not None:
                return Answer(_STATUSES[status], text)

    def _room(self, size: int) -> _Room:
        """A room of at least this size."""
        if size > _KEPT_ROOM:
            return _Room(size)
        try:
            return self._rooms.pop()
        except IndexError:
            return _Room(_KEPT_ROOM)


_KEPT_ROOM = 1 << 16
"""So many bytes have the rooms that are kept: as many as there were calls at once."""
_STATUSES = {int(status): status for status in Status}


def _hashable(words: Sequence[Union[str, bytes]]) -> Tuple[Union[str, bytes], ...]:
    """The words as a tuple; TypeError where one is none."""
    for word in words:
        if not isinstance(word, (str, bytes)):
            raise TypeError(f"a word of the command line is a string, and not {word!r}")
    return tuple(words)


@lru_cache(maxsize=64)
def _array_of(words: Tuple[Union[str, bytes], ...]) -> Tuple[object, int, int]:
    """The words as the library takes them, where that is, and how many they are. The first has to be kept meanwhile."""
    spelled = [_spelled(word) for word in words]
    array = (_Word * max(len(spelled), 1))(*(_Word(word, len(word)) for word in spelled))
    return array, ctypes.addressof(array), len(spelled)


def _spelled(word: Union[str, bytes]) -> bytes:
    """The bytes of a word of the command line."""
    return word.encode("utf-8", "surrogateescape") if isinstance(word, str) else word


def as_bytes(data: bytes) -> bytes:
    """Bytes of a bytearray or the like, too; a str has to be encoded first."""
    return data if isinstance(data, bytes) else bytes(memoryview(data))


def _first_room(length: int) -> int:
    """A room for most answers to an input of this length: plans have 6 to 8 times its bytes, on points 13 times."""
    return min(4096 + 16 * length, 1 << 22)


def _open() -> Library:
    """The shared object that YDS_LIBRARY names; else the one beside this module, as in a wheel; else the loader's."""
    named: Optional[str] = os.environ.get("YDS_LIBRARY")
    beside = Path(__file__).with_name(SONAME)
    place = named or (str(beside) if beside.exists() else SONAME)
    try:
        return Library(place)
    except (OSError, AttributeError) as fault:
        raise ImportError(
            f"the shared object of yds can't be opened: {fault}. "
            f"Install the wheel or the package libyds1, or let YDS_LIBRARY name the file {SONAME}"
        ) from fault


LIBRARY = _open()


def answer(words: Sequence[Union[str, bytes]], data: bytes = b"") -> Answer:
    """What the program answers to these words of a command line, from this input: its status and its bytes.

    A word is text; one that isn't UTF-8 can be given as bytes. Any number of threads may call at once.

    >>> answer(["plan"], b"job a 0 4 8\\n")
    Answer(status=<Status.DONE: 0>, text=b'job a 0 4 8\\nslot a 0 4 8\\nlevel 8 4\\npiece 0 4\\nmember a\\n')
    >>> answer(["plan"], b"job a 4 4 1\\n")
    Answer(status=<Status.REFUSED: 3>, text=b'refused 1 9 EmptyWindow\\n')
    """
    return LIBRARY.answer(words, data)
