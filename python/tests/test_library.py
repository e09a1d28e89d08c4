"""The shared object: how it is found, rooms that are too small, words and inputs of all kinds, threads."""

import os
import subprocess
import sys
import threading
import unittest
from contextlib import contextmanager
from typing import Dict, Iterator, List
from unittest import mock

import yds
from stored import ROOT, rows
from yds import _library

JOB = b"job a 0 4 8\n"
PLAN = b"job a 0 4 8\nslot a 0 4 8\nlevel 8 4\npiece 0 4\nmember a\n"


@contextmanager
def first_room(size: int) -> Iterator[None]:
    """The first room has this size, and none is kept."""
    with mock.patch.object(_library, "_first_room", return_value=size), mock.patch.object(_library, "_KEPT_ROOM", 0):
        yield


class Finding(unittest.TestCase):
    def test_a_clear_sentence_where_it_is_not_found(self) -> None:
        environment = {**os.environ, "YDS_LIBRARY": "/nowhere/libyds.so.1"}
        ran = subprocess.run([sys.executable, "-c", "import yds; yds.answer"], env=environment, capture_output=True)
        last = ran.stderr.decode().splitlines()[-1]
        self.assertRegex(last, "^ImportError: the shared object of yds can't be opened: /nowhere.*YDS_LIBRARY")

    def test_another_library(self) -> None:
        with mock.patch.dict(os.environ, YDS_LIBRARY="libc.so.6"), self.assertRaisesRegex(ImportError, "yds_answer"):
            _library._open()

    def test_keys_are_drawn(self) -> None:
        keys = {_library._open()._keys for _ in range(9)}
        self.assertEqual(len(keys), 9)
        self.assertTrue(all(0 <= key < 1 << 64 for pair in keys for key in pair))


class Version(unittest.TestCase):
    def test_the_package_has_the_version_of_the_library(self) -> None:
        self.assertEqual(yds.__version__, (ROOT / "VERSION").read_text().strip())


class Calling(unittest.TestCase):
    def test_rooms(self) -> None:
        """The first room may have any size: the answer is the same, after a second call where it was too small."""
        for size in (1, len(PLAN) - 1, len(PLAN), len(PLAN) + 1):
            with self.subTest(size), first_room(size):
                self.assertEqual(yds.answer(["plan"], JOB), (yds.Status.DONE, PLAN))

    def test_a_second_call_only_where_it_is_wanted(self) -> None:
        library = _library.LIBRARY
        for size, calls in ((1, 2), (len(PLAN) - 1, 2), (len(PLAN), 1)):
            with mock.patch.object(library, "_call", wraps=library._call) as call, first_room(size):
                yds.answer(["plan"], JOB)
                self.assertEqual(call.call_count, calls)

    def test_a_call_within_a_call_has_a_room_of_its_own(self) -> None:
        """As by a signal's handler, that comes between the library's return and the reading of the text."""
        library = _library.LIBRARY
        calling = library._call

        def interrupted(*given: object) -> int:
            status: int = calling(*given)
            with mock.patch.object(library, "_call", calling):
                self.assertEqual(yds.answer(["plan"], b"job b 1 2 3\n").text.split()[1], b"b")
            return status

        yds.answer(["plan"], JOB)
        with mock.patch.object(library, "_call", interrupted):
            self.assertEqual(yds.answer(["plan"], JOB), (yds.Status.DONE, PLAN))

    def test_rooms_are_kept_and_no_more_than_calls_at_once(self) -> None:
        library = _library.Library(str(_library.LIBRARY.place))
        for _ in range(3):
            library.answer(["plan"], JOB)
        self.assertEqual(len(library._rooms), 1)
        library.answer(["plan"], b"".join(b"job j%d 0 9 1\n" % number for number in range(4000)))
        self.assertEqual([room.size for room in library._rooms], [_library._KEPT_ROOM])

    def test_want_of_memory(self) -> None:
        nothing = yds.Answer(yds.Status.MEMORY, b"")
        with mock.patch("yds.document.answer", return_value=nothing), self.assertRaises(yds.OutOfMemory) as raised:
            yds.Document().plan()
        self.assertIsInstance(raised.exception, MemoryError)
        self.assertRegex(str(raised.exception), "couldn't take the memory")

    def test_answers_longer_than_the_first_room(self) -> None:
        jobs = [(f"j{i}", i, 2000 - i, 1) for i in range(1000)]
        plan = yds.Document(jobs).plan()
        self.assertTrue(plan.check())
        self.assertEqual(len(plan.jobs), 1000)

    def test_words(self) -> None:
        self.assertEqual(yds.answer([b"plan"], JOB), (yds.Status.DONE, PLAN))
        self.assertEqual(yds.answer([b"\xff"], JOB), (yds.Status.WORDS, b""))
        self.assertEqual(yds.answer(["\udcff"], JOB), (yds.Status.WORDS, b""))
        for words in ([], [""], ["plan", ""], ["pl\0an"], ["plan\0"], ["é"], ["plan"] * 1000, ["p" * 100000]):
            answered = yds.answer(words, JOB)
            self.assertEqual(answered.status, yds.Status.USAGE)
            self.assertTrue(answered.text.startswith(b"usage: yds_cli plan | "))

    def test_inputs(self) -> None:
        self.assertEqual(yds.answer(["plan"]), (yds.Status.DONE, b""))
        self.assertEqual(yds.answer(["plan"], b"\0"), (yds.Status.REFUSED, b"refused 1 1 UnknownKind\n"))
        self.assertEqual(yds.answer(["plan"], bytearray(JOB)), (yds.Status.DONE, PLAN))
        for data in ("job a 0 4 8\n", None, 5):
            with self.assertRaises(TypeError):
                yds.answer(["plan"], data)  # type: ignore[arg-type]
            if data != "job a 0 4 8\n":
                with self.assertRaises(TypeError):
                    yds.Document.from_text(data)  # type: ignore[arg-type]
        with self.assertRaises(TypeError):
            yds.answer("plan", JOB)

    def test_words_are_a_list_of_strings(self) -> None:
        for words in ({"avr", "--grid", "1"}, {"plan": 1}, (word for word in ["plan"]), b"plan", None):
            with self.assertRaisesRegex(TypeError, "the words are a list, a string for each"):
                yds.answer(words, JOB)  # type: ignore[arg-type]
        for words in ([1], ["avr", "--grid", 1], [None]):
            with self.assertRaisesRegex(TypeError, "a word of the command line is a string, and not"):
                yds.answer(words, JOB)  # type: ignore[arg-type]
        self.assertEqual(yds.answer(("plan",), JOB), (yds.Status.DONE, PLAN))

    def test_status_is_a_number(self) -> None:
        status, text = yds.answer(["audit"], JOB)
        self.assertEqual((int(status), status, text), (1, yds.Status.NO, b"work a given 0 wanted 8\n"))


class Threads(unittest.TestCase):
    def test_two_threads_have_the_answers_of_one(self) -> None:
        stored = list(rows())
        got: Dict[int, List[yds.Answer]] = {}

        def work(thread: int) -> None:
            turns = stored if thread == 0 else stored[::-1]
            got[thread] = [yds.answer(row.words, row.document) for _ in range(5) for row in turns]

        threads = [threading.Thread(target=work, args=(number,)) for number in range(2)]
        for thread in threads:
            thread.start()
        for thread in threads:
            thread.join()
        wanted = [row.wanted for row in stored]
        self.assertEqual(got, {0: wanted * 5, 1: wanted[::-1] * 5})


if __name__ == "__main__":
    unittest.main()
