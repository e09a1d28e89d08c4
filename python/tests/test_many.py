"""One call on many documents: order, faults with their place, processes that end, and what is told on a terminal."""

import io
import os
import signal
import time
import unittest
from concurrent.futures.process import BrokenProcessPool
from typing import Iterator
from unittest import mock

import yds
from yds import _many


def square(number: int) -> int:
    return number * number


def slowly(number: int) -> int:
    time.sleep(0.01 * (number % 3))
    return number


def process(_: int) -> int:
    time.sleep(0.05)
    return os.getpid()


def peak(work: int) -> object:
    return yds.Document([("a", 0, 4, work)]).report().peak


def fails_at_seven(number: int) -> int:
    if number == 7:
        raise ValueError("seven")
    return number


class Own(Exception):
    """It can't be made again from its arguments."""

    def __init__(self, one: str, other: str) -> None:
        super().__init__(one + other)


def fails_in_its_own_way(number: int) -> int:
    raise Own("of", "its own")


def refused(number: int) -> yds.Plan:
    return yds.Document([("a", 4, 4 + number, 1)]).plan()


def is_killed(number: int) -> int:
    os.kill(os.getpid(), signal.SIGKILL)
    return number


class Terminal(io.StringIO):
    def isatty(self) -> bool:
        return True


class Many(unittest.TestCase):
    def test_results_stand_in_the_order_of_the_documents(self) -> None:
        for processes in (1, 2, 4):
            for count in (0, 1, 2, 3, 50):
                self.assertEqual(yds.map(square, range(count), processes), [number * number for number in range(count)])
        self.assertEqual(yds.map(slowly, range(40), processes=3), list(range(40)))
        self.assertEqual(yds.map(square, iter(range(1000)), processes=2), [number * number for number in range(1000)])

    def test_documents_and_answers(self) -> None:
        self.assertEqual(yds.map(peak, [2, 8], processes=2), [peak(2), 2])
        plans = yds.map(yds.Document.plan, [yds.Document([("a", 0, 4, work)]) for work in (2, 8)], processes=2)
        self.assertEqual([plan.peak for plan in plans], [peak(2), 2])

    def test_processes_are_others(self) -> None:
        self.assertEqual(set(yds.map(process, range(3), processes=1)), {os.getpid()})
        found = set(yds.map(process, range(12), processes=2))
        self.assertEqual(len(found), 2)
        self.assertNotIn(os.getpid(), found)
        self.assertGreaterEqual(len(yds.map(square, range(4))), 4)

    def test_documents_are_taken_as_they_are_needed(self) -> None:
        taken = []

        def numbers() -> Iterator[int]:
            for number in range(10**9):
                taken.append(number)
                yield number

        for processes in (1, 2):
            with self.assertRaises(ValueError):
                yds.map(fails_at_seven, numbers(), processes=processes)
            self.assertLess(len(taken), 5000)

    def test_a_fault_comes_out_with_its_place(self) -> None:
        for processes in (1, 2):
            with self.assertRaisesRegex(ValueError, "^seven$") as raised:
                yds.map(fails_at_seven, range(20), processes=processes)
            notes = getattr(raised.exception, "__notes__", ["yds.map: in documents[7]"])
            self.assertEqual(notes, ["yds.map: in documents[7]"])
        with self.assertRaises(yds.Refused) as fault:
            yds.map(refused, [1, 0], processes=2)
        self.assertEqual(
            (fault.exception.reason, fault.exception.table, fault.exception.index), ("EmptyWindow", "jobs", 0)
        )
        with self.assertRaisesRegex(RuntimeError, "^Own: ofits own$"):
            yds.map(fails_in_its_own_way, [1], processes=2)

    def test_what_cant_be_handed_over(self) -> None:
        with self.assertRaisesRegex(TypeError, "can't be handed to other processes.*define it by `def`"):
            yds.map(lambda number: number, [1], processes=2)
        self.assertEqual(yds.map(lambda number: number, [1], processes=1), [1])
        for processes in (0, -1, 1.5, True):
            with self.assertRaises((TypeError, ValueError)):
                yds.map(square, [1], processes=processes)  # type: ignore[arg-type]

    def test_a_process_that_is_ended(self) -> None:
        with self.assertRaisesRegex(BrokenProcessPool, "a process was ended by others"):
            yds.map(is_killed, range(3), processes=2)


class Progress(unittest.TestCase):
    def told(self, stream: io.StringIO, quiet: float, processes: int, documents: object) -> str:
        with mock.patch("sys.stderr", stream), mock.patch.object(_many, "_QUIET_SECONDS", quiet):
            yds.map(process, documents, processes=processes)  # type: ignore[arg-type]
        return stream.getvalue()

    def test_a_line_on_a_terminal_that_is_gone_at_the_end(self) -> None:
        for processes in (1, 2):
            told = self.told(Terminal(), 0.0, processes, range(24))
            self.assertRegex(told, r"^\r\x1b\[Kyds\.map: \d+ of 24 done, \d+ s.*\r\x1b\[K$")
        self.assertRegex(self.told(Terminal(), 0.0, 1, iter(range(12))), r"^\r\x1b\[Kyds\.map: \d+ done, \d+ s")

    def test_nothing_elsewhere_and_nothing_at_first(self) -> None:
        self.assertEqual(self.told(io.StringIO(), 0.0, 1, range(8)), "")
        self.assertEqual(self.told(Terminal(), 60.0, 2, range(8)), "")


if __name__ == "__main__":
    unittest.main()
