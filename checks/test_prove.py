"""test_prove.py: tries what `make` tells while it proves, with a stand-in for `rt` and with times worked by hand.

    python3 checks/test_prove.py

The last line is 'N passed, M failed'.
"""

import contextlib
import io
import os
import sys
import tempfile
import unittest
from pathlib import Path
from typing import List, Tuple
from unittest import mock

ROOT = Path(__file__).resolve().parent.parent
sys.path.insert(0, str(ROOT / "packaging"))

import prove  # noqa: E402

CRATES = """\
# The program's crates.
low: thiserror
left: low
right: low indexmap
top: left right
library staticlib: top
"""

EXPECTED = {"low": 10.0, "left": 20.0, "right": 40.0, "top": 30.0}


def progress() -> prove.Progress:
    return prove.Progress(prove.read_graph(CRATES), {"low", "left", "right", "top"}, EXPECTED)


class Graphs(unittest.TestCase):
    """What crates.txt says."""

    def test_libraries_of_the_kit_are_left_out(self) -> None:
        self.assertEqual(
            prove.read_graph(CRATES),
            {"low": [], "left": ["low"], "right": ["low"], "top": ["left", "right"], "library": ["top"]},
        )

    def test_all_below(self) -> None:
        self.assertEqual(prove.all_below(prove.read_graph(CRATES), "top"), {"low", "left", "right", "top"})


class Left(unittest.TestCase):
    """How long the others take."""

    def test_at_first_the_longest_chain(self) -> None:
        # 10 + 40 + 30
        self.assertEqual(progress().left(0), 80)

    def test_in_the_middle_of_a_crate(self) -> None:
        told = progress()
        told.end("low", 10)
        self.assertEqual(told.left(25), 55)

    def test_half_as_fast_as_the_last_time(self) -> None:
        told = progress()
        told.end("low", 20)
        # 2 * (40 + 30)
        self.assertEqual((told.pace(), told.left(20)), (2, 140))

    def test_what_was_proved_before_tells_no_pace(self) -> None:
        told = progress()
        for crate in ("low", "left"):
            told.end(crate, 0.5)
        self.assertEqual((told.pace(), told.left(0.5)), (1, 70))
        self.assertEqual(told.took(), {})

    def test_a_crate_that_takes_too_long_takes_a_while_yet(self) -> None:
        told = progress()
        for crate, ended in (("low", 10), ("left", 30), ("right", 50)):
            told.end(crate, ended)
        self.assertEqual(told.left(100), 3)

    def test_a_crate_of_which_nothing_is_known_takes_as_long_as_the_others(self) -> None:
        told = prove.Progress({"a": [], "b": ["a"]}, {"a", "b"}, {"a": 12})
        self.assertEqual(told.left(0), 24)

    def test_what_each_took(self) -> None:
        told = progress()
        for crate, ended in (("low", 8), ("right", 40), ("left", 41), ("top", 71)):
            told.end(crate, ended)
        self.assertEqual(told.took(), {"low": 8, "right": 32, "left": 33, "top": 30})
        self.assertEqual(told.left(71), 0)

    def test_a_second_run_as_the_first_is_told_exactly(self) -> None:
        first = progress()
        ends = (("low", 13.0), ("left", 21.0), ("right", 60.0), ("top", 75.0))
        for crate, ended in ends:
            first.end(crate, ended)
        second = prove.Progress(prove.read_graph(CRATES), set(EXPECTED), first.took())
        self.assertEqual(second.left(0), 75)
        for crate, ended in ends:
            second.end(crate, ended)
            self.assertEqual(second.left(ended), 75 - ended)

    def test_what_the_last_run_has_not_goes_by_its_share(self) -> None:
        self.assertEqual(
            prove.expected_of({"low": 30.0, "left": 30.0}, {"low": 10.0, "left": 20.0, "top": 7.0}),
            {"low": 30, "left": 30, "top": 14},
        )

    def test_in_words(self) -> None:
        said = [prove.in_words(seconds) for seconds in (0, 44, 89, 90, 1800)]
        self.assertEqual(said[:3], ["about 10 seconds", "about 40 seconds", "about 90 seconds"])
        self.assertEqual(said[3:], ["about 2 minutes", "about 30 minutes"])


class SharedSeconds(unittest.TestCase):
    """The list by which a first run tells how long it takes."""

    def test_it_has_each_crate_and_no_other(self) -> None:
        crates = prove.read_graph((ROOT / "crates.txt").read_text(encoding="utf-8"))
        self.assertEqual(set(prove.read_seconds(prove.SHARED)), set(crates))


class Runs(unittest.TestCase):
    """What is told of a stand-in for `rt`."""

    def setUp(self) -> None:
        folder = tempfile.TemporaryDirectory()
        self.addCleanup(folder.cleanup)
        self.root = Path(folder.name)
        for name in ("bin", "packaging", "crates/base", "crates/yds_run", "crates/yds_cli"):
            (self.root / name).mkdir(parents=True)
        graph = "base: std\nyds_run: base\nyds_cli: yds_run\nyds_other: base\n"
        (self.root / "crates.txt").write_text(graph)
        (self.root / "document").write_text("job a 0 4 8\n")

    def run_with(self, script: str, *words: str) -> Tuple[List[str], int]:
        """The lines on standard output, and the status."""
        rt = self.root / "bin" / "rt"
        rt.write_text(f"#!/bin/sh\n{script}\n")
        rt.chmod(0o755)
        build = self.root / "build"
        said = io.StringIO()
        places = {"ROOT": self.root, "BUILD": build, "LOG": build / "log", "KEPT": build / "crate-seconds"}
        with mock.patch.multiple(prove, **places, SHARED=self.root / "packaging" / "crate-seconds"), \
                mock.patch.dict(os.environ, PATH=f"{self.root}/bin:/usr/bin:/bin"), \
                contextlib.redirect_stdout(said), contextlib.redirect_stderr(io.StringIO()):
            status = prove.main(words)
        return said.getvalue().splitlines(), status

    def test_each_crate_is_told_once(self) -> None:
        lines, status = self.run_with(
            "case $1 in all) echo == base; echo == yds_run; echo == yds_cli; echo == summary ;; esac", "program"
        )
        self.assertEqual([line.split(",")[0] for line in lines[:4]],
                         ["0 of 3", "base: 1 of 3", "yds_run: 2 of 3", "yds_cli: 3 of 3"])
        self.assertEqual((lines[4][:14], len(lines), status), ("Proved program", 5, 0))

    def test_a_failure_ends_it(self) -> None:
        lines, status = self.run_with("case $1 in all) echo == yds_run; exit 3 ;; esac", "program")
        self.assertEqual(([line.split(",")[0] for line in lines][-1], status), ("yds_run: 2 of 3", 1))
        self.assertFalse((self.root / "build" / "crate-seconds").exists())

    def test_the_unproved_answer_comes_first_and_says_so(self) -> None:
        lines, status = self.run_with("test $1 = try && cat", "program", "--example", "document")
        self.assertEqual(lines[0], "Before any proof, the program as its sources have it, yds_cli plan < document:")
        self.assertEqual(lines[1], "job a 0 4 8")
        self.assertTrue(lines[2].startswith("That was unproved."))
        self.assertTrue(lines[3].startswith("0 of 3, about "))

    def test_what_can_not_be_tried_is_no_answer(self) -> None:
        lines, _ = self.run_with("echo job; test $1 != try", "program", "--example", "document")
        self.assertEqual(lines[1], "It could not be run unproved, as build/try.log says.")

    def test_the_list_of_first_runs_is_written_once_all_crates_were_proved(self) -> None:
        shared = self.root / "packaging" / "crate-seconds"
        self.assertEqual(self.run_with(":", "record"), ([], 1))
        self.assertFalse(shared.exists())
        (self.root / "build" / "crate-seconds").write_text("base 1.0\nyds_run 2.4\nyds_cli 3.6\nyds_other 4.0\nyds_gone 5.0\n")
        self.assertEqual(self.run_with(":", "record"), ([], 0))
        wanted = {"base": 1, "yds_run": 2, "yds_cli": 4, "yds_other": 4}
        self.assertEqual(prove.read_seconds(shared), wanted)

    def test_the_others(self) -> None:
        lines, _ = self.run_with("echo == base; echo == yds_other", "others")
        self.assertEqual(lines[1].split(",")[0], "yds_other: 1 of 1")


if __name__ == "__main__":
    loaded = unittest.defaultTestLoader.loadTestsFromModule(sys.modules["__main__"])
    result = unittest.TextTestRunner(stream=sys.stdout).run(loaded)
    bad = len(result.failures) + len(result.errors)
    print(f"{result.testsRun - bad} passed, {bad} failed")
    sys.exit(bad > 0)
