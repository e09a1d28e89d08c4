"""The words of the commands: one table for what is read, the help, the completion and the manual page."""

import io
import os
import re
import subprocess
import sys
import tempfile
import unittest
from pathlib import Path
from typing import Tuple
from unittest import mock

from called import ROOT, SAMPLES, call
from yds import _words
from yds._words import Command, Files, Option, WordsError, parse

TABLE = Command(
    "yds-try", "tries words", "Some text.",
    [Option("most", "how many", "N", "-m"), Option("all", "each of them"), Option("from", "since when", "T", before="since")],
    Files("FILE", 1, 2),
)  # fmt: skip
TASKS = SAMPLES / "sensor-tasks.txt"
START = ROOT / "python" / "yds" / "commands" / "_start.py"
MODULES = sorted(path for path in START.parent.glob("[a-z]*.py") if "\nCOMMAND = " in path.read_text(encoding="utf-8"))


def started(*words: object, **named: object) -> "subprocess.CompletedProcess[bytes]":
    environment = {**os.environ, "YDS_LIBRARY": "/nowhere"}
    command = [sys.executable, str(START), *map(str, words)]
    return subprocess.run(command, env=environment, stdout=subprocess.PIPE, stderr=subprocess.PIPE, check=False, **named)  # type: ignore[call-overload,no-any-return]


class ParseTest(unittest.TestCase):
    def test_options_and_files_in_any_order(self) -> None:
        for words in (
            ["a", "--most", "3", "b", "--all"],
            ["--most=3", "--all", "a", "b"],
            ["-m", "3", "a", "--all", "--", "b"],
        ):
            given = parse(TABLE, words)
            self.assertEqual((given.most, given.all, given.files), ("3", True, ["a", "b"]))
        self.assertEqual(parse(TABLE, ["-", "--", "--most"]).files, ["-", "--most"])

    def test_words_that_are_refused(self) -> None:
        for words, told in [
            (["--mos", "3", "a"], "unrecognized arguments: --mos"),
            (["a", "--most"], "argument -m/--most: expected one argument"),
            (["most=3", "a"], "most=3 is no word of this command: write --most 3; a file of this name is ./most=3"),
            (["since=3", "a"], "since=3 is no word of this command: write --from 3; a file of this name is ./since=3"),
            (["all=1", "a"], "all=1 is no word of this command: write --all; a file of this name is ./all=1"),
            (["-v", "most=3"], "-v is no word of this command: write --NAME VALUE in place of -v NAME=VALUE"),
            ([], "no file: yds-try [-m N] [--all] [--from T] FILE .."),
            (["a", "b", "c"], "more than 2 files"),
        ]:
            with self.subTest(words), self.assertRaises(WordsError) as raised:
                parse(TABLE, words)
            self.assertIn(told.replace(" FILE ..", ""), str(raised.exception))
        self.assertEqual(parse(TABLE, ["./most=3"]).files, ["./most=3"])
        self.assertEqual(parse(TABLE, ["--from", "most=3", "a"]).files, ["a"])


class EveryCommandTest(unittest.TestCase):
    """What holds of each command that has a table."""

    def test_help_completion_and_manual_page(self) -> None:
        self.assertGreater(len(MODULES), 1)
        for path in MODULES:
            name = path.stem
            with self.subTest(name):
                shown, listed, page = (call(name, word) for word in ("--help", "--options", "--man"))
                self.assertEqual([shown.status, listed.status, page.status], [0, 0, 0])
                self.assertEqual([shown.err, listed.err, page.err], ["", "", ""])
                for word in listed.out.split():
                    if word not in ("--help", "--version"):
                        self.assertIn(word.rstrip("="), shown.out)
                        self.assertIn(word.rstrip("=").replace("-", "\\-"), page.out)
                self.assertLessEqual(max(map(len, shown.out.split("\n"))), 120)
                self.assertIn(f"yds-{name}", shown.out)
                self.assertEqual(
                    call(name, "--version").out.split("\n")[0], f"yds-{name} {_words.VERSION}, of the package yds"
                )

    def test_words_that_no_command_takes(self) -> None:
        for path in MODULES:
            for words in (["--nothing"], ["--hel"], ["-v", "a=b"]):
                with self.subTest(name=path.stem, words=words):
                    called = call(path.stem, *words)
                    self.assertEqual(called.status, 2)
                    self.assertEqual(called.err.count("\n"), 1)
                    self.assertIn(called.out, ("", "failed\n"))

    def test_main_is_short(self) -> None:
        for path in MODULES:
            body = path.read_text(encoding="utf-8").split("\ndef main(", 1)[1].split("\n\n\n")[0]
            self.assertLessEqual(body.count("\n"), 60, path.stem)


class ProgramsTest(unittest.TestCase):
    """The words of the two programs stand in their sources. Their manual pages and completions are written by hand."""

    def test_words_of_yds_trace(self) -> None:
        source = (ROOT / "crates" / "yds_trace_words" / "src" / "texts.rt").read_text(encoding="utf-8")
        shown = source.split('pub const HELP: &[u8] = b"', 1)[1].split('\n";\n', 1)[0]
        words = set(re.findall(r"^  --([a-z]+)", shown, re.MULTILINE))
        self.assertGreater(len(words), 10)
        synopsis, told = self.page("yds_trace")
        self.assertEqual(set(re.findall(r"Fl -([a-z]+)", synopsis)), words)
        self.assertEqual(set(re.findall(r"Fl -([a-z]+)", told)), words - {"help", "version"})
        offered = self.completion("yds_trace").split('*) words="', 1)[1].split('"', 1)[0]
        self.assertEqual(set(offered.split()), {f"--{word}" for word in words})

    def test_words_of_yds_cli(self) -> None:
        source = (ROOT / "crates" / "yds_answer" / "src" / "refusal.rt").read_text(encoding="utf-8")
        usage = source.split('b"usage: yds_cli ', 1)[1].split("\\n", 1)[0]
        words = set(re.findall(r"\b[a-z]+\b", usage))
        self.assertGreater(len(words), 10)
        for part in self.page("yds_cli"):
            self.assertEqual(set(re.findall(r"\b[a-z]+\b", part)), words)
        text = self.completion("yds_cli")
        offered = text.split('1:*) words="', 1)[1].split('"', 1)[0].split() + re.findall(r"words=--([a-z]+)", text)
        self.assertEqual(set(offered), words)

    def page(self, name: str) -> Tuple[str, str]:
        """The synopsis of a manual page, and the words that its description tells of."""
        page = (ROOT / "docs" / f"{name}.1").read_text(encoding="utf-8")
        synopsis, told = page.split(".Sh SYNOPSIS\n", 1)[1].split(".Sh DESCRIPTION\n", 1)
        lines = told.split("\n.Sh ", 1)[0].split("\n")
        return synopsis, "\n".join(line for line in lines if line.startswith(".It "))

    def completion(self, name: str) -> str:
        return (ROOT / "completions" / f"{name}.bash").read_text(encoding="utf-8")


class EndsTest(unittest.TestCase):
    """How a command ends that is a process of its own, and has no shared object."""

    def test_it_starts_where_there_is_no_shared_object(self) -> None:
        done = started("yds-scale", "--work", "1", TASKS)
        self.assertEqual((done.returncode, done.stderr), (0, b""))
        done = started("yds-nothing")
        self.assertEqual((done.returncode, done.stderr), (2, b"yds-nothing: there is no command of this name\n"))

    def test_no_module_of_answers_or_pictures_is_loaded(self) -> None:
        told = "import sys; sys.path[0] = sys.argv[1]; import yds.commands.scale, yds.commands.summary; print(sorted(sys.modules))"
        done = subprocess.run([sys.executable, "-c", told, str(ROOT / "python")], stdout=subprocess.PIPE, check=True)
        for name in (b"'ctypes'", b"'yds._library'", b"'matplotlib'", b"'yds.document'"):
            self.assertNotIn(name, done.stdout)

    def test_a_closed_output(self) -> None:
        source, target = os.pipe()
        os.close(source)
        with os.fdopen(target, "wb") as closed, tempfile.TemporaryFile() as errors:
            command = [sys.executable, str(START), "yds-scale", "--work", "1", str(TASKS)]
            done = subprocess.run(command, stdout=closed, stderr=errors, check=False)
            errors.seek(0)
            self.assertEqual((done.returncode, errors.read()), (141, b""))

    @unittest.skipUnless(Path("/dev/full").exists(), "there is no full device")
    def test_a_full_disk(self) -> None:
        with open("/dev/full", "wb") as full:
            command = [sys.executable, str(START), "yds-scale", "--work", "1", str(TASKS)]
            done = subprocess.run(command, stdout=full, stderr=subprocess.PIPE, check=False)
        self.assertEqual(done.returncode, 1)
        self.assertEqual(done.stderr, b"yds-scale: the output can't be written: No space left on device\n")

    @unittest.skipUnless(Path("/dev/full").exists(), "there is no full device")
    def test_a_full_disk_is_told_once_where_lines_are_written_as_they_come(self) -> None:
        with open("/dev/full", "wb") as full, tempfile.NamedTemporaryFile() as long:
            long.write(b"job a 0 9 4\n" * 4000)
            long.flush()
            command = [sys.executable, str(START), "yds-join", str(TASKS), long.name]
            done = subprocess.run(command, stdout=full, stderr=subprocess.PIPE, check=False)
        self.assertEqual(done.returncode, 1)
        self.assertEqual(done.stderr, b"yds-join: the output can't be written: No space left on device\n")

    def test_an_interrupt(self) -> None:
        def interrupted(given: object, write: object) -> int:
            raise KeyboardInterrupt

        table = TABLE._replace(writes_document=True, files=Files("FILE"))
        with mock.patch("sys.stdout", io.TextIOWrapper(io.BytesIO())) as out:
            self.assertEqual(_words.run(table, [], interrupted), 130)
            self.assertEqual(out.buffer.getvalue(), b"failed\n")  # type: ignore[attr-defined]

    def test_want_of_memory_and_control_signs(self) -> None:
        def wanting(given: object, write: object) -> int:
            raise MemoryError

        with mock.patch("sys.stderr", io.TextIOWrapper(io.BytesIO())) as err:
            self.assertEqual(_words.run(TABLE, ["a"], wanting), 1)
            self.assertEqual(err.buffer.getvalue(), b"yds-try: there isn't memory enough\n")  # type: ignore[attr-defined]
        self.assertEqual(
            call("scale", "--work", "2", "no\x1b[2Jwhere").err,
            "yds-scale: no?[2Jwhere can't be read: No such file or directory\n",
        )


if __name__ == "__main__":
    unittest.main()
