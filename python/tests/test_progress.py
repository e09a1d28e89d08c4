"""What a command tells on a terminal while it runs, and which versions it finds."""

import io
import os
import pty
import select
import subprocess
import sys
import tempfile
import time
import unittest
from pathlib import Path
from typing import Dict, List, Optional, Sequence
from unittest import mock

from called import ROOT, call
from yds import _found, _progress
from yds._progress import Progress
from yds._version import VERSION

START = ROOT / "python" / "yds" / "commands" / "_start.py"


class Terminal(io.StringIO):
    def isatty(self) -> bool:
        return True


class ProgressTest(unittest.TestCase):
    def told(
        self,
        files: Sequence[str],
        seconds: float,
        out: Optional[io.StringIO] = None,
        streams: bool = False,
        told: bool = True,
    ) -> str:
        """What a terminal is told, of a patience of a fiftieth of a second."""
        terminal = Terminal()
        with mock.patch.object(_progress, "PATIENCE", 0.02), mock.patch.object(_progress, "EACH", 0.02), mock.patch(
            "sys.stderr", terminal
        ), mock.patch("sys.stdout", out or io.StringIO()):
            with Progress("yds-try", files, streams):
                until = time.monotonic() + (60 if seconds and told else seconds)
                while time.monotonic() < until and not terminal.getvalue():
                    time.sleep(0.01)
        return terminal.getvalue()

    def test_it_is_told_and_gone(self) -> None:
        told = self.told([], 0.1)
        self.assertTrue(told.startswith("\r\x1b[Kyds-try: "), told)
        self.assertTrue(told.endswith("\r\x1b[K"))

    def test_what_is_quick_says_nothing(self) -> None:
        self.assertEqual(self.told([], 0), "")

    def test_what_is_told_meanwhile_has_a_line_of_its_own(self) -> None:
        terminal = Terminal()
        with mock.patch.object(_progress, "PATIENCE", 0.01), mock.patch("sys.stderr", terminal):
            with Progress("yds-try", [], False):
                while not terminal.getvalue():
                    time.sleep(0.01)
                _progress.beside("yds-try: a word\n")
        self.assertIn(" s\r\x1b[Kyds-try: a word\n", terminal.getvalue())

    def test_no_terminal_is_told_nothing(self) -> None:
        with mock.patch.object(_progress, "PATIENCE", 0), mock.patch("sys.stderr", io.StringIO()) as told:
            with Progress("yds-try", [], False):
                time.sleep(0.05)
        self.assertEqual(told.getvalue(), "")

    def test_lines_on_a_terminal_stay_whole(self) -> None:
        self.assertEqual(self.told([], 0.1, Terminal(), streams=True, told=False), "")
        self.assertNotEqual(self.told([], 0.1, Terminal(), streams=False), "")

    def test_how_much_is_read(self) -> None:
        with tempfile.TemporaryDirectory() as folder:
            files = [Path(folder, name) for name in ("first", "second")]
            for file in files:
                file.write_bytes(b"x" * 4_000_000)
            with open(files[1], "rb") as source:
                source.read(2_000_000)
                told = self.told(list(map(str, files)), 0.1)
        self.assertIn(" s, 2 of 4 MB read, file 2 of 2", told)

    def test_a_command_on_a_terminal(self) -> None:
        """A pipe that gives its lines late: a line is on the terminal meanwhile, and gone before what is written."""
        leader, follower = pty.openpty()
        with subprocess.Popen(
            [sys.executable, str(START), "yds-jobs"], stdin=subprocess.PIPE, stdout=subprocess.PIPE, stderr=follower
        ) as command:
            self.assertTrue(select.select([leader], [], [], 60)[0])
            out, _ = command.communicate(b"job a 0 9 4\nslot a 0 4 4\n")
        told = os.read(leader, 10000).decode()
        os.close(follower)
        os.close(leader)
        self.assertEqual((command.returncode, out.splitlines()[1].split()[0]), (0, b"a"))
        self.assertRegex(told, r"^(\r\x1b\[Kyds-jobs: [0-9]+ s)+\r\x1b\[K$")


class VersionTest(unittest.TestCase):
    def lines(self, environment: Dict[str, str]) -> List[str]:
        clean = {name: value for name, value in os.environ.items() if name not in ("YDS", "YDS_LIBRARY")}
        with mock.patch.dict(os.environ, {**clean, **environment}, clear=True):
            return call("jobs", "--version").out.splitlines()

    def test_the_package_first(self) -> None:
        self.assertEqual(self.lines({})[0], f"yds-jobs {VERSION}, of the package yds")

    def test_a_library_that_is_none(self) -> None:
        self.assertIn("library: /nowhere can't be opened: ", self.lines({"YDS_LIBRARY": "/nowhere"})[1])

    def test_libraries_of_other_versions(self) -> None:
        for told, wanted in [
            (VERSION.encode(), f"library: it, version {VERSION}"),
            (b"1.9.0", f"library: it, version 1.9.0, and the package is {VERSION}: install both of one version"),
        ]:
            opened = mock.Mock()
            opened.yds_version.return_value = told
            with mock.patch("ctypes.CDLL", lambda place, opened=opened: opened):
                self.assertEqual(self.lines({"YDS_LIBRARY": "it"})[1], wanted)
        with mock.patch("ctypes.CDLL", lambda place: object()):
            told = self.lines({"YDS_LIBRARY": "it"})[1]
        self.assertEqual(
            told,
            f"library: it, which tells no version, as before 2.0.0, and the package is {VERSION}: install both of one version",
        )

    def test_programs(self) -> None:
        with tempfile.NamedTemporaryFile() as file:
            file.write(b"a program")
            file.flush()
            told = self.lines({"YDS": file.name})[2]
            self.assertRegex(told, rf"^program: {file.name}, which tells no version; its SHA-256 is [0-9a-f]{{64}}$")
        self.assertEqual(
            self.lines({"YDS": "/no/where"})[2], "program: /no/where can't be read: No such file or directory"
        )
        answers = {"--search": "yds-cli: /usr/bin/yds_cli", "--show": "1:1.9.0-2"}
        with mock.patch.object(_found, "_line", lambda command: answers[command[1]]), mock.patch(
            "shutil.which", lambda name: f"/usr/bin/{name}"
        ):
            told = self.lines({})[2]
        wanted = f"version 1.9.0 by its Debian package, and the package is {VERSION}: install both of one version"
        self.assertEqual(told, f"program: /usr/bin/yds_cli, {wanted}")


if __name__ == "__main__":
    unittest.main()
