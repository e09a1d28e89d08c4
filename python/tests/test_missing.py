"""Without the program and without the library, as on a processor for which there is none: what only moves text runs,
and what needs an answer says in one line what is missing."""

import os
import shutil
import subprocess
import sys
import tempfile
import unittest
from pathlib import Path
from typing import Dict, List

from called import EXPECTED, ROOT, SAMPLES

START = ROOT / "python" / "yds" / "commands" / "_start.py"


class WithoutProgramAndLibrary(unittest.TestCase):
    folder: Path
    environment: Dict[str, str]

    @classmethod
    def setUpClass(cls) -> None:
        cls.folder = Path(tempfile.mkdtemp())
        cls.environment = {"PATH": str(cls.folder / "nowhere"), "YDS_LIBRARY": str(cls.folder / "libyds.so.1")}
        cls.environment["PYTHONDONTWRITEBYTECODE"] = "1"
        both = (EXPECTED / "points.txt").read_bytes() + (EXPECTED / "document.txt").read_bytes()
        (cls.folder / "governor.txt").write_bytes(both)

    @classmethod
    def tearDownClass(cls) -> None:
        shutil.rmtree(cls.folder)

    def run_(self, *words: str) -> "subprocess.CompletedProcess[bytes]":
        return subprocess.run(
            [sys.executable, str(START), *words],
            cwd=self.folder,
            env=self.environment,
            capture_output=True,
            check=False,
        )

    def test_what_moves_text_runs(self) -> None:
        sample = str(SAMPLES)
        cases: List[List[str]] = [
            ["yds-points", "--domain", "cpu0", f"{sample}/energy-model.txt"],
            ["yds-rtapp", "-m", "1416", "-c", "0", f"{sample}/workload.json"],
            ["yds-join", str(EXPECTED / "points.txt"), str(EXPECTED / "document.txt")],
            ["yds-jobs", "governor.txt"],
            ["yds-energy", "--name", "governor", "governor.txt"],
            ["yds-changes", "governor.txt"],
            ["yds-scale", "--work", "2", f"{sample}/sensor-tasks.txt"],
            ["yds-draw", "--seed", "0", "--jobs", "2"],
            ["yds-parts", "--folder", "parts", "governor.txt"],
            ["yds-answer", str(EXPECTED / "compare-a.txt")],
            ["yds-collect", str(EXPECTED / "compare-a.txt")],
            ["yds-reports", str(EXPECTED / "report-a.json")],
            ["yds-summary", str(EXPECTED / "energies.tsv")],
        ]
        for words in cases:
            with self.subTest(words=words):
                done = self.run_(*words)
                self.assertEqual((done.returncode, done.stderr), (0, b""))
                self.assertTrue(done.stdout or words[0] == "yds-parts")
        points = self.run_(*cases[0])
        self.assertEqual(points.stdout, (EXPECTED / "points.txt").read_bytes())

    def test_what_needs_an_answer_says_what_is_missing(self) -> None:
        said = (
            "this needs an answer, and neither the program yds_cli nor the library is here: install the package "
            "yds-cli or libyds1, or the wheel, or let YDS name the file yds_cli, or YDS_LIBRARY the file libyds.so.1\n"
        )
        cases = (
            (["yds-tasks", str(SAMPLES / "sensor-tasks.txt")], b"failed\n"),
            (["yds-misses", "governor.txt"], b""),
            (["yds-energy", "--most-waste", "40", "governor.txt"], None),
            (["yds-whole", "--bounds", "governor.txt"], None),
        )
        for words, out in cases:
            with self.subTest(words=words):
                done = self.run_(*words)
                self.assertEqual((done.returncode, done.stderr.decode()), (1, f"{words[0]}: {said}"))
                if out is not None:
                    self.assertEqual(done.stdout, out)

    def test_on_another_processor(self) -> None:
        """setarch tells a process that it runs on another processor of the family; a script may ask another machine."""
        setarch = shutil.which("setarch")
        if setarch is None or os.uname().machine != "x86_64":
            self.skipTest("setarch isn't here, or this is no x86_64")
        words = [setarch, "i686", sys.executable, str(START), "yds-misses", "governor.txt"]
        done = subprocess.run(words, cwd=self.folder, env=self.environment, capture_output=True, check=False)
        self.assertEqual(
            (done.returncode, done.stdout, done.stderr.decode()),
            (
                *(1, b""),
                "yds-misses: this needs an answer, and neither the program yds_cli nor the library is here: there are "
                "none for a processor i686, only for x86_64; let YDS name a script that runs yds_cli on such a machine, "
                "with the same words and standard input\n",
            ),
        )
        script = self.folder / "asks"
        script.write_text("#!/bin/sh\necho feasible\n")
        script.chmod(0o755)
        environment = {**self.environment, "YDS": str(script)}
        done = subprocess.run(words, cwd=self.folder, env=environment, capture_output=True, check=False)
        self.assertEqual((done.returncode, done.stdout), (0, b"feasible\n"))

    def test_help_and_version(self) -> None:
        self.assertEqual(self.run_("yds-points", "--help").returncode, 0)
        told = self.run_("yds-points", "--version").stdout.decode().splitlines()
        self.assertEqual(told[-1], "program: yds_cli isn't on the PATH")
        self.assertIn("libyds.so.1 can't be opened", told[-2])

    def test_a_program_of_another_processor(self) -> None:
        other = self.folder / "yds_cli"
        other.write_bytes(b"\x7fELF\x02\x01\x01" + bytes(57))
        other.chmod(0o755)
        environment = {**self.environment, "PATH": str(self.folder)}
        words = [sys.executable, str(START), "yds-misses", "governor.txt"]
        done = subprocess.run(words, cwd=self.folder, env=environment, capture_output=True, check=False)
        self.assertEqual(done.returncode, 1)
        self.assertEqual(done.stderr.decode(), f"yds-misses: the program {other} can't be run: {os.strerror(8)}\n")


if __name__ == "__main__":
    unittest.main()
