"""The commands yds-parts and yds-whole: words, statuses, files, and what a fault leaves behind."""

import os
import subprocess
import sys
import tempfile
import unittest
from pathlib import Path
from typing import Tuple

from in_parts import SHORT, program

ENVIRONMENT = {**os.environ, "PYTHONPATH": os.pathsep.join(path for path in sys.path if path)}
ENVIRONMENT.pop("YDS", None)


def command(name: str, *words: object, given: bytes = b"", closed: bool = False) -> Tuple[int, bytes, str]:
    """Status, output and error of a command."""
    with subprocess.Popen(
        [sys.executable, "-m", f"yds.commands.{name}", *map(str, words)],
        env=ENVIRONMENT, stdin=subprocess.PIPE, stdout=subprocess.PIPE, stderr=subprocess.PIPE,
    ) as started:  # fmt: skip
        if closed:
            assert started.stdout is not None
            started.stdout.close()
        out, err = started.communicate(given) if not closed else (b"", b"")
    return started.returncode, out, err.decode()


class CommandsTest(unittest.TestCase):
    def setUp(self) -> None:
        folder = tempfile.TemporaryDirectory()
        self.addCleanup(folder.cleanup)
        self.folder = Path(folder.name) / "parts"

    def cut(self, text: bytes, *words: object) -> Tuple[int, bytes, str]:
        return command("parts", "--folder", self.folder, *words, given=text)

    def names(self) -> str:
        return " ".join(sorted(path.name for path in self.folder.iterdir()))

    def answer(self, ending: str, *words: str) -> None:
        for part in self.folder.glob("part-*.txt"):
            part.with_suffix(ending).write_bytes(program(part.read_bytes(), *words)[1])

    def whole(self, ending: str, *words: object) -> Tuple[int, bytes, str]:
        return command("whole", *words, *sorted(self.folder.glob(f"part-*{ending}")))

    def test_cut_and_put_together(self) -> None:
        self.assertEqual(self.cut(b"".join(SHORT), "--jobs", 1), (0, b"", ""))
        self.assertEqual(self.names(), "part-00001.txt part-00002.txt part-00003.txt")
        self.answer(".plan", "plan")
        wanted = program(b"".join(SHORT), "plan")[1]
        self.assertEqual(self.whole(".plan"), (0, wanted, ""))
        elsewhere = self.folder.parent / "answers"
        elsewhere.mkdir()
        for path in self.folder.glob("*.plan"):
            path.rename(elsewhere / path.name)
        self.assertEqual(command("whole", "--folder", self.folder, *sorted(elsewhere.iterdir())), (0, wanted, ""))
        status, out, _ = self.whole(".txt", "--bounds")
        self.assertEqual((status, out.split(b"\n")[:2]), (0, [b"plan at-least 42", b"plan at-most 42"]))

    def test_an_earlier_cut_leaves_nothing_behind(self) -> None:
        self.cut(b"".join(SHORT), "--jobs", 1)
        self.answer(".plan", "plan")
        (self.folder / "notes").write_text("kept")
        self.cut(b"job a 0 4 8\n")
        self.assertEqual(self.names(), "notes part-00001.txt")

    def test_a_fault_leaves_a_part_that_is_refused(self) -> None:
        self.cut(b"".join(SHORT), "--jobs", 1)
        status, out, err = self.cut(b"job a 4 4 8\n")
        self.assertEqual((status, out), (1, b""))
        self.assertEqual(err, "yds-parts: line 1: job a has its deadline 4 at or before its release 4\n")
        self.assertEqual(self.names(), "part-00001.txt")
        self.assertEqual((self.folder / "part-00001.txt").read_bytes(), b"failed\n")

    def test_a_verdict_of_no(self) -> None:
        self.cut(b"job a 0 4 8\njob b 4 6 4\nslot a 0 4 8\nslot b 4 7 4\n", "--jobs", 1)
        self.answer(".audit", "audit")
        status, out, err = self.whole(".audit")
        self.assertEqual((status, out), (1, b"late slot 2 b 7 deadline 6\n"))
        self.assertEqual(err, f"yds-whole: {self.folder}/part-00002.audit: late slot 1 b 7 deadline 6\n")

    def test_a_part_without_an_answer(self) -> None:
        self.cut(b"".join(SHORT), "--jobs", 1)
        self.answer(".plan", "plan")
        (self.folder / "part-00002.plan").write_bytes(b"")
        status, out, err = self.whole(".plan")
        self.assertEqual((status, out), (1, b"failed\n"))
        self.assertIn("part-00002.plan: is empty: lack of memory, or the program didn't run\n", err)
        (self.folder / "part-00002.plan").unlink()
        status, out, err = self.whole(".plan")
        self.assertEqual((status, out), (1, b"failed\n"))
        self.assertIn("part-00003.plan: is the answer to part 3, and that to part 2 is missing\n", err)
        self.assertEqual(self.whole(".txt")[:2], (1, b"failed\n"))

    def test_bounds_and_waste(self) -> None:
        document = b"job a 0 4 4\njob b 2 6 4\npoint 0 1\npoint 1 2\npoint 2 5\nticks 1\nrun a 0 2 2\nrun b 2 4 2\n"
        self.assertEqual(self.cut(document, "--jobs", 1), (0, b"", ""))
        energies = self.folder.parent / "energies"
        energies.write_text("governor energy 21\n")
        status, out, err = self.whole(".txt", "--bounds", "--spent", energies)
        self.assertEqual((status, err), (0, ""))
        self.assertEqual(out.split(b"\n")[::3], [b"plan at-least 18", b"governor waste 16.66 16.67"])
        self.assertEqual(self.whole(".txt", "--spent", energies)[0], 2)
        energies.write_text("governor energy 13\n")
        self.assertEqual(self.whole(".txt", "--bounds", "--spent", energies)[0], 1)

    def test_words(self) -> None:
        for name, words, message in [
            ("parts", (), "no --folder DIR is given"),
            ("parts", ("--folder", self.folder, "--jobs", "4001"), "--jobs 4001 is no number from 1 to 4000"),
            ("parts", ("--folder", self.folder, "--jobs", "0"), "--jobs 0 is no number from 1 to 4000"),
            ("parts", ("--fold", self.folder), "unrecognized arguments: --fold"),
            ("parts", ("--folder", self.folder, "jobs=3"), "jobs=3 is no word of this command: write --jobs 3"),
            ("parts", ("--folder", self.folder, "a", "b"), "more than 1 file"),
            ("whole", (), "no file: yds-whole"),
            ("whole", ("--grid", "1.5", "a"), "--grid 1.5 is no whole number of 1 or more"),
            ("whole", ("folder=here", "a"), "folder=here is no word of this command: write --folder here"),
        ]:
            with self.subTest(words):
                status, out, err = command(name, *words)
                self.assertEqual((status, out), (2, b"failed\n" if name == "whole" else b""))
                self.assertIn(message, err)
        self.assertEqual(command("parts", "--help")[0], 0)
        self.assertFalse(self.folder.exists())

    def test_a_file_that_cannot_be_read(self) -> None:
        status, out, err = command("parts", "--folder", self.folder, self.folder.parent / "nowhere")
        self.assertEqual((status, out), (1, b""))
        self.assertIn("nowhere can't be read: No such file or directory", err)
        self.assertEqual((self.folder / "part-00001.txt").read_bytes(), b"failed\n")

    def test_a_fault_of_a_file_tells_its_name(self) -> None:
        file = self.folder.parent / "long.txt"
        file.write_bytes(b"job a 4 4 8\n")
        status, _, err = self.cut(b"", str(file))
        told = f"yds-parts: {file}, line 1: job a has its deadline 4 at or before its release 4\n"
        self.assertEqual((status, err), (1, told))

    def test_left_out_levels(self) -> None:
        status, out, err = self.cut(b"job a 0 4 8\nslot a 0 4 8\nlevel 8 4\npiece 0 4\nmember a\n")
        self.assertEqual((status, out), (0, b""))
        self.assertIn("yds-parts: 3 lines of levels, pieces and members are left out; a part has no answer of check\n", err)

    def test_a_line_that_is_longer_than_a_document(self) -> None:
        status, _, err = self.cut(b"job a 0 4 8\n# " + b"a" * 8_400_000 + b"\njob b 4 9 1\n")
        self.assertEqual((status, err), (1, "yds-parts: line 2: a line of more than 8388608 bytes\n"))

    def test_a_closed_output(self) -> None:
        self.cut(b"".join(SHORT), "--jobs", 1)
        self.answer(".plan", "plan")
        self.assertEqual(command("whole", *sorted(self.folder.glob("*.plan")), closed=True)[0], 141)

if __name__ == "__main__":
    unittest.main()
