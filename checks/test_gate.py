"""test_gate.py: tries the gate, the tests without a proof and what is carried, with stand-ins for `rt`.

    python3 checks/test_gate.py

The last line is 'N passed, M failed'.
"""

import contextlib
import hashlib
import io
import json
import os
import resource
import subprocess
import sys
import tarfile
import time
import unittest
from collections.abc import Sequence
from pathlib import Path
from unittest import mock

ROOT = Path(__file__).resolve().parent.parent
sys.path[:0] = [str(ROOT / "checks"), str(ROOT / "packaging")]

import gate  # noqa: E402
import kept  # noqa: E402
import needs  # noqa: E402
import prove  # noqa: E402
import runner  # noqa: E402
import stored  # noqa: E402
import tests as unproved  # noqa: E402
from test_checks import InFolder  # noqa: E402

STAGES = """
import sys
sys.path.insert(0, "checks")
import gate
from gate import Path, Stage
gate.prove.BUILD, gate.prove.KEPT = Path({folder!r}), Path({folder!r}, "crate-seconds")
sys.exit(gate.run_stages([{stages}]))
"""
IN_TURN = "Stage([gate.PROOFS], False, 0), Stage([('check',)], False, 0)"
BESIDE = "Stage([('check', 'one'), ('check', 'two')], True, 0), Stage([gate.PROOFS], False, 0)"


class WithCommands(InFolder):
    """Each test has a folder of its own, with commands that are shell scripts."""

    def script(self, name: str, text: str) -> None:
        self.write(name, f"#!/bin/sh\n{text}\n").chmod(0o755)

    def python(self, words: Sequence[str], path: str = "/usr/bin:/bin") -> tuple[list[str], int]:
        """Runs Python on these words, with the folder's commands before those of the path. Gives the lines and the status."""
        environment = {**os.environ, "PATH": f"{self.folder}:{path}", "PYTHONDONTWRITEBYTECODE": "1"}
        done = subprocess.run(
            [sys.executable, *words], cwd=ROOT, env=environment, stdout=subprocess.PIPE, stderr=subprocess.DEVNULL,
            encoding="utf-8", check=False,
        )
        return done.stdout.splitlines(), done.returncode


class WithGate(WithCommands):
    """Each test has a gate of its own."""

    def gate(self, proofs: str, check: str = "echo 2 passed, 0 failed", stages: str = IN_TURN) -> tuple[list[str], int]:
        """The lines but for times, and the status. Without a script there is no such command."""
        for name, script in (("rt", proofs), ("check", check)):
            if script:
                self.script(name, script)
        lines, status = self.python(["-c", STAGES.format(folder=str(self.folder), stages=stages)])
        return [line.rpartition(", ")[0] if line.endswith(" s") else line for line in lines if " processors" not in line], status


class InTurn(WithGate):
    """What the gate answers to the proofs and to one check behind them."""

    def test_both_pass(self) -> None:
        lines, status = self.gate("echo proving $1; echo 3 passed, 0 failed")
        told = ["3 passed, 0 failed", "gate: rt ci: 3 passed, 0 failed", "2 passed, 0 failed", "gate: check: 2 passed, 0 failed"]
        self.assertEqual((lines, status), (["proving ci", *told, "5 passed, 0 failed"], 0))

    def test_the_proofs_fail_and_what_is_not_tried_is_named(self) -> None:
        lines, status = self.gate("echo 3 passed, 4 failed; exit 1")
        left = "gate: not tried, since what comes before it failed: check"
        self.assertEqual((lines[-2:], status), ([left, "3 passed, 4 failed"], 1))

    def test_the_check_fails(self) -> None:
        lines, status = self.gate("echo 3 passed, 0 failed", "echo 2 passed, 1 failed; exit 5")
        self.assertEqual((lines[-1], status), ("5 passed, 1 failed", 5))

    def test_a_failure_with_status_0_is_one(self) -> None:
        lines, status = self.gate("echo 3 passed, 1 failed")
        self.assertEqual((lines[-1], status), ("3 passed, 1 failed", 1))

    def test_a_status_without_a_failure_is_one(self) -> None:
        lines, status = self.gate("echo 3 passed, 0 failed; exit 4")
        self.assertIn("rt ci: ended with status 4, though nothing failed by its counts", lines)
        self.assertEqual((lines[-1], status), ("3 passed, 1 failed", 4))

    def test_killed(self) -> None:
        lines, status = self.gate("echo 3 passed; kill -9 $$")
        self.assertIn("rt ci: ended with status 137 and without its counts", lines)
        self.assertEqual((lines[-1], status), ("0 passed, 1 failed", 137))

    def test_killed_after_its_counts(self) -> None:
        lines, status = self.gate("echo 3 passed, 0 failed; kill -9 $$")
        self.assertEqual((lines[-1], status), ("3 passed, 1 failed", 137))

    def test_killed_while_what_it_began_holds_the_pipe(self) -> None:
        begun = time.monotonic()
        lines, status = self.gate("sleep 600 & echo $! >" + str(self.folder / "number") + "; kill -9 $$")
        self.assertLess(time.monotonic() - begun, 300)
        self.assertEqual((lines[-1], status), ("0 passed, 1 failed", 137))
        os.kill(int((self.folder / "number").read_text()), 15)

    def test_silent(self) -> None:
        lines, status = self.gate(":")
        self.assertEqual(lines[0], "rt ci: ended with status 0 and without its counts")
        self.assertEqual((lines[-1], status), ("0 passed, 1 failed", 1))

    def test_counts_that_arent_the_last_line(self) -> None:
        for after in ("; echo more", "; echo", " now"):
            with self.subTest(after):
                lines, status = self.gate("echo 3 passed, 0 failed" + after)
                self.assertEqual((lines[-1], status), ("0 passed, 1 failed", 1))

    def test_a_last_line_without_its_end(self) -> None:
        lines, status = self.gate("printf '3 passed, 0 failed'")
        self.assertEqual((lines[-1], status), ("5 passed, 0 failed", 0))

    def test_no_such_command(self) -> None:
        lines, status = self.gate("echo 3 passed, 0 failed", "")
        self.assertIn("check: can't be run: No such file or directory", lines)
        self.assertEqual((lines[-1], status), ("3 passed, 1 failed", 127))

    def test_how_far_the_proofs_are(self) -> None:
        lines, _ = self.gate("echo rt: base proved; echo rt: yds_port is kept: the same; echo rt: yds_port: no crate")
        self.assertEqual([line.partition(" of ")[0] for line in lines if " of " in line], ["gate: 1", "gate: 2"])


class Seconds(InFolder):
    """What the gate notes of how long each crate took."""

    def test_what_was_kept_took_nothing(self) -> None:
        seconds = self.write("crate-seconds", "yds_port 7.0\n")
        with mock.patch.multiple(prove, KEPT=seconds, BUILD=self.folder), mock.patch.object(gate, "write_through"), \
                mock.patch.object(gate.time, "monotonic", iter((0, 30, 60, 90)).__next__):
            proofs = gate.Proofs()
            proofs.sink(b"rt: base proved\nrt: yds_po")
            proofs.sink(b"rt is kept: the same\nrt: yds_kernel proved\n0 passed, 0 failed\n")
            proofs.end(True)
        self.assertEqual(prove.read_seconds(seconds), {"base": 30, "yds_port": 7, "yds_kernel": 60})

    def test_a_crate_that_took_far_less_than_was_expected(self) -> None:
        seconds = self.write("crate-seconds", "base 700.0\n")
        with mock.patch.multiple(prove, KEPT=seconds, BUILD=self.folder), mock.patch.object(gate, "write_through"), \
                mock.patch.object(gate.time, "monotonic", iter((0, 30)).__next__):
            proofs = gate.Proofs()
            proofs.sink(b"rt: base proved\n0 passed, 0 failed\n")
            proofs.end(True)
        self.assertEqual(prove.read_seconds(seconds), {"base": 30})


class SideBySide(WithGate):
    """What the gate tells of checks that run side by side, before the proofs."""

    def test_what_each_wrote_is_kept_together(self) -> None:
        script = "echo $1 begins; sleep 0.2; echo $1 goes on >&2; sleep 0.2; echo 2 passed, 0 failed"
        lines, status = self.gate("echo 3 passed, 0 failed", script, BESIDE)
        for name in ("one", "two"):
            at = lines.index(f"{name} begins")
            self.assertEqual(lines[at + 1], f"{name} goes on")
            self.assertRegex(lines[at + 2], rf"^check {name}: 2 passed, 0 failed, \d+ s; [12] of 2 done$")
        self.assertEqual((lines[-1], status), ("7 passed, 0 failed", 0))

    def test_one_fails_and_nothing_is_proved(self) -> None:
        script = "echo why; test $1 = one && echo 2 passed, 0 failed && exit; echo 1 passed, 1 failed; exit 6"
        lines, status = self.gate("echo 3 passed, 0 failed", script, BESIDE)
        left = "gate: not tried, since what comes before it failed: rt ci"
        self.assertEqual((lines[-2:], status), ([left, "3 passed, 1 failed"], 6))

    def test_the_end_of_one_that_was_killed_is_told(self) -> None:
        script = "echo why; test $1 = one && kill -9 $$; echo 2 passed, 0 failed"
        lines, status = self.gate("echo 3 passed, 0 failed", script, BESIDE)
        at = lines.index("check one: ended with status 137 and without its counts")
        self.assertEqual(lines[at - 1], "why")
        self.assertEqual((lines[-1], status), ("2 passed, 1 failed", 137))


class Lacking(WithCommands):
    """What the gate needs and isn't there is named before anything is run."""

    def test_no_compiler(self) -> None:
        self.script("rt", f"touch {self.folder}/ran; echo 1 passed, 0 failed")
        for name in ("make", "bash", "awk", "diff", "cmp", "xargs", "ld", "ar", "objcopy", "nm", "readelf"):
            self.script(name, ":")
        before = resource.getrusage(resource.RUSAGE_CHILDREN).ru_utime
        lines, status = self.python(["checks/gate.py"], "/nowhere")
        self.assertLess(resource.getrusage(resource.RUSAGE_CHILDREN).ru_utime - before, 1)
        told = [f"gate: the command '{name}' isn't here: on Debian: apt-get install {name}" for name in ("gcc", "g++")]
        self.assertEqual((lines, status), ([*told, "0 passed, 2 failed"], 1))
        self.assertFalse((self.folder / "ran").exists())

    def test_a_compiler_without_the_files_of_the_c_library(self) -> None:
        self.script("gcc", "echo crt1.o")
        with mock.patch.dict(os.environ, {"PATH": f"{self.folder}:/usr/bin:/bin", "CC": ""}):
            self.assertIn("the C library's files for a compiler isn't here: on Debian: apt-get install libc6-dev", needs.lacking())

    def test_an_older_python(self) -> None:
        with mock.patch.object(needs, "PYTHON", (99, 0)):
            self.assertIn("Python 99.0 or later isn't here: on Debian: apt-get install python3", needs.lacking())

    def test_another_compiler_is_looked_for_by_its_name(self) -> None:
        with mock.patch.dict(os.environ, {"CC": "no-such-compiler"}):
            told = "the command 'no-such-compiler' isn't here: on Debian: apt-get install gcc"
            self.assertIn(told, needs.lacking())


class Forecast(unittest.TestCase):
    """How long the gate says that it takes."""

    def told(self, processors: int) -> str:
        stages = [gate.Stage([], False, 3000), gate.Stage([], True, 600)]
        with mock.patch.object(gate, "processors", lambda: processors):
            return gate.forecast(stages)

    def test_by_processors(self) -> None:
        for processors, minutes in ((8, 60), (4, 60), (2, 120), (1, 240)):
            self.assertTrue(self.told(processors).startswith(f"about {minutes} minutes on {processors} "))


class Unproved(WithCommands):
    """What is run without a proof, and what is left out and named."""

    def test_each_crate_with_tests_and_both_programs(self) -> None:
        words = [runner.name_of(command) for command in unproved.unproved()]
        self.assertEqual(words[:2], ["python3 checks/stored.py yds_cli", "python3 checks/stored.py yds_trace"])
        self.assertIn("python3 checks/crate_tests.py yds_tests", words)

    def build(self, *names: str, age: int = 0) -> tuple[list[str], list[str]]:
        """What is run and what is left where these are built, so many seconds before now."""
        for name in names:
            path = self.write(name, "")
            os.utime(path, (time.time() - age,) * 2)
        with mock.patch.object(unproved, "BUILD", self.folder):
            run, left = unproved.of_built()
        return [runner.name_of(command).partition("--only ")[2].split()[0] for command in run], left

    def test_nothing_is_built(self) -> None:
        run, left = self.build()
        self.assertEqual((run, len(left)), ([], 2))
        self.assertRegex(left[0], r"^\d+ rows and traces, \d+ commands of README.md, and drawn documents, of the built programs: make ")
        self.assertRegex(left[1], r"^\d+ tests that ask the library, and those of library/test: make library ")

    def test_the_programs_are_built(self) -> None:
        run, left = self.build("yds_cli", "yds_trace")
        self.assertEqual((run, len(left)), (["programs"], 1))

    def test_programs_that_are_older_than_the_sources(self) -> None:
        self.assertEqual(self.build("yds_cli", "yds_trace", age=10**9)[0], [])

    def test_all_is_built_and_there_is_no_compiler(self) -> None:
        with mock.patch.object(unproved, "which", lambda name: None):
            run, left = self.build("yds_cli", "yds_trace", "libyds.a", "libyds.so")
        self.assertEqual((run, left), (["programs", "calls"], ["the tests of library/test: they need gcc and g++"]))

    def test_no_toolchain(self) -> None:
        lines, status = self.python(["checks/tests.py"])
        self.assertTrue(lines[0].startswith("Nothing is proved here"))
        self.assertEqual((lines[-1], status), ("0 passed, 1 failed", 1))


class Stored(WithCommands):
    """How the lines of `rt try --cases` are read, with rows that are made up."""

    ROWS = [stored.Row(name, ["plan"], b"in\n", b"out\n", status) for name, status in (("a", 0), ("b", 1))]

    def run_with(self, script: str) -> tuple[list[str], int]:
        """The lines and the status, with a stand-in for `rt` whose fourth word is the folder of the cases."""
        self.script("rt", script)
        said = io.StringIO()
        with mock.patch.object(stored, "documents", lambda: iter(self.ROWS)), \
                mock.patch.object(stored, "examples_without_row", list), \
                mock.patch.dict(os.environ, PATH=f"{self.folder}:/usr/bin:/bin"), contextlib.redirect_stdout(said):
            status = stored.main(["yds_cli"])
        return said.getvalue().splitlines(), status

    LINE = "echo case={} run={} status={} runners=1 output={} proved=no >&2\n"

    def test_all_is_as_stored(self) -> None:
        script = self.LINE.format("a", "ended", 0, "expected") + self.LINE.format("b", "ended", 1, "expected")
        self.assertEqual(self.run_with(script), (["2 passed, 0 failed"], 0))

    def test_another_status_another_output_and_a_fault(self) -> None:
        script = self.LINE.format("a", "ended", 1, "expected") + self.LINE.format("b", "ended", 1, "differs")
        told = ["FAILED: a: status 1, stored is 0", "FAILED: b: what it writes isn't what is stored"]
        self.assertEqual(self.run_with(script), ([*told, "0 passed, 2 failed"], 1))
        lines, _ = self.run_with(self.LINE.format("a", "fault", 0, "expected"))
        self.assertEqual(lines[-2:], ["FAILED: b: it wasn't run", "0 passed, 2 failed"])

    def test_nothing_is_run(self) -> None:
        lines, status = self.run_with("echo refused >&2; exit 1")
        self.assertEqual((lines[0], lines[-1], status), ("refused", "0 passed, 2 failed", 1))

    def test_a_row_is_laid_out(self) -> None:
        row = stored.Row("two", ["traces/two-files/1.txt", "-"], b"in", b"out", 0)
        words = stored.lay_out([row], self.folder)
        self.assertEqual(words[0], "--data")
        self.assertEqual(words[1].partition("=")[0], "traces/two-files/1.txt")
        self.assertEqual((self.folder / "two.args").read_text(), "traces/two-files/1.txt\n-\n")


class Kept(WithCommands):
    """What is carried from one toolchain's folder to another, with toolchains that are two files each."""

    KEY = "5" * 64

    def setUp(self) -> None:
        super().setUp()
        self.write("root/crates.txt", "low: std\nhigh: low\n")
        for name in ("here", "there"):
            self.script(f"{name}/kit/bin/rt", "echo kit 1")
            os.utime(self.folder / name / "kit/bin/rt", (1, 1))

    def entry(self, crate: str, text: str, key: str = KEY, age: int = 0) -> Path:
        """An entry of a crate with one file, that is so many seconds old."""
        folder = self.folder / f"here/rattle-kept/proof-{crate}-{key}"
        made = {"key": key, "files": [[f"rlib/{crate}.rlib/format", hashlib.sha256(text.encode()).hexdigest()]]}
        self.write(f"here/rattle-kept/{folder.name}/made.json", json.dumps(made))
        self.write(f"here/rattle-kept/{folder.name}/0", text)
        os.utime(folder, (time.time() - age,) * 2)
        return folder

    def call(self, what: str, name: str, file: str = "file") -> tuple[str, int]:
        """What is told, and the status, with the toolchain of this name."""
        said = io.StringIO()
        with mock.patch.object(kept, "kit", lambda: self.folder / name / "kit"), \
                mock.patch.object(kept, "ROOT", self.folder / "root"), \
                contextlib.redirect_stdout(said), contextlib.redirect_stderr(said):
            status = kept.main([what, str(self.folder / file)])
        return said.getvalue(), status

    def test_there_and_back(self) -> None:
        for crate in ("low", "high"):
            self.entry(crate, crate)
            self.write(f"root/crates/{crate}/out/rlib/{crate}.rlib/format", crate)
        self.assertEqual(self.call("pack", "here"), (f"{self.folder}/file: 2 entries of 2 of the 2 crates, 0 MB\n", 0))
        told, status = self.call("unpack", "there")
        self.assertEqual((told.partition(": ")[2][:17], status), ("2 entries put int", 0))
        to = self.folder / "there/rattle-kept"
        self.assertEqual(to.stat().st_mode & 0o777, 0o700)
        self.assertEqual((to / f"proof-low-{self.KEY}" / "0").read_text(), "low")
        self.assertEqual(sorted(path.name for path in to.iterdir()), [f"proof-{name}-{self.KEY}" for name in ("high", "low")])
        (to / f"proof-low-{self.KEY}" / "0").write_text("mine")
        self.assertIn("0 entries put into", self.call("unpack", "there")[0])
        self.assertEqual((to / f"proof-low-{self.KEY}" / "0").read_text(), "mine")

    def test_the_entry_of_this_tree_and_not_a_newer_one(self) -> None:
        self.entry("low", "of this tree", age=100)
        self.entry("low", "of another", key="6" * 64)
        self.write("root/crates/low/out/rlib/low.rlib/format", "of this tree")
        told, _ = self.call("pack", "here")
        self.assertEqual(told.splitlines()[0], "left out, since nothing is kept of it: high")
        with tarfile.open(self.folder / "file") as archive:
            self.assertEqual({name.partition("/")[0] for name in archive.getnames()}, {kept.TOOLCHAIN, f"proof-low-{self.KEY}"})

    def test_the_newest_where_others_stand_in_the_crate(self) -> None:
        self.entry("low", "old", age=100)
        self.entry("low", "new", key="6" * 64)
        told, _ = self.call("pack", "here")
        self.assertIn("taken by its time, since other files stand in its folder out: low\n", told)

    def test_nothing_is_kept(self) -> None:
        self.assertEqual(self.call("pack", "here")[1], 1)
        self.assertFalse((self.folder / "file").exists())

    def test_another_toolchain(self) -> None:
        self.entry("low", "low")
        self.call("pack", "here")
        os.utime(self.folder / "there/kit/bin/rt", (2, 2))
        told, status = self.call("unpack", "there")
        self.assertIn("it is of another copy of kit 1: a file's place, kind, size or time differs", told)
        self.script("there/kit/bin/rt", "echo kit 2")
        told, status = self.call("unpack", "there")
        self.assertIn("it is of the toolchain kit 1, and here is kit 2", told)
        self.assertEqual((status, list((self.folder / "there/rattle-kept").iterdir())), (1, []))

    def pack_by_hand(self, *members: tuple[str, bytes, bytes]) -> None:
        """An archive of this toolchain with these members: name, content, kind."""
        with mock.patch.object(kept, "kit", lambda: self.folder / "here/kit"):
            ours = json.dumps(kept.toolchain()).encode()
        with tarfile.open(self.folder / "file", "w:gz") as archive:
            kept.add(archive, kept.TOOLCHAIN, ours)
            for name, content, kind in members:
                member = tarfile.TarInfo(name)
                member.size, member.type, member.linkname = len(content), kind, "/etc/passwd"
                archive.addfile(member, io.BytesIO(content))

    def test_what_would_be_written_elsewhere_is_refused(self) -> None:
        entry = f"proof-low-{self.KEY}"
        for name, kind in (
            ("../0", tarfile.REGTYPE), ("/0", tarfile.REGTYPE), (f"{entry}/../../0", tarfile.REGTYPE), (f"{entry}/0", tarfile.SYMTYPE),
            (f"{entry}/0", tarfile.LNKTYPE), (f"{entry}/more", tarfile.REGTYPE), (f"work/{entry}", tarfile.REGTYPE), (entry, tarfile.DIRTYPE),
        ):
            with self.subTest(name):
                self.pack_by_hand((name, b"" if kind != tarfile.REGTYPE else b"x", kind))
                told, status = self.call("unpack", "there")
                self.assertIn("which is no file of an entry", told)
                self.assertEqual((status, list((self.folder / "there/rattle-kept").iterdir())), (1, []))

    def test_what_is_not_whole_is_refused(self) -> None:
        entry = f"proof-low-{self.KEY}"
        made = json.dumps({"key": self.KEY, "files": [["rlib/low.rlib/format", "0" * 64]]}).encode()
        self.pack_by_hand((f"{entry}/made.json", made, tarfile.REGTYPE), (f"{entry}/0", b"x", tarfile.REGTYPE))
        self.assertIn("isn't what was packed", self.call("unpack", "there")[0])
        self.pack_by_hand((f"{entry}/made.json", made.replace(b"5", b"6"), tarfile.REGTYPE))
        self.assertIn("isn't whole", self.call("unpack", "there")[0])
        self.entry("low", "low" * 10000)
        self.call("pack", "here")
        whole = (self.folder / "file").read_bytes()
        (self.folder / "file").write_bytes(whole[: len(whole) // 2])
        self.assertEqual(self.call("unpack", "there")[1], 1)
        self.assertEqual(self.call("unpack", "there", "none")[1], 1)

    def test_a_gate_that_is_given_such_a_file_proves_nothing(self) -> None:
        self.pack_by_hand()
        with mock.patch.object(kept, "kit", lambda: self.folder / "there/kit"), mock.patch.object(needs, "lacking", list), \
                mock.patch.object(gate, "run_stages", lambda stages: self.fail("it went on")), \
                contextlib.redirect_stdout(io.StringIO()), contextlib.redirect_stderr(io.StringIO()):
            self.assertEqual(gate.main(["--kept", str(self.folder / "file")]), 1)


def main() -> int:
    suite = unittest.defaultTestLoader.loadTestsFromModule(sys.modules[__name__])
    result = unittest.TextTestRunner(stream=sys.stdout).run(suite)
    failed = len(result.failures) + len(result.errors)
    print(f"{result.testsRun - failed} passed, {failed} failed")
    return 1 if failed else 0


if __name__ == "__main__":
    sys.exit(main())
