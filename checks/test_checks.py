"""test_checks.py: tries the checks of the pages with faults that are planted, and what is said where nothing is built.

    python3 checks/test_checks.py

The last line is 'N passed, M failed'.
"""

import os
import subprocess
import sys
import tempfile
import unittest
from pathlib import Path
from typing import List, Tuple
from unittest import mock

ROOT = Path(__file__).resolve().parent.parent
sys.path.insert(0, str(ROOT / "packaging"))
import over  # noqa: E402


class InFolder(unittest.TestCase):
    """Each test has a folder of its own."""

    def setUp(self) -> None:
        folder = tempfile.TemporaryDirectory()
        self.addCleanup(folder.cleanup)
        self.folder = Path(folder.name)

    def write(self, name: str, text: str) -> Path:
        path = self.folder / name
        path.parent.mkdir(parents=True, exist_ok=True)
        path.write_text(text, encoding="utf-8")
        return path


class Built(InFolder):
    """What is said where something that was built isn't there."""

    def built(self) -> Tuple[List[str], int]:
        command = [sys.executable, "checks/built.py", str(self.folder)]
        done = subprocess.run(command, cwd=ROOT, stdout=subprocess.PIPE, stderr=subprocess.DEVNULL, encoding="utf-8")
        return done.stdout.splitlines(), done.returncode

    def test_each_file_that_isnt_there_is_named(self) -> None:
        for name in ("yds_cli", "libyds.so"):
            self.write(name, "")
        wanted = [f"{self.folder.resolve()}/{name} isn't there" for name in ("yds_trace", "libyds.a")]
        self.assertEqual(self.built(), ([*wanted, "0 passed, 2 failed"], 1))


class Over(InFolder):
    """How the library is made over what `rt ci` left, with a stand-in for the toolchain."""

    def make(self, compiler: str) -> Tuple[str, int]:
        """What is written where the toolchain's compiler is this script, and the status. Without a script there is no toolchain."""
        for name, script in (("bin/rt", ":"), ("bin/rattle", compiler)) if compiler else ():
            self.write(name, f"#!/bin/sh\n{script}\n").chmod(0o755)
        environment = {**os.environ, "PATH": f"{self.folder}/bin:/usr/bin:/bin", "PYTHONDONTWRITEBYTECODE": "1"}
        command = [sys.executable, "packaging/over.py", "library", str(self.folder / "made")]
        done = subprocess.run(command, cwd=ROOT, env=environment, stdout=subprocess.PIPE, encoding="utf-8")
        return done.stdout, done.returncode

    def test_no_toolchain(self) -> None:
        told = "the command 'rt' of the Rattle toolchain isn't on the PATH\n0 passed, 1 failed\n"
        self.assertEqual(self.make(""), (told, 1))

    def test_what_isnt_proved_is_told(self) -> None:
        told = "fn yds_answer: not proved\n\nrattle build ended with status 1\n0 passed, 1 failed\n"
        self.assertEqual(self.make("echo fn yds_answer: not proved; exit 1"), (told, 1))

    def test_the_crate_alone_is_compiled_over_all_below(self) -> None:
        crates, graph = Path("/crates"), {"a": [], "b": ["a"], "c": ["b"], over.LIBRARY: ["c", "b"], "d": ["c"]}
        environment = {"PATH": f"{self.folder}/bin:/usr/bin:/bin"}
        self.write("bin/rt", "#!/bin/sh\n").chmod(0o755)
        with mock.patch.dict(os.environ, environment):
            words = " ".join(over.compiler(crates, graph, over.LIBRARY, Path("/made.a")))
        self.assertEqual(words.count("/crates/"), 5)
        for name in "bc":
            self.assertIn(f"--extern {name}=/crates/{name}/out/rlib/{name}.rlib ", words)
        for name in "abc":
            self.assertIn(f"-L dependency=/crates/{name}/out/rlib ", words)

    def test_a_library_of_an_earlier_check(self) -> None:
        self.write("crates/a/out/rlib/a.rlib/format", "")
        self.assertFalse(over.was_put_back(self.folder / "crates", ["a", "b"]))
        self.write("crates/b/out/rlib/stamp", "")
        self.assertTrue(over.was_put_back(self.folder / "crates", ["a", "b"]))

    def test_a_copy_has_the_sources_and_nothing_that_is_built(self) -> None:
        made = over.copy_of(ROOT / "crates", ["base", "yds_port"], self.folder)
        self.assertEqual(sorted(place.name for place in made.iterdir()), ["base", "yds_port"])
        self.assertTrue((made / "yds_port" / "src" / "lib.rt").is_file())
        self.assertFalse((made / "yds_port" / "out").exists())
        lines = (self.folder / "crates.txt").read_text(encoding="utf-8").splitlines()
        self.assertEqual(lines, ["base: thiserror", "yds_port: base thiserror"])


class Pages(InFolder):
    """What the check of the pages answers to pages that are written here."""

    def check(self) -> Tuple[List[str], int]:
        done = subprocess.run(
            [sys.executable, "docs/check.py", str(self.folder)], cwd=ROOT, stdout=subprocess.PIPE, encoding="utf-8"
        )
        return done.stdout.splitlines(), done.returncode

    def test_all_is_well(self) -> None:
        self.write("README.md", "# One\n\n[two](docs/two.md#a-heading-of-1) [here](#one) ![file](docs/a.svg)\n")
        self.write("docs/two.md", "## A `heading` of [1](../README.md)!\n")
        self.write("docs/a.svg", "")
        self.assertEqual(self.check(), (["6 passed, 0 failed"], 0))

    def test_width(self) -> None:
        text = "x" * 120
        self.write("page.md", f"{text}\n\nx{text}\n- y\n  x{text}\n    x{text}\n")
        faults = {3: 121, 5: 123, 6: 125}
        told = [f"page.md:{line}: {columns} columns, and a page has 120" for line, columns in faults.items()]
        self.assertEqual(self.check(), ([*told, "0 passed, 3 failed"], 1))

    def test_width_counts_characters(self) -> None:
        self.write("page.md", "µ" * 120 + "\n")
        self.assertEqual(self.check(), (["1 passed, 0 failed"], 0))

    def test_what_may_be_longer(self) -> None:
        line = "x" * 121
        self.write("a.svg", "")
        code = f"    {line}\n\n```\n{line}\n```\n"
        self.write("page.md", f"| {line} |\n\n{code}\n![{line}](a.svg)\n\n- [{line}](a.svg).\n")
        self.assertEqual(self.check(), (["3 passed, 0 failed"], 0))

    def test_a_picture_in_a_long_line(self) -> None:
        self.write("a.svg", "")
        self.write("page.md", f"![{'x' * 121}](a.svg) is long\n")
        self.assertEqual(self.check(), (["page.md:1: 139 columns, and a page has 120", "1 passed, 1 failed"], 1))

    def test_links_that_lead_nowhere(self) -> None:
        self.write("docs/page.md", "# One\n\n[a](#two) [b](no.md)\n[c](../../docs/page.md) [d]()\n[e](page.md#one-1)\n")
        self.assertEqual(
            self.check(),
            (
                [
                    "docs/page.md:3: a link to #two, and page.md has no such heading",
                    "docs/page.md:3: a link to no.md, and there is no such file here",
                    "docs/page.md:4: a link to ../../docs/page.md, and there is no such file here",
                    "docs/page.md:4: a link without a target",
                    "docs/page.md:5: a link to page.md#one-1, and page.md has no such heading",
                    "1 passed, 5 failed",
                ],
                1,
            ),
        )

    def test_a_link_to_what_is_built(self) -> None:
        self.write("build/page.md", "")
        self.write("page.md", "[built](build/page.md)\n")
        told = "page.md:1: a link to build/page.md, and there is no such file here"
        self.assertEqual(self.check(), ([told, "1 passed, 1 failed"], 1))

    def test_a_heading_of_a_file_that_is_no_page(self) -> None:
        self.write("Makefile", "# test\n")
        self.write("page.md", "[a](Makefile#test)\n")
        told = "page.md:1: a link to Makefile#test, and Makefile has no such heading"
        self.assertEqual(self.check(), ([told, "1 passed, 1 failed"], 1))

    def test_links_over_two_lines_and_by_name(self) -> None:
        self.write("page.md", "[a\nb](#none) and [c]\n\n[c]: nothing.md\n")
        self.assertEqual(
            self.check(),
            (
                [
                    "page.md:2: a link to #none, and page.md has no such heading",
                    "page.md:4: a link to nothing.md, and there is no such file here",
                    "1 passed, 2 failed",
                ],
                1,
            ),
        )

    def test_two_headings_of_one_text(self) -> None:
        self.write("page.md", "# One\n\n## One\n\n[a](#one) [b](#one-1)\n")
        self.assertEqual(self.check(), (["3 passed, 0 failed"], 0))

    def test_code_has_no_links_and_no_headings(self) -> None:
        self.write("page.md", "`[a](none)` and `[b\nc](none)`\n\n    [d](none)\n    # One\n\n[e](#one)\n")
        told = "page.md:7: a link to #one, and page.md has no such heading"
        self.assertEqual(self.check(), ([told, "1 passed, 1 failed"], 1))

    def test_links_out_of_the_repository_are_told(self) -> None:
        self.write("page.md", "[a](https://example.org/b#c)\n")
        told = "links out of the repository, which weren't followed: 1"
        self.assertEqual(self.check(), ([told, "1 passed, 0 failed"], 0))

    def test_no_page(self) -> None:
        lines, status = self.check()
        self.assertEqual((lines[-1], status), ("0 passed, 1 failed", 1))


class Calls(InFolder):
    """The page of the calls of a small package."""

    SOURCE = """\"\"\"A package. It has a*b and `a*b`.\"\"\"

from yds.more import Kind, call

__all__ = ["Kind", "call"]
"""
    MORE = """class Base:
    def told(self) -> int:
        \"\"\"What is told.\"\"\"

class Kind(Base):
    \"\"\"A kind.\"\"\"

    field: int
    \"\"\"A field.\"\"\"

    def _hidden(self) -> int:
        return 1

def call(number: int = 1) -> Kind:
    \"\"\"A call.

    >>> call()
    Kind
    \"\"\"
"""

    def setUp(self) -> None:
        super().setUp()
        self.write("python/yds/__init__.py", self.SOURCE)
        self.write("python/yds/more.py", self.MORE)
        (self.folder / "docs").mkdir()

    def api(self, *words: str) -> Tuple[List[str], int]:
        command = [sys.executable, str(ROOT / "docs" / "api.py"), *words, str(self.folder)]
        done = subprocess.run(command, stdout=subprocess.PIPE, text=True)
        return done.stdout.splitlines(), done.returncode

    def test_the_page(self) -> None:
        self.assertEqual(self.api(), ([], 0))
        page = (self.folder / "docs" / "api.md").read_text(encoding="utf-8")
        self.assertIn(
            "\n## yds\n\nA package. It has a\\*b and `a*b`.\n\n### yds.Kind\n\n    class yds.Kind\n\nA kind.\n", page
        )
        self.assertIn("\n- `.field: int`  \n  A field.\n\n**`.told`**\n\n    .told() -> int\n\nWhat is told.\n", page)
        self.assertIn("\n    yds.call(number: int=1) -> Kind\n\nA call.\n\n    >>> call()\n    Kind\n", page)
        self.assertNotIn("hidden", page)
        self.assertEqual(self.api("--check"), (["5 passed, 0 failed"], 0))

    def test_a_page_that_isnt_there_or_isnt_made_again(self) -> None:
        told = "docs/api.md isn't what the docstrings say: python3 docs/api.py writes it"
        self.assertEqual(self.api("--check"), ([told, "4 passed, 1 failed"], 1))
        self.api()
        self.write("python/yds/more.py", self.MORE.replace("A kind.", "Another kind."))
        self.assertEqual(self.api("--check"), ([told, "4 passed, 1 failed"], 1))

    def test_no_docstring(self) -> None:
        self.write("python/yds/more.py", self.MORE.replace('"""A kind."""', "").replace('"""What is told."""', "pass"))
        self.api()
        lines, status = self.api("--check")
        self.assertEqual(lines[:2], ["yds.Kind class yds.Kind: no docstring", "yds.Kind .told() -> int: no docstring"])
        self.assertEqual((lines[-1], status), ("3 passed, 2 failed", 1))


class Version(unittest.TestCase):
    """The version stands in one file, and a crate can't read it."""

    def test_the_reader_of_traces_tells_the_version(self) -> None:
        told = (ROOT / "crates" / "yds_trace_words" / "src" / "texts.rt").read_text(encoding="utf-8")
        version = (ROOT / "VERSION").read_text(encoding="utf-8").strip()
        self.assertIn(f'b"yds_trace {version}\\n"', told)


class Readme(unittest.TestCase):
    """Who reads README.md reads all of it."""

    def test_it_is_short(self) -> None:
        self.assertLessEqual(len((ROOT / "README.md").read_text(encoding="utf-8").splitlines()), 150)


def main() -> int:
    suite = unittest.defaultTestLoader.loadTestsFromModule(sys.modules[__name__])
    result = unittest.TextTestRunner(stream=sys.stdout).run(suite)
    failed = len(result.failures) + len(result.errors)
    print(f"{result.testsRun - failed} passed, {failed} failed")
    return 1 if failed else 0


if __name__ == "__main__":
    sys.exit(main())
