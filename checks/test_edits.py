"""test_edits.py: tries the check of the edits with a small repository, and with faults that are planted in it.

    python3 checks/test_edits.py

The last line is 'N passed, M failed'.
"""

import shutil
import subprocess
import sys
import tempfile
import unittest
from pathlib import Path
from typing import List, Tuple

ROOT = Path(__file__).resolve().parent.parent

CODE = """mod row;

pub use row::Row;

/// A row's length.
pub fn length(row: &Row) -> u32
    requires { 1 ≤ row.now }
    ensures value { result ≡ row.now }
    ensures some { 1 ≤ result }
{
    row.length()
}

fn half(length: u32) -> u32
    ensures { result ≡ length / 2 }
{
    length / 2
}
"""

ROW = """impl<'a> Row<'a> {
    pub fn length(&self) -> u32
        ensures { result ≡ self.now }
    {
        self.length
    }
}

impl Order for Row<'_> {
    fn comes(&self, other: &Self) -> bool
        ensures first { IsTrue result ↔ self.now < other.now }
    {
        self.is_less(other)
    }
}
"""

EDIT = """file: src/row.rt
old: self.length
new: self.length / 2
# breaks: Row::length
# breaks: length.value
"""

# a call whose clause is a record
RUN = """pub fn run(words: &[u8]) -> u32
    ensures later { 1 ≤ result }
    ensures worth { IsWorth words.now result }
{
    first_of(words)
}
"""

WORTH = """-- What an answer is worth.
pub record IsInput (input : ℕ) : Type 0 where
  pub read : input ≡ 1

pub record IsWorth (words : List ℕ) (result : ℕ) : Type 0 where
  -- a plan
  pub headline : words ≡ codes "plan" → result ≡ 1
      → result ≡ 1
  pub accepted : words ≡ codes "check" → result ≡ 2

abbrev pub IsOther : Type 0
"""

WORTH_EDIT = """file: src/lib.rt
old: first_of(words)
new: last_of(words)
# breaks: run.later
# breaks: run.worth.headline
# breaks: run.worth.accepted
"""


class Edits(unittest.TestCase):
    """Each test has a repository of one crate with one edit, and its page."""

    def setUp(self) -> None:
        folder = tempfile.TemporaryDirectory()
        self.addCleanup(folder.cleanup)
        self.folder = Path(folder.name)
        self.write("crates/low/src/lib.rt", CODE)
        self.write("crates/low/src/row.rt", ROW)
        self.write("crates/low/edits/half.edit", EDIT)
        self.write("docs/edits.md", "")
        shutil.copy(ROOT / "docs" / "edits.py", self.folder / "docs" / "edits.py")
        self.write_page()

    def write(self, name: str, text: str) -> None:
        path = self.folder / name
        path.parent.mkdir(parents=True, exist_ok=True)
        path.write_text(text, encoding="utf-8")

    def run_script(self, *words: str) -> Tuple[List[str], int]:
        """What the script writes, without what it says of the functions that this repository lacks."""
        command = [sys.executable, str(self.folder / "docs" / "edits.py"), *words]
        ended = subprocess.run(command, stdout=subprocess.PIPE, universal_newlines=True)
        lines = [it for it in ended.stdout.splitlines() if "there is no public function" not in it]
        return lines, ended.returncode

    def write_page(self) -> None:
        self.assertEqual(self.run_script(), ([], 0))

    def faults(self) -> List[str]:
        lines, status = self.run_script("--check")
        self.assertRegex(lines[-1], r"\d+ passed, \d+ failed")
        self.assertEqual(status, 1)
        return lines[:-1]

    def replace(self, old: str, new: str) -> None:
        path = self.folder / "crates/low/edits/half.edit"
        text = path.read_text(encoding="utf-8")
        self.assertIn(old, text)
        path.write_text(text.replace(old, new), encoding="utf-8")

    def test_nothing_is_wrong(self) -> None:
        self.assertEqual(self.faults(), [])

    def test_the_page_has_each_public_clause(self) -> None:
        page = (self.folder / "docs/edits.md").read_text(encoding="utf-8")
        self.assertIn("Edits: 1. Public clauses: 4. Of these without an edit: 2.", page)
        self.assertIn("| `length.value` | `half` |  |", page)
        self.assertIn("| `Row::length` | `half` |  |", page)
        self.assertIn("Without: `length.some`, `Row::comes.first`.", page)
        self.assertNotIn("`half`.", page)

    def test_a_page_of_before(self) -> None:
        self.write("docs/edits.md", "# Edits\n")
        self.assertEqual(self.faults(), ["docs/edits.md isn't what docs/edits.py writes"])

    def test_an_edit_that_says_nothing(self) -> None:
        self.replace("# breaks: Row::length\n# breaks: length.value\n", "")
        self.write_page()
        self.assertEqual(self.faults(), ["crates/low/edits/half.edit: it has no line that says what it breaks"])

    def test_a_clause_that_is_not_there(self) -> None:
        for said in ("length.none", "length", "Row::length.value", "other/length.value", "nothing"):
            with self.subTest(said):
                self.write("crates/low/edits/half.edit", EDIT.replace("length.value", said))
                self.write_page()
                self.assertEqual(self.faults(), [f"crates/low/edits/half.edit: there is no clause {said}"])

    def test_a_clause_of_another_crate(self) -> None:
        self.write("crates/high/src/lib.rt", CODE)
        self.replace("# breaks: length.value", "# breaks: high/length.value")
        self.write_page()
        self.assertEqual(self.faults(), [])
        self.assertIn("| `length.value` | `low/half` |  |", (self.folder / "docs/edits.md").read_text(encoding="utf-8"))

    def test_each_field_of_a_record_needs_an_edit(self) -> None:
        self.write("crates/yds_run/src/lib.rt", RUN)
        self.write("crates/yds_run/specs/Worth.antt", WORTH)
        self.write("crates/yds_run/edits/last.edit", WORTH_EDIT)
        self.write_page()
        self.assertEqual(self.faults(), [])
        self.write("crates/yds_run/edits/last.edit", WORTH_EDIT.replace("# breaks: run.worth.accepted\n", ""))
        self.write_page()
        self.assertEqual(self.faults(), ["crates/yds_run: no edit breaks run.worth.accepted"])
        for said in ("run.worth", "run.headline", "run.worth.read"):
            with self.subTest(said):
                self.write("crates/yds_run/edits/last.edit", WORTH_EDIT + f"# breaks: {said}\n")
                self.write_page()
                self.assertEqual(self.faults(), [f"crates/yds_run/edits/last.edit: there is no clause {said}"])

    def test_an_old_text_that_stands_twice(self) -> None:
        self.replace("old: self.length", "old: ensures")
        found = "its old text stands 2 times in src/row.rt, and not once"
        self.assertEqual(self.faults(), [f"crates/low/edits/half.edit: {found}"])

    def test_a_later_pair_reads_what_the_earlier_made(self) -> None:
        self.replace("# breaks: Row", "old: self.length / 2\nnew: self.length / 3\n# breaks: Row")
        self.assertEqual(self.faults(), [])

    def test_what_a_call_asks_for_and_other_goals(self) -> None:
        for said, faults in [
            ("length asks half", []),
            ("Row::length at invariant_of-result", []),
            ("width asks half", ["crates/low/edits/half.edit: there is no clause width asks half"]),
        ]:
            with self.subTest(said):
                self.write("crates/low/edits/half.edit", EDIT + f"# breaks: {said}\n")
                self.write_page()
                self.assertEqual(self.faults(), faults)
        self.assertIn("| `width asks half` | `half` |  |", (self.folder / "docs/edits.md").read_text(encoding="utf-8"))

    def test_what_follows_stands_in_a_column_of_its_own(self) -> None:
        self.replace("# breaks: length.value", "# so: length.value")
        self.write_page()
        self.assertEqual(self.faults(), [])
        self.assertIn("| `length.value` |  | `half` |", (self.folder / "docs/edits.md").read_text(encoding="utf-8"))

    def test_what_follows_has_to_be_there(self) -> None:
        self.replace("# breaks: length.value", "# so: length.none")
        self.write_page()
        self.assertEqual(self.faults(), ["crates/low/edits/half.edit: there is no clause length.none"])


def main() -> int:
    suite = unittest.defaultTestLoader.loadTestsFromModule(sys.modules[__name__])
    result = unittest.TextTestRunner(stream=sys.stdout).run(suite)
    failed = len(result.failures) + len(result.errors)
    print(f"{result.testsRun - failed} passed, {failed} failed")
    return 1 if failed else 0


if __name__ == "__main__":
    sys.exit(main())
