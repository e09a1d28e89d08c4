"""test_uncalled.py: tries the list of what isn't called with a small repository, whose list is known by hand.

    python3 checks/test_uncalled.py

The last line is 'N passed, M failed'.
"""

import shutil
import subprocess
import sys
import tempfile
import unittest
from pathlib import Path
from typing import Tuple

ROOT = Path(__file__).resolve().parent.parent

CRATES = """# a program, and a library beside it
low: std
high: low
app: low
"""

LOW = """mod jobs;
mod timed;

pub use jobs::{Job, Jobs, Work, handed, named, read};
pub use timed::{Timed, Unused};

/// A law.
pub fn works_add()
    ensures { WorksAdd }
{}

/// Only a contract names it.
pub fn told(jobs: &Jobs) -> u32
    ensures { result ≡ told jobs.now }
{
    jobs.first().map_or(0, |job| job.work())
}

pub fn of_a_library() -> u32 {
    1
}

#[cfg(test)]
mod tests;
"""

JOBS = """use crate::timed::{Row, Timed};

/// A job.
pub struct Job {
    work: u32,
    pub ghost some: { 1 ≤ work },
}

pub type Work = Job;

pub struct Jobs {
    all: Vec<Job>,
}

impl Job {
    pub fn new(work: u32) -> Job {
        Job { work }
    }

    // a program calls it: of a closure's job, whose type stands in a list
    pub fn work(&self) -> u32
        ensures { result ≡ told self.now }
    {
        self.work
    }

    pub fn row(&self) -> u32 {
        self.work
    }

    fn kept(&self) -> u32 {
        self.work
    }
}

impl Jobs {
    pub fn first(&self) -> Option<&Job> {
        self.all.first()
    }

    pub fn all(&self) -> &[Job] {
        &self.all
    }
}

impl Timed for Jobs {
    fn time(&self) -> u32 {
        named(3)
    }
}

pub fn read(bytes: &[u8]) -> Option<Jobs> {
    let all = bytes.iter().map(handed).collect()?;
    let _row = Row { times: 1 };
    Some(Jobs { all })
}

pub fn handed(byte: &u8) -> Work {
    Work::new(u32::from(*byte))
}

pub fn named(time: u32) -> u32 {
    time
}
"""

TIMED = """pub trait Timed {
    fn time(&self) -> u32;
}

pub struct Row {
    pub times: u32,
}

impl Row {
    pub fn row(&self) -> u32 {
        self.times
    }
}

pub struct Unused {
    times: u32,
}

impl Unused {
    pub fn new() -> Unused {
        Unused { times: 0 }
    }

    pub fn times(&self) -> u32 {
        self.times
    }
}
"""

TESTS = """use crate::{Jobs, told};

#[test]
fn told_is_one(jobs: Jobs) {
    assert!(told(&jobs) == 1);
}
"""

HIGH = """use low::of_a_library;

pub fn twice() -> u32 {
    2 * of_a_library()
}
"""

APP = """use low::{Jobs, read};

fn main(rt: HostRuntime) -> ExitCode {
    match read(b"jobs // of 'a' {") {
        Some(jobs) => ExitCode::from(total(&jobs)),
        None => ExitCode::from(1),
    }
}

fn total(jobs: &Jobs) -> u32 {
    jobs.all().iter().map(|job| job.work()).sum() + jobs.time()
}
"""

BEGIN = "**What the program doesn't call.**"
LIST = BEGIN + """ These are proved for callers of the crates: `Job::row`, `Jobs::first`, `told`,
`of_a_library` and `Unused` of `low`.
"""
WRONG = f"docs/proved.md hasn't the list that docs/uncalled.py writes, in a paragraph that begins with {BEGIN}\n"

PAGE = "# Proved\n\nThe list:\n\n{}\nMore of it.\n"


class Uncalled(unittest.TestCase):
    """Each test has a repository of a program, of a crate below it, and of a library that the program doesn't need."""

    def setUp(self) -> None:
        folder = tempfile.TemporaryDirectory()
        self.addCleanup(folder.cleanup)
        self.folder = Path(folder.name)
        self.write("crates.txt", CRATES)
        self.write("crates/low/src/lib.rt", LOW)
        self.write("crates/low/src/jobs.rt", JOBS)
        self.write("crates/low/src/timed.rt", TIMED)
        self.write("crates/low/src/tests.rt", TESTS)
        self.write("crates/high/src/lib.rt", HIGH)
        self.write("crates/app/src/main.rt", APP)
        self.write("docs/proved.md", PAGE.format(LIST))
        for name in ("uncalled.py", "calls.py", "items.py"):
            shutil.copy(ROOT / "docs" / name, self.folder / "docs" / name)

    def write(self, name: str, text: str) -> None:
        path = self.folder / name
        path.parent.mkdir(parents=True, exist_ok=True)
        path.write_text(text, encoding="utf-8")

    def run_script(self, *words: str) -> Tuple[str, int]:
        command = [sys.executable, str(self.folder / "docs" / "uncalled.py"), *words]
        ended = subprocess.run(command, stdout=subprocess.PIPE, universal_newlines=True)
        return ended.stdout, ended.returncode

    def written(self) -> str:
        """The page that the script writes."""
        self.assertEqual(self.run_script(), ("", 0))
        return (self.folder / "docs/proved.md").read_text(encoding="utf-8")

    def test_the_list_is_that_by_hand(self) -> None:
        self.assertEqual(self.run_script("--check"), ("6 passed, 0 failed\n", 0))
        self.assertEqual(self.written(), PAGE.format(LIST))

    def test_a_list_that_lacks_one_is_refused_and_mended(self) -> None:
        self.write("docs/proved.md", PAGE.format(LIST.replace("`Job::row`, ", "")))
        self.assertEqual(self.run_script("--check"), (WRONG + "5 passed, 1 failed\n", 1))
        self.assertEqual(self.written(), PAGE.format(LIST))

    def test_a_call_takes_it_from_the_list(self) -> None:
        self.write("crates/app/src/main.rt", APP.replace("job.work()", "job.work() + job.row()"))
        self.assertNotIn("Job::row", self.written())

    def test_a_call_of_an_unknown_value_counts_for_all_of_that_name(self) -> None:
        self.write("crates/app/src/main.rt", APP.replace("jobs.time()", "rt.anything().row()"))
        self.assertNotIn("Job::row", self.written())

    def test_what_a_type_does_for_a_trait_is_called_only_where_the_type_is_used(self) -> None:
        more = "\nimpl Timed for Unused {\n    fn time(&self) -> u32 {\n        crate::told(self.jobs)\n    }\n}\n"
        self.write("crates/low/src/timed.rt", TIMED + more)
        self.assertEqual(self.written(), PAGE.format(LIST))

    def test_a_page_without_the_list_is_told(self) -> None:
        self.write("docs/proved.md", "# Proved\n")
        for words in ("", "--check"):
            self.assertEqual(self.run_script(*words.split()), (WRONG + "5 passed, 1 failed\n", 1))


def main() -> int:
    suite = unittest.defaultTestLoader.loadTestsFromModule(sys.modules[__name__])
    result = unittest.TextTestRunner(stream=sys.stdout).run(suite)
    failed = len(result.failures) + len(result.errors)
    print(f"{result.testsRun - failed} passed, {failed} failed")
    return 1 if failed else 0


if __name__ == "__main__":
    sys.exit(main())
