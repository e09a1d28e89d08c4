"""crate_tests.py: runs the tests of crates, unproved (a part of `make test`).

    python3 checks/crate_tests.py [CRATE ..]      all crates that have tests, without one

`rt try --test` compiles a crate's tests and runs them. The last line is 'N passed, M failed'; the status is 1 where M
isn't 0.
"""

import re
import subprocess
import sys
from collections.abc import Sequence
from pathlib import Path

ROOT = Path(__file__).resolve().parent.parent

_RESULT = re.compile(r"^test result: \S+ (\d+) passed; (\d+) failed;", re.MULTILINE)
_TEST = re.compile(r"^\s*#\[test\]", re.MULTILINE)


def crates() -> dict[str, int]:
    """The crates that have tests, and how many, those with most of them first."""
    counts = {
        folder.name: sum(len(_TEST.findall(path.read_text(encoding="utf-8"))) for path in folder.glob("src/**/*.rt"))
        for folder in (ROOT / "crates").iterdir()
    }
    return {name: count for name, count in sorted(counts.items(), key=lambda each: (-each[1], each[0])) if count}


def run(crate: str, wanted: int) -> tuple[int, int]:
    """Runs a crate's tests: how many passed, and how many failed or weren't run. Tells what was written if any did."""
    done = subprocess.run(
        ["rt", "try", crate, "--test"], cwd=ROOT / "crates" / crate, stdin=subprocess.DEVNULL,
        stdout=subprocess.PIPE, stderr=subprocess.STDOUT, check=False,
    )
    told = done.stdout.decode(errors="replace")
    found = _RESULT.search(told)
    passed = min(int(found.group(1)), wanted) if found else 0
    failed = wanted - passed
    if done.returncode and not failed:
        failed = 1
    if failed:
        print(f"FAILED: {crate}: {passed} of {wanted} tests passed, status {done.returncode}\n{told}", flush=True)
    return passed, failed


def main(words: Sequence[str]) -> int:
    """Runs the tests of these crates, or of all. Gives the status."""
    known = crates()
    results = [run(crate, known.get(crate, 0)) for crate in words or known]
    passed, failed = sum(each[0] for each in results), sum(each[1] for each in results)
    print(f"{passed} passed, {failed} failed")
    return int(failed > 0)


if __name__ == "__main__":
    sys.exit(main(sys.argv[1:]))
