"""tools.py: the tests of the Python package that need Python's own library alone (`make tools-check`).

    python3 checks/tools.py [MODULE ..]             those that need neither the program nor the library
    python3 checks/tools.py --built [MODULE ..]     those that ask the program and the library: YDS and YDS_LIBRARY name them

Each module of python/tests is run in a process of its own, as many side by side as there are processors. The first ones
call commands by `called.py`: where a command needs an answer, a second reading gives it. What needs more has a line
NEEDS, and is run by second.py. A run that has fewer tests than LEAST or LEAST_BUILT has lost some, and fails. The last
line is 'N passed, M failed', and the status is 1 where M isn't 0.
"""

import os
import re
import subprocess
import sys
from concurrent.futures import ThreadPoolExecutor
from pathlib import Path
from typing import List, NamedTuple, Sequence

ROOT = Path(__file__).resolve().parent.parent
TESTS = ROOT / "python" / "tests"

LEAST = 310
"""There are at least so many tests. Who adds some writes the new number here."""

LEAST_BUILT = 321
"""And so many that ask the program and the library."""

_NEEDS = re.compile(r'^NEEDS = \((?!"libyds",\))', re.MULTILINE)
_RAN = re.compile(r"^Ran (\d+) tests? in ", re.MULTILINE)
_WRONG = re.compile(r"^FAILED \((.*)\)$", re.MULTILINE)


class Result(NamedTuple):
    """How the tests of a module ended."""

    module: str
    ran: int
    wrong: int
    told: str


def modules(built: bool = False) -> List[str]:
    """The modules that need Python's own library alone; or those that need the program and the library beside it."""
    texts = {path.stem: path.read_text(encoding="utf-8") for path in TESTS.glob("test_*.py")}
    calling = {name for name, text in texts.items() if "\nfrom called import " in text}
    asking = {name for name, text in texts.items() if not _NEEDS.search(text)} - calling
    return sorted(asking if built else calling)


def run(module: str, built: bool = False) -> Result:
    """Runs the tests of a module, without a program and a library if it isn't one of those that ask them."""
    environment = {name: value for name, value in os.environ.items() if built or name not in ("YDS", "YDS_LIBRARY")}
    environment.update(PYTHONPATH=str(ROOT / "python"), PYTHONDONTWRITEBYTECODE="1")
    command = [sys.executable, "-m", "unittest", module]
    done = subprocess.run(
        command, cwd=TESTS, env=environment, stdout=subprocess.PIPE, stderr=subprocess.STDOUT, check=False
    )
    told = done.stdout.decode("utf-8", "replace")
    ran, wrong = _RAN.search(told), _WRONG.search(told)
    count = sum(map(int, re.findall(r"(?:failures|errors)=(\d+)", wrong.group(1)))) if wrong else 0
    if ran is None or (done.returncode and not count):
        return Result(module, 0, 1, told)
    return Result(module, int(ran.group(1)), count, told)


def run_all(names: Sequence[str], built: bool) -> int:
    """Runs the modules side by side, and tells the sums. Gives the status."""
    least = LEAST_BUILT if built else LEAST
    with ThreadPoolExecutor(os.cpu_count() or 1) as pool:
        results = list(pool.map(lambda name: run(name, built), names))
    for result in results:
        if result.wrong:
            print(f"FAILED: {result.module}\n{result.told}", flush=True)
    ran, failed = sum(result.ran for result in results), sum(result.wrong for result in results)
    if list(names) == modules(built) and ran < least:
        print(f"{ran} tests, and there are at least {least}: some are missing")
        failed += 1
    print(f"{max(0, ran - sum(result.wrong for result in results))} passed, {failed} failed", flush=True)
    return int(failed > 0)


def main(words: Sequence[str]) -> int:
    """Runs the modules of these names, or all of the kind. Gives the status."""
    built = list(words[:1]) == ["--built"]
    return run_all(list(words[built:]) or modules(built), built)


if __name__ == "__main__":
    sys.exit(main(sys.argv[1:]))
