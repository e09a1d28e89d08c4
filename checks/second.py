"""second.py: the tests of the commands that need more than Python's own library (`make tools-test`).

    python3 checks/second.py [STEP ..]

A module of python/tests that has a line `NEEDS = ("matplotlib", ..)` is a step, and is run by unittest. Others are
mypy, ruff, and pytest on the modules of the gate. What a step needs is a module of Python, a program, or libyds, the
library that this checkout built or that YDS_LIBRARY names. A step that lacks something is left out. The last line is
'N passed, M failed', with what was left out and why; the status is 1 where M isn't 0.
"""

import os
import re
import subprocess
import sys
from concurrent.futures import ThreadPoolExecutor
from importlib.util import find_spec
from pathlib import Path
from shutil import which
from typing import Dict, List, NamedTuple, Sequence

from tools import ROOT, TESTS, modules

PACKAGES = {
    "matplotlib": "python3-matplotlib",
    "pytest": "python3-pytest",
    "hypothesis": "python3-hypothesis",
    "pandas": "python3-pandas",
    "distributed": "python3-distributed",
    "nbconvert": "jupyter-nbconvert",
}
"""Modules of Python, and the packages of Debian that have them."""
_NEEDS = re.compile(r"^NEEDS = \((.*)\)$", re.MULTILINE)
_RAN = re.compile(r"^Ran (\d+) tests? in ", re.MULTILINE)
_PYTEST = re.compile(r"(\d+) (passed|failed|error)")
_WRONG = re.compile(r"(?:failures|errors)=(\d+)")


class Step(NamedTuple):
    """A command, and what it needs."""

    name: str
    needs: Sequence[str]
    words: Sequence[str]


class Result(NamedTuple):
    """How many of its tests passed and failed, and what it wrote."""

    step: Step
    passed: int
    failed: int
    told: str


def library() -> Path:
    """The file of the library."""
    return Path(os.environ.get("YDS_LIBRARY") or ROOT / "build" / "libyds.so")


def steps() -> List[Step]:
    """All steps."""
    found = []
    for path in sorted(TESTS.glob("test_*.py")):
        told = _NEEDS.search(path.read_text(encoding="utf-8"))
        if told:
            found.append(Step(path.stem, re.findall(r'"([^"]+)"', told.group(1)), ("-m", "unittest", path.stem)))
    found.append(Step("mypy", ["mypy"], ("mypy", "--strict", "--no-incremental", str(ROOT / "python" / "yds"))))
    found.append(Step("ruff", ["ruff"], ("ruff", "check", str(ROOT / "python" / "yds"))))
    found.append(Step("pytest", ["pytest"], ("-m", "pytest", "-q", *(f"{name}.py" for name in modules()))))
    return found


def lacking(step: Step) -> str:
    """What the step needs and this machine hasn't; empty where it has all."""
    for need in step.needs:
        if need == "libyds":
            if not library().is_file():
                return "no libyds: make library"
        elif need in PACKAGES:
            if find_spec(need) is None:
                return f"no {need}: apt-get install {PACKAGES[need]}"
        elif which(need) is None:
            return f"no {need}: apt-get install {need}"
    return ""


def run(step: Step) -> Result:
    """Runs a step."""
    environment: Dict[str, str] = {**os.environ, "PYTHONPATH": str(ROOT / "python"), "PYTHONDONTWRITEBYTECODE": "1"}
    environment["YDS_LIBRARY"] = str(library())
    command = [sys.executable, *step.words] if step.words[0] == "-m" else list(step.words)
    done = subprocess.run(
        command, cwd=TESTS, env=environment, stdout=subprocess.PIPE, stderr=subprocess.STDOUT, check=False
    )
    told = done.stdout.decode("utf-8", "replace")
    ran, last = _RAN.search(told), told.rstrip().rsplit("\n", 1)[-1]
    if ran:
        failed = sum(map(int, _WRONG.findall(last)))
        passed = int(ran.group(1)) - failed
    else:
        counts = {kind: int(number) for number, kind in _PYTEST.findall(last)}
        passed = counts.get("passed", int(done.returncode == 0))
        failed = counts.get("failed", 0) + counts.get("error", 0)
    return Result(step, passed, max(failed, int(done.returncode != 0)), told)


def main(names: Sequence[str]) -> int:
    """Runs the steps of these names, or all, and tells the sums. Gives the status."""
    wanted = [step for step in steps() if not names or step.name in names]
    left_out = [f"{step.name} ({lacking(step)})" for step in wanted if lacking(step)]
    with ThreadPoolExecutor(os.cpu_count() or 1) as pool:
        results = list(pool.map(run, [step for step in wanted if not lacking(step)]))
    for result in results:
        print(f"{result.step.name}: {result.passed} passed, {result.failed} failed", flush=True)
        if result.failed:
            print(result.told, flush=True)
    passed, failed = sum(result.passed for result in results), sum(result.failed for result in results)
    more = f"; left out: {', '.join(left_out)}" if left_out else ""
    print(f"{passed} passed, {failed} failed{more}", flush=True)
    return int(failed > 0)


if __name__ == "__main__":
    sys.exit(main(sys.argv[1:]))
