"""gate.py: the merge gate (`make gate`).

    python3 checks/gate.py [--kept FILE]

It has stages, each of which is begun only if the one before it passed. What needs no proof comes first, since it fails
within a minute or two and the proofs take most of an hour: the checks of the pages, of the tools and of their tests.
Then `rt ci` proves all crates. Over what it has proved, the edits that a proof must refuse are tried, and what it has
built is held against what is stored or drawn. The commands of the first stage run side by side. The others take all
processors themselves, and what they write is passed through as it comes.

What the gate needs and isn't there is named before anything is run. FILE has what `rt ci` kept elsewhere
(packaging/kept.py).

Each command ends with the line 'N passed, M failed' (runner.py), and the gate's last line has the sums. The gate's status
is 0 where nothing failed. Else it is that of the first command that failed, as a shell tells it, and 1 where that one
ended with 0.
"""

import argparse
import re
import sys
import time
from collections.abc import Sequence
from pathlib import Path
from typing import NamedTuple

import needs
from runner import NOTHING, ROOT, Beside, Command, Result, in_words, lanes, name_of, processors, run, write_through

sys.path.insert(0, str(ROOT / "packaging"))

import kept  # noqa: E402
import prove  # noqa: E402

# What needs no proof, in the order in which it is begun. A new check is a line here.
CHECKS: list[Command] = [
    (sys.executable, "checks/tools.py"),
    (sys.executable, "checks/test_checks.py"),
    (sys.executable, "checks/test_gate.py"),
    (sys.executable, "checks/test_prove.py"),
    (sys.executable, "docs/check.py"),
    (sys.executable, "docs/api.py", "--check"),
    (sys.executable, "checks/test_edits.py"),
    (sys.executable, "checks/edits/test_rounds.py"),
    (sys.executable, "docs/edits.py", "--check"),
    (sys.executable, "checks/test_uncalled.py"),
    (sys.executable, "checks/test_believed.py"),
    (sys.executable, "checks/test_everywhere.py"),
    (sys.executable, "robustness/planted.py", "--check"),
    (sys.executable, "robustness/planted_answers.py", "--check"),
    (sys.executable, "robustness/answers.py", "rows"),
    (sys.executable, "robustness/executions.py", "--count", "400"),
    (sys.executable, "docs/uncalled.py", "--check"),
]

PROOFS: Command = ("rt", "ci")
EDITS: Command = (sys.executable, "checks/edits/edits.py")
ROUNDS: Command = (sys.executable, "checks/edits/test_rounds.py", "--prover")
BUILT: Command = (sys.executable, "checks/built.py")


class Stage(NamedTuple):
    """Commands, whether they run side by side, and the seconds that they take on four processors where nothing is kept."""

    commands: Sequence[Command]
    beside: bool
    seconds: float


# Measured on four processors of 2.5 GHz.
STAGES = [
    Stage(CHECKS, True, 20),
    Stage([PROOFS], False, 1980),
    Stage([EDITS, ROUNDS], False, 140),
    Stage([BUILT], False, 80),
]

_CRATE = re.compile(rb"^rt: (\w+) (proved$|is kept: )")


class Proofs:
    """How far `rt ci` is, by the lines that it writes as a crate is done."""

    def __init__(self) -> None:
        graph = prove.read_graph((ROOT / "crates.txt").read_text(encoding="utf-8"))
        self.last = prove.read_seconds(prove.KEPT)
        expected = prove.expected_of(self.last, prove.read_seconds(prove.SHARED))
        self.progress = prove.Progress(graph, set(graph), expected)
        self.began = time.monotonic()
        self.kept: set[str] = set()
        self.rest = b""

    def sink(self, told: bytes) -> None:
        """Passes through what it writes, and behind the line of a crate how many are done."""
        whole, newline, rest = (self.rest + told).rpartition(b"\n")
        self.rest = rest
        for line in whole.splitlines() if newline else []:
            write_through(line + b"\n")
            found = _CRATE.match(line)
            if found:
                now, crate = time.monotonic() - self.began, found[1].decode()
                self.progress.end(crate, now)
                self.kept.update([crate] if found[2] != b"proved" else [])
                write_through(f"gate: {self.progress.line(now)}\n".encode())

    def end(self, passed: bool) -> None:
        """Writes the last line, if it has no end; and keeps how long each crate took that was proved."""
        write_through(self.rest)
        if passed:
            took = {crate: each for crate, each in self.progress.spent().items() if crate not in self.kept}
            prove.BUILD.mkdir(exist_ok=True)
            prove.write_seconds(prove.KEPT, {**self.last, **took})


def prove_all() -> Result:
    """Runs `rt ci`."""
    proofs = Proofs()
    result = run(PROOFS, proofs.sink)
    proofs.end(result.failed == 0)
    return result


def run_stage(stage: Stage) -> Result:
    """Runs the commands of a stage, and tells how long each took."""
    if stage.beside:
        return Beside(stage.commands).run(lanes(1))
    result = NOTHING
    for command in stage.commands:
        began = time.monotonic()
        one = prove_all() if command == PROOFS else run(command)
        print(f"gate: {name_of(command)}: {one.line()}, {in_words(time.monotonic() - began)}", flush=True)
        result = result.and_then(one)
    return result


def run_stages(stages: Sequence[Stage]) -> int:
    """Runs the stages up to the first that fails, names what is left out, and tells the sums. Gives the gate's status."""
    result, began = NOTHING, time.monotonic()
    for number, stage in enumerate(stages):
        result = result.and_then(run_stage(stage))
        left = [name_of(command) for later in stages[number + 1 :] for command in later.commands]
        if result.failed and left:
            print(f"gate: not tried, since what comes before it failed: {', '.join(left)}")
            break
    print(f"gate: {in_words(time.monotonic() - began)} on {processors()} processors")
    print(result.line(), flush=True)
    return result.status


def forecast(stages: Sequence[Stage]) -> str:
    """How long the gate takes here, where nothing is kept, by what it took on four processors."""
    minutes = sum(stage.seconds for stage in stages) * 4 / min(4, processors()) / 60
    less = "where nothing is kept, and less where rt ci kept what it proved"
    return f"about {minutes:.0f} minutes on {processors()} processors {less}"


def main(words: Sequence[str]) -> int:
    """Runs the gate. Gives its status."""
    parser = argparse.ArgumentParser(prog="gate.py", allow_abbrev=False)
    parser.add_argument("--kept", type=Path)
    options = parser.parse_args(words)
    lacking = needs.lacking()
    for line in lacking:
        print(f"gate: {line}")
    if lacking:
        print(f"0 passed, {len(lacking)} failed", flush=True)
        return 1
    print(f"gate: {forecast(STAGES)}", flush=True)
    if needs.free_disk(str(ROOT)) < needs.DISK:
        print(f"gate: {needs.free_disk(str(ROOT)):.0f} GB of disk are free, and it takes up to {needs.DISK}", flush=True)
    if options.kept is not None and kept.main(["unpack", str(options.kept)]):
        print("0 passed, 1 failed", flush=True)
        return 1
    return run_stages(STAGES)


if __name__ == "__main__":
    sys.exit(main(sys.argv[1:]))
