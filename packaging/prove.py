"""prove.py: proves the crates of the program, of the library or all others, and tells how far it is (`make` calls it).

    python3 packaging/prove.py program [--jobs N] [--example FILE]    what the program is made of, and builds it
    python3 packaging/prove.py trace [--jobs N]                       what the reader of traces is made of, and builds it
    python3 packaging/prove.py library                                the C library's own crate, and builds it
    python3 packaging/prove.py others [--jobs N]                      all other crates
    python3 packaging/prove.py record                                 proves nothing: writes packaging/crate-seconds

With an example it first tells what the program answers to `plan` of that document, unproved.

Each line tells how many crates are done of how many, and about how long the others take. That goes by the seconds that
each crate took in the last run, which are kept in build/crate-seconds, also by the gate. A first run goes by
packaging/crate-seconds, which `record` writes of them: it names each crate of crates.txt that was never proved here, and
then it writes nothing and ends with 1. Of such a list only the shares matter: the crates that are done tell the pace.
What `rt` writes is kept in build/log.
"""

import argparse
import os
import select
import subprocess
import sys
import time
from pathlib import Path
from typing import Callable, Dict, Iterator, List, NamedTuple, Optional, Sequence, Set

ROOT = Path(__file__).resolve().parent.parent
BUILD = ROOT / "build"
LOG = BUILD / "log"
KEPT = BUILD / "crate-seconds"
SHARED = ROOT / "packaging" / "crate-seconds"

# The crate on which all others stand, and what they are made into.
LOWEST, PROGRAM, TRACE, LIBRARY = "base", "yds_cli", "yds_trace_cli", "yds_c"

# A crate that took less than this part of its time was proved before, and tells nothing of the pace.
WAS_KEPT = 0.1

# After so many seconds without a crate the time that is left is told again.
SILENCE = 60

Seconds = Dict[str, float]
Graph = Dict[str, List[str]]


def read_graph(text: str) -> Graph:
    """Reads crates.txt: each crate, and those of them that it stands on."""
    named: Dict[str, List[str]] = {}
    for line in text.splitlines():
        head, colon, rest = line.partition("#")[0].partition(":")
        if colon:
            named[head.split()[0]] = rest.split()
    return {crate: [other for other in below if other in named] for crate, below in named.items()}


def all_below(graph: Graph, crate: str) -> Set[str]:
    """Gives the crates that a crate stands on, however far below, and the crate."""
    found: Set[str] = set()
    wanted = [crate]
    while wanted:
        one = wanted.pop()
        if one not in found:
            found.add(one)
            wanted += graph[one]
    return found


def read_seconds(path: Path) -> Seconds:
    """Reads a list of crates and their seconds, a line each. There may be none."""
    if not path.is_file():
        return {}
    lines = (line.split() for line in path.read_text(encoding="utf-8").splitlines() if not line.startswith("#"))
    return {name: float(seconds) for name, seconds in lines}


def write_seconds(path: Path, seconds: Seconds) -> None:
    """Writes such a list."""
    path.write_text("".join(f"{name} {took:.1f}\n" for name, took in sorted(seconds.items())), encoding="utf-8")


def record(graph: Graph, last: Seconds) -> int:
    """Writes the list for first runs, of all crates as they took here. Gives the exit status."""
    missing = sorted(set(graph) - set(last))
    if missing:
        print(f"prove.py: nothing is known of {' '.join(missing)}: make run, make trace and make prove them", file=sys.stderr)
        return 1
    head = (
        f"# Seconds that each crate took, on {os.cpu_count()} processors, from when the crates below it were done. A first run goes by\n"
        "# their shares: build/crate-seconds has those of this machine. `make crate-seconds` writes this list of them.\n"
    )
    SHARED.write_text(head + "".join(f"{crate} {last[crate]:.0f}\n" for crate in sorted(graph)), encoding="utf-8")
    return 0


def expected_of(last: Seconds, first: Seconds) -> Seconds:
    """Gives what crates are expected to take: what they took in the last run, or else their share by the first list."""
    common = [crate for crate in last if crate in first]
    pace = sum(last[crate] for crate in common) / sum(first[crate] for crate in common) if common else 1.0
    return {**{crate: pace * seconds for crate, seconds in first.items()}, **last}


class Progress:
    """How far the proofs of some crates are. All times are seconds since they began."""

    def __init__(self, graph: Graph, crates: Set[str], expected: Seconds) -> None:
        self.below = {crate: [other for other in graph[crate] if other in crates] for crate in crates}
        known = [expected[crate] for crate in crates if crate in expected]
        usual = sum(known) / len(known) if known else 60.0
        self.expected = {crate: expected.get(crate, usual) for crate in crates}
        self.ended: Seconds = {}

    def end(self, crate: str, now: float) -> None:
        """A crate is done. What is none of these, or was told before, is passed over."""
        if crate in self.below:
            self.ended.setdefault(crate, now)

    def begun(self, crate: str) -> float:
        """When a crate could begin, all below it being done."""
        return max((self.ended[other] for other in self.below[crate]), default=0.0)

    def spent(self) -> Seconds:
        """What each crate took, from when it could begin, whether or not it was proved in this run."""
        return {crate: ended - self.begun(crate) for crate, ended in self.ended.items() if self.could_begin(crate)}

    def took(self) -> Seconds:
        """What each crate took that seems to have been proved in this run."""
        return {crate: took for crate, took in self.spent().items() if took >= WAS_KEPT * self.expected[crate]}

    def could_begin(self, crate: str) -> bool:
        """Whether all below a crate are done."""
        return all(other in self.ended for other in self.below[crate])

    def pace(self) -> float:
        """How much longer the crates take than was expected."""
        took = self.took()
        expected = sum(self.expected[crate] for crate in took)
        return sum(took.values()) / expected if expected else 1.0

    def left(self, now: float) -> float:
        """About how long the others take: the longest chain of crates that are left."""
        pace, ends = self.pace(), dict(self.ended)

        def end_of(crate: str) -> float:
            if crate not in ends:
                wanted = pace * self.expected[crate]
                began = max((end_of(other) for other in self.below[crate]), default=0.0)
                # A crate that takes longer than was expected takes a while yet.
                ends[crate] = max(began + wanted, now + WAS_KEPT * wanted)
            return ends[crate]

        return max((end_of(crate) - now for crate in self.below if crate not in self.ended), default=0.0)

    def line(self, now: float) -> str:
        """How many are done of how many, and how long the others take."""
        return f"{len(self.ended)} of {len(self.below)}, {in_words(self.left(now))} left"


def in_words(seconds: float) -> str:
    """A time in minutes, or a short one in tens of seconds."""
    if seconds >= 90:
        return f"about {seconds / 60:.0f} minutes"
    return f"about {max(10, 10 * round(seconds / 10))} seconds"


class Step(NamedTuple):
    """A command of `rt`, the folder that it runs in, and the crate that is done when it ends, if one is."""

    command: Sequence[str]
    folder: Path
    crate: Optional[str]


def lines_of(step: Step) -> Iterator[str]:
    """Runs a step: tells each line that it writes, and '' where it was silent for a while. A failure is an error."""
    process = subprocess.Popen(
        step.command, cwd=step.folder, stdin=subprocess.DEVNULL, stdout=subprocess.PIPE, stderr=subprocess.STDOUT
    )
    assert process.stdout is not None
    pipe, rest = process.stdout.fileno(), b""
    while True:
        if not select.select([pipe], [], [], SILENCE)[0]:
            yield ""
            continue
        told = os.read(pipe, 65536)
        if not told:
            break
        *lines, rest = (rest + told).split(b"\n")
        yield from (line.decode(errors="replace") + "\n" for line in lines)
    if rest:
        yield rest.decode(errors="replace")
    if process.wait():
        raise subprocess.CalledProcessError(process.returncode, step.command)


def prove(steps: Sequence[Step], progress: Progress, clock: Callable[[], float]) -> None:
    """Runs the steps, and tells each crate as it is done: one that has a step of its own when that ends."""
    own = [step.crate for step in steps]
    print(progress.line(clock()), flush=True)
    with LOG.open("w", encoding="utf-8") as log:
        for step in steps:
            for line in lines_of(step):
                log.write(line)
                log.flush()
                if line.startswith("== ") and line[3:].strip() not in own:
                    tell(progress, line[3:].strip(), clock())
                elif not line:
                    print(progress.line(clock()), flush=True)
            if step.crate is not None:
                tell(progress, step.crate, clock())


def tell(progress: Progress, crate: str, now: float) -> None:
    """A crate is done, which is told once."""
    if crate in progress.below and crate not in progress.ended:
        progress.end(crate, now)
        print(f"{crate}: {progress.line(now)}", flush=True)


def steps_of(what: str, jobs: int) -> List[Step]:
    """What is run: the crate on which all others stand comes first, on all processors, then the others side by side."""
    crates = ROOT / "crates"
    check = ["rt", "all", "check", "--jobs", str(jobs)]
    if what == "library":
        return [Step(["rt", "lib"], crates / LIBRARY, LIBRARY)]
    if what == "others":
        return [Step(check, ROOT, None)]
    if what == "trace":
        return [
            Step(["rt", "lib"], crates / LOWEST, LOWEST),
            Step(check, crates / TRACE, None),
            Step(["rt", "run", TRACE, "--", "--version"], crates / TRACE, TRACE),
        ]
    return [
        Step(["rt", "lib"], crates / LOWEST, LOWEST),
        Step(check, crates / PROGRAM, None),
        Step(["rt", "run", PROGRAM, "--", "plan"], crates / PROGRAM, PROGRAM),
    ]


def crates_of(what: str, graph: Graph) -> Set[str]:
    """Which crates these are."""
    if what == "library":
        return {LIBRARY}
    if what == "trace":
        return all_below(graph, TRACE)
    return all_below(graph, PROGRAM) if what == "program" else set(graph) - all_below(graph, PROGRAM)


def show_unproved(example: str) -> None:
    """Tells what the program answers to `plan` of a document, before any proof."""
    print(f"Before any proof, the program as its sources have it, {PROGRAM} plan < {example}:", flush=True)
    with open(ROOT / example, "rb") as document, (BUILD / "try.log").open("wb") as log:
        tried = subprocess.run(
            ["rt", "try", PROGRAM, "--", "plan"],
            cwd=ROOT / "crates" / PROGRAM, stdin=document, stdout=subprocess.PIPE, stderr=log,
        )
    if tried.returncode:
        print("It could not be run unproved, as build/try.log says.", flush=True)
    else:
        print(tried.stdout.decode(errors="replace"), end="", flush=True)
        print("That was unproved. The proofs come now, and then the same from the proved program.", flush=True)


def main(words: Sequence[str]) -> int:
    """Proves what the words say. Gives the exit status."""
    parser = argparse.ArgumentParser(prog="prove.py", allow_abbrev=False)
    parser.add_argument("what", choices=("program", "trace", "library", "others", "record"))
    parser.add_argument("--jobs", type=int, default=os.cpu_count() or 1)
    parser.add_argument("--example")
    options = parser.parse_args(words)
    BUILD.mkdir(exist_ok=True)
    if options.example is not None:
        show_unproved(options.example)
    graph = read_graph((ROOT / "crates.txt").read_text(encoding="utf-8"))
    last = read_seconds(KEPT)
    if options.what == "record":
        return record(graph, last)
    expected = expected_of(last, read_seconds(SHARED))
    progress = Progress(graph, crates_of(options.what, graph), expected)
    began = time.monotonic()
    try:
        prove(steps_of(options.what, options.jobs), progress, lambda: time.monotonic() - began)
    except subprocess.CalledProcessError as error:
        end = "".join(LOG.read_text(encoding="utf-8").splitlines(keepends=True)[-40:])
        ended = f"{' '.join(error.cmd)} ended with status {error.returncode}"
        print(f"{end}prove.py: {ended}; build/log has the rest", file=sys.stderr)
        return 1
    write_seconds(KEPT, {**last, **progress.took()})
    print(f"Proved {options.what} in {time.monotonic() - began:.0f} seconds.", flush=True)
    return 0


if __name__ == "__main__":
    sys.exit(main(sys.argv[1:]))
