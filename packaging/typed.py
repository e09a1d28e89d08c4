"""Types what the pages say: each command of a page, in a shell, as a reader would, and compares what is shown.

    python3 packaging/typed.py [--log FILE] [--leave-out TITLE ..] [--shared FOLDER] PAGE ..

A command is a line of a code block that begins with `$ `, its further lines begin with `> `, and what is shown stands
below it. Each section (`##`) is a session of bash in a new folder, with links to what FOLDER has, which is
/usr/share/yds_cli without that word. A command that needs a package that isn't installed is left out, and so are those
behind it in its part of the section (a picture alone: no command reads pictures), and later ones that miss a file of
these, with what they change behind them. FILE gets each command with what was shown. The last line is 'N passed, M
failed', and before it stands how many were left out and why; the status is 1 where M isn't 0.
"""

from __future__ import annotations

import argparse
import os
import re
import shutil
import subprocess
import sys
import tempfile
from pathlib import Path
from typing import Dict, List, NamedTuple, Optional, Set, TextIO

SHARED = "/usr/share/yds_cli"
NEEDED = {"jq": re.compile(r"\bjq "), "parallel": re.compile(r"\bparallel "), "pictures": re.compile(r"\byds-plot\b")}
PLACE = re.compile(r"^.*: line [0-9]+: ", re.MULTILINE)


class Command(NamedTuple):
    """A command of a page, and what the page shows below it."""

    line: int
    section: str
    part: int
    text: str
    shown: str


def commands(page: Path) -> List[Command]:
    """The commands of a page, in their order."""
    found: List[Command] = []
    section, part, in_block, told = "", 0, False, False
    for number, line in enumerate(page.read_text(encoding="utf-8").split("\n"), 1):
        if line.startswith("#"):
            section = line.strip("# ") if line.startswith("## ") else section
            part += 1
        code = line[4:] if line.startswith("    ") else None
        if code is None:
            in_block = False
        elif code.startswith("$ "):
            found.append(Command(number, section, part, code[2:] + "\n", ""))
            in_block, told = True, True
            continue
        elif in_block and told and code.startswith("> "):
            found[-1] = found[-1]._replace(text=found[-1].text + code[2:] + "\n")
            continue
        elif in_block:
            found[-1] = found[-1]._replace(shown=found[-1].shown + code + "\n")
        told = False
    return found


def missing() -> Dict[str, str]:
    """What isn't installed here, with its reason."""
    told = {name: f"{name} isn't installed" for name in ("jq", "parallel") if shutil.which(name) is None}
    draws = [sys.executable, "-c", "import matplotlib"]
    if subprocess.run(draws, stderr=subprocess.DEVNULL, check=False).returncode:
        told["pictures"] = "matplotlib is not installed"
    return told


def typed(given: List[Command], folder: Path, shared: Path) -> List[str]:
    """What is shown at each command of a section, in one session of bash."""
    (folder / ".typed").mkdir()
    for each in shared.iterdir():
        (folder / each.name).symlink_to(each)
    names = [folder / ".typed" / f"{place:03d}" for place in range(len(given))]
    for name, command in zip(names, given):
        name.write_text(command.text, encoding="utf-8")
    session = 'last=0; for name in "$@"; do (exit $last); . "$name" >"$name.shown" 2>&1; last=$?; done'
    words = ["bash", "-c", session, "bash", *map(str, names)]
    subprocess.run(words, cwd=folder, stdin=subprocess.DEVNULL, check=False)
    shown = []
    for name in names:
        place = Path(f"{name}.shown")
        text = place.read_bytes().decode("utf-8", "replace") if place.exists() else "(the session ended before)\n"
        shown.append(PLACE.sub("bash: ", text))
    return shown


class Count:
    """What passed, what failed, and what was left out for which reason."""

    def __init__(self, log: Optional[TextIO]) -> None:
        self.log = log
        self.passed = self.failed = 0
        self.left_out: Dict[str, int] = {}

    def note(self, text: str) -> None:
        if self.log is not None:
            self.log.write(text)

    def leave_out(self, command: Command, reason: str) -> None:
        self.left_out[reason] = self.left_out.get(reason, 0) + 1
        self.note(f"$ {command.text}(left out: {reason})\n")

    def take(self, page: Path, command: Command, shown: str) -> None:
        """Compares what was shown with the page."""
        self.note(f"$ {command.text}{shown}")
        if shown == command.shown:
            self.passed += 1
            return
        self.failed += 1
        self.note(f"(the page shows another text)\n{command.shown}(so far the page)\n")
        print(
            f"FAILED: {page.name}, line {command.line}: {command.text.rstrip()}\nshown:\n{shown}the page:\n{command.shown}",
            end="",
        )


def try_section(page: Path, given: List[Command], absent: Dict[str, str], shared: Path, count: Count) -> None:
    """Types the commands of a section that can be typed here."""
    count.note(f"\n== {page.name}: {given[0].section}\n")
    kept: List[Command] = []
    stopped: Dict[int, str] = {}
    for command in given:
        reasons = [absent[name] for name in absent if NEEDED[name].search(command.text)]
        reason = stopped.get(command.part) or (reasons[0] if reasons else "")
        if not reason:
            kept.append(command)
            continue
        if reason != absent.get("pictures"):
            stopped[command.part] = reason
        count.leave_out(command, reason)
    without: Set[int] = set()
    with tempfile.TemporaryDirectory() as folder:
        for command, shown in zip(kept, typed(kept, Path(folder), shared)):
            lacks_a_file = bool(stopped) and "No such file or directory" in shown
            if shown != command.shown and (lacks_a_file or command.part in without):
                without.add(command.part)
                count.leave_out(command, "needs a file of a command that was left out")
            else:
                count.take(page, command, shown)


def main(words: List[str]) -> int:
    parser = argparse.ArgumentParser()
    parser.add_argument("--log")
    parser.add_argument("--leave-out", action="append", default=[])
    parser.add_argument("--shared", default=SHARED)
    parser.add_argument("pages", nargs="+")
    options = parser.parse_args(words)
    absent = missing()
    with open(options.log or os.devnull, "a", encoding="utf-8") as log:
        count = Count(log)
        for name in options.pages:
            page = Path(name)
            found = commands(page)
            for section in dict.fromkeys(command.section for command in found):
                given = [command for command in found if command.section == section]
                if section in options.leave_out:
                    for command in given:
                        count.leave_out(command, "takes minutes")
                    continue
                try_section(page, given, absent, Path(options.shared).resolve(), count)
    for reason, number in count.left_out.items():
        print(f"left out: {number} commands, {reason}")
    print(f"{count.passed} passed, {count.failed} failed")
    return int(count.failed > 0)


if __name__ == "__main__":
    sys.exit(main(sys.argv[1:]))
