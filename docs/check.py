"""check.py: holds every page to one width, and looks whether every link leads somewhere.

    python3 docs/check.py [FOLDER]

A page is a file NAME.md of the repository, or of FOLDER. Its lines have at most 120 columns. Code blocks, rows of
tables and lines that are one link or one picture may be longer. A link leads to a file of the repository, and with
#NAME to a heading of that page. Links to other places aren't followed, and their number is told.

A fault is told with its file and line. The last line is 'N passed, M failed': N pages that are narrow enough and links
that lead somewhere, M lines that are too long and links that lead nowhere. The status is 1 where M isn't 0, and else 0.
"""

import os
import re
import sys
from pathlib import Path
from typing import Dict, Iterator, List, NamedTuple, Optional, Set

WIDTH = 120

# Folders that aren't of the repository.
BUILT = {"build", "out", "debian", "__pycache__", ".git"}

CODE_SPAN = re.compile(r"`(?:[^`\n]|\n(?!\s*\n))*`")
LINK = re.compile(r"\]\(([^)\n]*)\)|^\[[^\]\n]+\]:[ ]*(.*)$", re.MULTILINE)
LONE_LINK = re.compile(r"\s*(?:[-*+] |\d+\. )?!?\[[^\[\]]*\]\([^()\s]*\)[.,;:]?")
ELSEWHERE = re.compile(r"[A-Za-z][A-Za-z0-9+.-]*:")
FENCE = re.compile(r" {0,3}(```|~~~)")


class Fault(NamedTuple):
    """What is wrong at a line of a page."""

    line: int
    text: str


class Link(NamedTuple):
    """Where a link leads, as the page has it: FILE, FILE#HEADING or #HEADING."""

    line: int
    target: str


def page_files(root: Path) -> List[Path]:
    """All pages, in the order of their names."""
    pages = []
    for folder, folders, files in os.walk(root):
        folders[:] = [name for name in folders if name not in BUILT and not name.startswith(".")]
        pages += [Path(folder, name) for name in files if name.endswith(".md")]
    return sorted(pages)


def without_code(text: str) -> List[str]:
    """The lines of a page, with an empty line in place of each line of a code block."""
    lines: List[str] = []
    in_paragraph, fence = False, ""
    for line in text.splitlines():
        mark = FENCE.match(line)
        if fence or (mark and not line.startswith("    ")):
            if mark:
                fence = "" if mark.group(1) == fence else fence or mark.group(1)
            lines.append("")
            in_paragraph = False
        elif line.startswith(("    ", "\t")) and not in_paragraph:
            lines.append("")
        else:
            lines.append(line)
            in_paragraph = bool(line.strip()) and not line.startswith("#")
    return lines


def too_long(lines: List[str]) -> List[Fault]:
    """The lines that are longer than a page is wide."""
    return [
        Fault(number, f"{len(line)} columns, and a page has {WIDTH}")
        for number, line in enumerate(lines, 1)
        if len(line) > WIDTH and not line.startswith("|") and not LONE_LINK.fullmatch(line)
    ]


def links(lines: List[str]) -> Iterator[Link]:
    """The links of a page. What stands in code is no link."""
    text = CODE_SPAN.sub(lambda span: re.sub(r"[^\n]", "x", span.group()), "\n".join(lines))
    for found in LINK.finditer(text):
        words = (found.group(1) or found.group(2) or "").split()
        yield Link(text.count("\n", 0, found.start()) + 1, words[0] if words else "")


def heading_names(lines: List[str]) -> Set[str]:
    """The names by which links lead to the headings of a page. The second heading of one text ends with -1."""
    names: Dict[str, int] = {}
    for line in lines:
        found = re.match(r"#{1,6} +(.*?)[ #]*$", line)
        if found:
            shown = re.sub(r"!?\[([^\]]*)\]\([^)]*\)", r"\1", found.group(1))
            name = re.sub(r"[^\w\- ]", "", shown.lower()).replace(" ", "-")
            before = names.get(name, 0)
            names[name] = before + 1
            if before:
                names[f"{name}-{before}"] = 1
    return set(names)


class Pages:
    """The pages of a repository."""

    def __init__(self, root: Path) -> None:
        self.root = root.resolve()
        self.lines = {path: without_code(path.read_text(encoding="utf-8")) for path in page_files(self.root)}
        self.names = {path: heading_names(lines) for path, lines in self.lines.items()}

    def is_file(self, path: Path) -> bool:
        """Whether it is a file or a folder of the repository."""
        if path != self.root and self.root not in path.parents:
            return False
        return path.exists() and BUILT.isdisjoint(path.relative_to(self.root).parts)

    def fault_of(self, page: Path, link: Link) -> Optional[Fault]:
        """Why a link of a page leads nowhere; None where it leads somewhere."""
        file, mark, heading = link.target.partition("#")
        path = Path(os.path.normpath(page.parent / file)) if file else page
        if not link.target:
            return Fault(link.line, "a link without a target")
        if not self.is_file(path):
            return Fault(link.line, f"a link to {link.target}, and there is no such file here")
        if mark and heading not in self.names.get(path, set()):
            return Fault(link.line, f"a link to {link.target}, and {path.name} has no such heading")
        return None


def main(arguments: List[str]) -> int:
    pages = Pages(Path(arguments[0]) if arguments else Path(__file__).parent.parent)
    passed = failed = elsewhere = 0
    for page, lines in pages.lines.items():
        faults = too_long(lines)
        passed += not faults
        for link in links(lines):
            if ELSEWHERE.match(link.target):
                elsewhere += 1
                continue
            fault = pages.fault_of(page, link)
            passed += fault is None
            faults += [fault] if fault else []
        failed += len(faults)
        for fault in sorted(faults):
            print(f"{page.relative_to(pages.root)}:{fault.line}: {fault.text}")
    if not pages.lines:
        print(f"no page in {pages.root}")
        failed += 1
    if elsewhere:
        print(f"links out of the repository, which weren't followed: {elsewhere}")
    print(f"{passed} passed, {failed} failed")
    return 1 if failed else 0


if __name__ == "__main__":
    sys.exit(main(sys.argv[1:]))
