"""Copies the pages for readers, with their pictures and examples: pages.py FOLDER, at the top of the repository.

    python3 packaging/pages.py FOLDER     into this folder, as they lie in the repository
    python3 packaging/pages.py --list     only tells their names

Packages and the archive of the program have no sources. So a link to a file that isn't among these becomes plain text,
and the last line of such a page says where that file is.
"""

import os
import re
import sys
from pathlib import Path
from typing import List, Tuple

ROOT = Path(__file__).resolve().parent.parent
PAGES = ["README.md", "CHANGELOG.md"] + [
    f"docs/{name}.md"
    for name in ("manual", "format", "library", "proved", "definitions", "ratios", "textbook", "performance")
]
BESIDE = ["docs/pictures/*.svg", "docs/pictures/*.png", "library/examples/*", "library/yds.h", "library/yds.hpp"]

_LINK = re.compile(r"\[([^\[\]]*)\]\(([^()\s]*)\)")
_ELSEWHERE = re.compile(r"[A-Za-z][A-Za-z0-9+.-]*:|#")


def names() -> List[str]:
    """The files, by their names in the repository."""
    beside = [path.relative_to(ROOT).as_posix() for form in BESIDE for path in ROOT.glob(form)]
    return sorted([*PAGES, *(name for name in beside if name != "docs/pictures/crates.svg")])


def without_dead_links(page: str, text: str, there: List[str]) -> Tuple[str, List[str]]:
    """The page's text with plain words in place of links to files that aren't there, and the names of these."""
    dead: List[str] = []

    def plain(link: "re.Match[str]") -> str:
        target = link.group(2).split("#")[0]
        path = os.path.normpath(os.path.join(os.path.dirname(page), target))
        if _ELSEWHERE.match(link.group(2)) or path in there:
            return link.group(0)
        dead.append(path)
        return link.group(1)

    return _LINK.sub(plain, text), sorted(set(dead))


def copy(folder: Path) -> None:
    """Writes all files into the folder."""
    there = names()
    for name in there:
        target = folder / name
        target.parent.mkdir(parents=True, exist_ok=True)
        if name.endswith(".md"):
            text, dead = without_dead_links(name, (ROOT / name).read_text(encoding="utf-8"), there)
            if dead:
                text += "\nThese files are in the archive of the sources alone:\n\n" + "".join(
                    f"- {file}\n" for file in dead
                )
            target.write_text(text, encoding="utf-8")
        else:
            target.write_bytes((ROOT / name).read_bytes())


if __name__ == "__main__":
    if sys.argv[1:] == ["--list"]:
        print("\n".join(names()))
    elif len(sys.argv) == 2:
        copy(Path(sys.argv[1]))
    else:
        sys.exit("pages.py: give a folder, or --list")
