"""yds-page: one file of HTML that tells all of a document, to send on."""

from __future__ import annotations

import hashlib
import io
import os
import re
import shlex
import sys
from itertools import count
from typing import TYPE_CHECKING, Callable, Iterator, List, Sequence, Tuple

from yds._found import answering
from yds._joined import Joined, shown
from yds._markup import markup
from yds._program import of_environment
from yds._text import STANDARD_INPUT, Line, base, lines_of
from yds._words import DONE, NO, Command, Files, Given, Option, WordsError, run
from yds.commands._idle import IDLE, names_of

if TYPE_CHECKING:
    from yds.page import Facts, Origin

COMMAND = Command(
    "yds-page",
    "one file of HTML that tells all of a document, to send on to somebody who has none of this",
    """
    yds-page points.txt trace.txt > page.html
    yds_cli round < jobs.txt > plan.txt && yds-page --title Plan plan.txt > plan.html
    yds-page --folder pages --points points.txt cpu0.txt cpu1.txt cpu2.txt

Input: the texts of one document with jobs and slots or runs, as of yds_trace, or of yds_cli plan, round, avr or oa;
points before them for the energies. Several texts are put together as by yds-join, which refuses other units.

Output: a page with

  the verdict of `yds_cli audit` in a line, and beside it what couldn't be judged, and whether that can hide a miss
  each task: jobs, misses, frames lost, responses, least slack, the period as measured beside the deadline as given
  the energies beside the least, the time at each point, the least constant speed, and what the top point leaves
  the worst three misses: who ran when around them, where their time went (ran, at which speeds; waited for listed
  tasks; waited for others, and for whom; from wake-up to first run), and whether the top speed throughout would have
  met them
  the speed over time beside the plan's, the slack of each job, the least work above each speed
  the first 200 misses, on the trace's clock; the document's comments; the command, and the sums of what was read

Who else ran is what comments tell, `# other NAME-PID FROM TO`, in ticks. Nothing in the page is fetched from elsewhere.
Its few lines of script make pictures larger; all is there without them. A rounded number has the exact one behind it.
The pictures need matplotlib. Without it the page has all the rest, and says which pictures are missing.

The answers are those of the program that the environment's YDS names, or of the library, or of yds_cli.
""",
    [
        Option("title", "what stands above the verdict (the names of the texts)", "TEXT"),
        Option("us", "microseconds in a unit of time, where no comment tells them", "N"),
        Option(
            "folder",
            "each TEXT is a document of its own: its page goes into this folder, and index.html there has a row for each, "
            "with its verdict",
            "DIR",
        ),
        Option("points", "with --folder: the points of all documents, put before each", "FILE"),
        Option("grid", "the grid of the two policies, as in `yds_cli compare --grid G` (720720)", "G"),
        IDLE,
    ],
    Files("TEXT", 0, None),
    "0 the page is written, whatever it tells; 1 a fault in the input, or a document without jobs, or without slots and "
    "runs; with --folder the other pages are written then; 2 a fault of the words.",
)


def main(words: Sequence[str]) -> int:
    """Writes the page of the files' document, or of standard input's; or a page for each file."""
    return run(COMMAND, words, lambda given, write: tell(given, write, words))


def tell(given: Given, write: Callable[[str], None], words: Sequence[str]) -> int:
    """Writes the page, or the pages and their index."""
    for name, value in (("us", given.us), ("grid", given.grid)):
        if value is not None and not re.fullmatch(r"[1-9][0-9]{0,11}", value):
            raise WordsError(f"--{name} {value} is no whole number of 1 or more")
    if given.folder is not None:
        return tell_folder(given, words)
    if given.points is not None:
        raise WordsError("--points is for --folder: without it give the points as the first text")
    texts = [(file, read(file)) for file in given.files or [STANDARD_INPUT]]
    write(written(given, words, texts, titled(given, [file for file, _ in texts]))[0].rstrip("\n"))
    return DONE


def titled(given: Given, files: Sequence[str]) -> str:
    """What stands above the verdict."""
    return given.title or ", ".join(base(called(file)) for file in files)


def written(given: Given, words: Sequence[str], texts: Sequence[Tuple[str, bytes]], title: str) -> Tuple[str, Facts]:
    """The page of these texts, and what it tells."""
    from yds import page

    us, grid = (None if value is None else int(value) for value in (given.us, given.grid))
    idle = names_of(given.idle)
    found = page.facts(joined(texts), of_environment(), page.GRID if grid is None else grid, us, idle)
    return page.written(found, origin(words, texts), title), found


def origin(words: Sequence[str], texts: Sequence[Tuple[str, bytes]]) -> Origin:
    """Where a page comes from."""
    from yds.page import Origin, versions

    sums = [(called(file), len(text), hashlib.sha256(text).hexdigest()) for file, text in texts]
    return Origin(shlex.join(["yds-page", *words]), sums, [*versions(), *answering()])


def tell_folder(given: Given, words: Sequence[str]) -> int:
    """Writes a page for each file, and an index of them. A file with a fault has a row that says so."""
    from yds.page import Entry, entry, index

    if not given.files:
        raise WordsError("--folder needs a file for each document")
    first = [] if given.points is None else [(given.points, read(given.points))]
    os.makedirs(given.folder, exist_ok=True)
    entries: List[Entry] = []
    texts: List[Tuple[str, bytes]] = []
    for file, name in zip(given.files, names(given.files)):
        try:
            text = (file, read(file))
            texts.append(text)
            page, found = written(given, words, [*first, text], titled(given, [file]))
        except (OSError, ValueError) as fault:
            told = f"{file} can't be read: {fault.strerror}" if isinstance(fault, OSError) else str(fault)
            sys.stderr.write("".join(sign if sign.isprintable() else "?" for sign in f"yds-page: {told}") + "\n")
            entries.append(Entry(file, "", "no", markup(f"there is no page: {told}"), 0, 0, ""))
            continue
        save(os.path.join(given.folder, name), page)
        entries.append(entry(file, name, found))
    save(
        os.path.join(given.folder, "index.html"),
        index(entries, origin(words, [*first, *texts]), given.title or given.folder),
    )
    return DONE if all(one.href for one in entries) else NO


def names(files: Sequence[str]) -> List[str]:
    """The name of each file's page, no two the same, and none that of the index."""
    found: List[str] = []
    taken = {"index.html"}
    for file in files:
        stem = os.path.splitext(os.path.basename(called(file)))[0] or "page"
        tried = (f"{stem}{'' if number == 1 else f'-{number}'}.html" for number in count(1))
        name = next(one for one in tried if one not in taken)
        taken.add(name)
        found.append(name)
    return found


def save(place: str, page: str) -> None:
    """Writes a page into its file."""
    with open(place, "w", encoding="ascii", newline="\n") as target:
        target.write(page)


def read(file: str) -> bytes:
    """The bytes of a text."""
    if file == STANDARD_INPUT:
        return sys.stdin.buffer.read()
    with open(file, "rb") as source:
        return source.read()


def called(file: str) -> str:
    """The name of a text."""
    return "standard input" if file == STANDARD_INPUT else file


def joined(texts: Sequence[Tuple[str, bytes]]) -> Iterator[Line]:
    """The lines of the texts, as of one document."""
    together = Joined()
    number = 0
    for file, text in texts:
        for line in lines_of(io.BytesIO(text), file):
            together.take(line)
            number += 1
            yield line
        together.finish(called(file))
    yield from taken(together, number)


def taken(together: Joined, number: int) -> List[Line]:
    """A comment on each text that tells no units, where another does."""
    if not together.told_by:
        return []
    told = f"tells no units: they are taken to be those of {shown(together.told_by)}"
    return [Line("-", number + place, f"# {shown(text)} {told}") for place, text in enumerate(together.untold, 1)]


if __name__ == "__main__":
    sys.exit(main(sys.argv[1:]))
