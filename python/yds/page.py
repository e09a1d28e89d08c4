"""A page to send on: one file of HTML that tells all of a document, to somebody who has none of this.

It has the verdict, what couldn't be judged, each task, the energies, the worst misses with where their time went, all
misses, and how to repeat it. Nothing in it is fetched from elsewhere. The pictures need matplotlib; without it the page
says which are missing.
"""

from __future__ import annotations

import hashlib
import io
import os
import sys
from typing import Any, Iterable, List, NamedTuple, Optional, Sequence, Union
from urllib.parse import quote

from yds._at_top import AtTop
from yds._facts import Facts, facts
from yds._look import SCRIPT, STYLE, policy
from yds._markup import LINE_FEED, NONE, Markup, element, join, shown, table
from yds._page_pictures import Pictures
from yds._program import Answer, of_environment
from yds._sections import (
    Origin,
    comments,
    energies,
    misses,
    more_than_least,
    repeat,
    section,
    speeds,
    tasks,
    unjudged,
    verdict_line,
)
from yds._text import Line, counted, lines_of
from yds._version import VERSION
from yds._worst import worst

__all__ = ["GRID", "AtTop", "Entry", "Facts", "Origin", "entry", "facts", "html", "html_of", "index", "written"]

GRID = 720720
"""So many parts of a unit of work do the policies count in, where nothing is said."""


def html(
    document: Union[bytes, str, Any],
    *,
    title: str = "",
    microseconds: Optional[int] = None,
    grid: int = GRID,
    answer: Optional[Answer] = None,
    idle: Sequence[str] = (),
) -> str:
    """The page of a document: a text in the form of docs/format.md, or what has one as `text`, as a Document does.

    title stands above the verdict. microseconds are those of a unit of time, where no comment tells them. grid is that
    of the policies. answer is called with words and a document, and gives a status of the program and its answer;
    without it the program answers that YDS names, or else the library. idle has the names of threads that don't count
    as others.

    The text is ASCII. ValueError is raised where the document has a fault, no job, or neither a slot nor a run.
    """
    text = document.encode("utf-8") if isinstance(document, str) else getattr(document, "text", document)
    data = bytes(text)
    origin = Origin("yds.page.html(document)", [("document", len(data), hashlib.sha256(data).hexdigest())], versions())
    return html_of(lines_of(io.BytesIO(data), "document"), origin, title, microseconds, grid, answer, idle)


def html_of(
    lines: Iterable[Line],
    origin: Origin,
    title: str = "",
    microseconds: Optional[int] = None,
    grid: int = GRID,
    answer: Optional[Answer] = None,
    idle: Sequence[str] = (),
) -> str:
    """The page of a document's lines, which says that it comes from there."""
    found = facts(lines, answer or of_environment(), grid, microseconds, idle)
    return written(found, origin, title or "A document")


class Entry(NamedTuple):
    """A row of an index: a document, and what its page tells, or why it has none."""

    name: str
    href: str
    """The page's file, beside the index; empty where there is none."""
    colour: str
    verdict: Markup
    jobs: int
    missed: int
    more: str
    """How much more than the least was spent."""


def entry(name: str, href: str, found: Facts) -> Entry:
    """The row of a document."""
    colour, line = verdict_line(found)
    return Entry(name, href, colour, line, len(found.given.jobs), len(found.missed), more_than_least(found))


def index(entries: Sequence[Entry], origin: Origin, title: str) -> str:
    """A page with a row for each document, which leads to the document's own page. In ASCII."""
    rows = []
    for one in entries:
        name = element("a", shown(one.name), href=quote(os.fsencode(one.href))) if one.href else shown(one.name)
        verdict = element("span", one.verdict, class_=f"told {one.colour}")
        rows.append([name, one.jobs or NONE, one.missed if one.href else NONE, one.more or NONE, verdict])
    heads = ("document", "jobs", "missed", "more than the least", "verdict")
    yes = sum(one.colour == "yes" for one in entries)
    told = f"{counted(yes, 'document', 'documents')} of {len(entries)} met every deadline"
    colour = "yes" if yes == len(entries) else "no"
    head = element("header", element("p", shown(title)), element("h1", told, class_=colour, id="verdict"))
    body = [
        head,
        table("A row for each document", heads, rows, "documents"),
        section("repeat", "To repeat it", repeat(origin)),
    ]
    return _page(title, join(body, LINE_FEED))


def versions() -> List[str]:
    """What made the page."""
    return [f"yds {VERSION}, Python {sys.version.split()[0]}"]


def written(found: Facts, origin: Origin, title: str) -> str:
    """The page of what was found, in ASCII."""
    pictures = Pictures(found)
    return _page(title, join([_head(found, title), *_parts(found, pictures, origin)], LINE_FEED))


def _page(title: str, body: Markup) -> str:
    """The whole file, in ASCII."""
    head = [
        element("meta", charset="utf-8"),
        element("meta", http_equiv="Content-Security-Policy", content=policy()),
        element("meta", name="viewport", content="width=device-width, initial-scale=1"),
        element("meta", name="generator", content=f"yds {VERSION}"),
        element("title", shown(title)),
        Markup(f"<style>{STYLE}</style>"),
    ]
    page = join(
        [
            Markup("<!doctype html>"),
            Markup('<html lang="en">'),
            element("head", *head),
            element("body", body, Markup(f"<script>{SCRIPT}</script>")),
            Markup("</html>"),
        ],
        LINE_FEED,
    )
    return page.encode("ascii", "xmlcharrefreplace").decode("ascii") + "\n"


def _head(found: Facts, title: str) -> Markup:
    colour, line = verdict_line(found)
    sign = {"yes": "\u2713 ", "no": "\u2717 ", "open": "? "}[colour]
    return element("header", element("p", shown(title)), element("h1", sign, line, class_=colour, id="verdict"))


def _parts(found: Facts, pictures: Pictures, origin: Origin) -> List[Markup]:
    """The sections in their order."""
    parts = [unjudged(found), pictures.missing()]
    parts.append(section("tasks", "By task", tasks(found)))
    parts.append(section("energy", "Energy", speeds(found), energies(found)))
    if found.worst:
        told = [worst(found, one, pictures.around(one)) for one in found.worst]
        parts.append(section("worst", "The worst misses", *told))
    drawn = [pictures.speed(), pictures.slack(), pictures.curve()]
    if any(drawn):
        parts.append(section("over-time", "Over time", *drawn))
    parts.append(section("misses", "All misses", misses(found)))
    parts.append(section("comments", "What the document tells", comments(found)))
    parts.append(section("repeat", "To repeat it", repeat(origin)))
    return [part for part in parts if part]
