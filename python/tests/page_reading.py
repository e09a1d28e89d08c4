"""A page, read: its elements, its tables, and what must not be in it."""

from html.parser import HTMLParser
from typing import Dict, List, NamedTuple, Optional, Sequence, Tuple
from urllib.parse import unquote

EMPTY = frozenset(["meta", "br", "hr", "link", "img"])
"""Elements of HTML that have no end."""
FETCHING = frozenset(["link", "img", "iframe", "object", "embed", "audio", "video", "source", "base", "form", "a"])
REFERRING = frozenset(["href", "xlink:href", "src", "srcset", "action", "data", "poster", "background", "ping"])


class Cell(NamedTuple):
    """A cell of a table: its text, and the exact numbers in it."""

    text: str
    values: List[str]


class Node:
    """An element."""

    def __init__(self, tag: str, attributes: Dict[str, str], parent: "Optional[Node]") -> None:
        self.tag, self.attributes, self.parent = tag, attributes, parent
        self.children: "List[Node]" = []
        self.texts: List[str] = []

    @property
    def text(self) -> str:
        """The text within, in its order."""
        return "".join(self.texts)

    def all(self, tag: str) -> "List[Node]":
        """The elements of this kind within."""
        found = [self] if self.tag == tag else []
        for child in self.children:
            found += child.all(tag)
        return found


class Page(HTMLParser):
    """A page as a tree. AssertionError is raised where it isn't well-formed, or would fetch something."""

    def __init__(self, text: str, pages: Sequence[str] = ()) -> None:
        """pages are the files that it may lead to."""
        super().__init__(convert_charrefs=True)
        self._pages = pages
        self.root = self._now = Node("", {}, None)
        self.ids: Dict[str, Node] = {}
        assert all(ord(sign) < 128 and (sign.isprintable() or sign == "\n") for sign in text), "a sign that isn't plain"
        self.feed(text)
        self.close()
        assert self._now is self.root, f"{self._now.tag} has no end"

    def handle_starttag(self, tag: str, attributes: List[Tuple[str, Optional[str]]]) -> None:
        names = [name for name, _ in attributes]
        assert len(set(names)) == len(names), f"{tag} has an attribute twice"
        held = {name: value or "" for name, value in attributes}
        self._look_at(tag, held)
        node = Node(tag, held, self._now)
        self._now.children.append(node)
        if "id" in held:
            assert held["id"] not in self.ids, f"the id {held['id']} is there twice"
            self.ids[held["id"]] = node
        if tag not in EMPTY:
            self._now = node

    def handle_startendtag(self, tag: str, attributes: List[Tuple[str, Optional[str]]]) -> None:
        self.handle_starttag(tag, attributes)
        if tag not in EMPTY:
            self.handle_endtag(tag)

    def handle_endtag(self, tag: str) -> None:
        assert self._now.tag == tag, f"{tag} ends within {self._now.tag}"
        assert self._now.parent is not None
        self._now = self._now.parent

    def handle_data(self, data: str) -> None:
        node: Optional[Node] = self._now
        while node is not None:
            node.texts.append(data)
            node = node.parent

    def handle_comment(self, data: str) -> None:
        raise AssertionError(f"a comment: {data}")

    def _look_at(self, tag: str, attributes: Dict[str, str]) -> None:
        if tag == "a" and list(attributes) == ["href"] and unquote(attributes["href"]) in self._pages:
            return
        assert tag not in FETCHING, f"{tag} may fetch something"
        for name, value in attributes.items():
            assert not name.startswith("on"), f"{tag} has {name}"
            if name in REFERRING:
                assert value.startswith(("#", "data:image/png;base64,")), f"{tag} refers to {value[:60]}"
            if name == "style":
                for part in value.split("url(")[1:]:
                    assert part.startswith("#"), f"{tag} refers to {part[:60]}"

    def table(self, name: str) -> List[Dict[str, Cell]]:
        """The rows of the table of this id, each by its headings, which are cut at their units."""
        table = self.ids[name]
        heads = [one.text.split(" (")[0] for one in table.all("thead")[0].all("th")]
        rows = []
        for row in table.all("tbody")[0].all("tr"):
            cells = [_cell(one) for one in row.children]
            assert len(cells) == len(heads), f"{name}: {len(cells)} cells under {len(heads)} headings"
            rows.append(dict(zip(heads, cells)))
        return rows


def _cell(node: Node) -> Cell:
    return Cell(node.text, [one.attributes["value"] for one in node.all("data")])
