"""A picture of matplotlib's as SVG that can stand in a page beside others: ids of its own, its words, and no style."""

from __future__ import annotations

import re
from typing import Any, Optional
from xml.etree import ElementTree

from yds._canvas import plain, saved

SVG, LINK = "http://www.w3.org/2000/svg", "http://www.w3.org/1999/xlink"
_NAMED = re.compile(r"url\(#([^)]+)\)")


def drawn(axes: Any, prefix: str, title: Optional[str], told: Optional[str] = None) -> str:
    """The figure of the axes as SVG for a page. Without title and told they are of the axes' own label."""
    told = axes.get_label() if told is None else told
    title = told.split(". ")[0] if title is None else title
    return standing_alone(saved(axes.figure, "svg"), prefix, plain(title), plain(told))


def standing_alone(text: bytes, prefix: str, title: str, told: str) -> str:
    """The SVG with each id behind the prefix, a title, and a description for who can't see it.

    matplotlib's style for all that a page has goes into the picture's own element, and what it tells of itself is left
    out. Sizes are in pixels.
    """
    ElementTree.register_namespace("", SVG)
    ElementTree.register_namespace("xlink", LINK)
    root = ElementTree.fromstring(text)
    for name in ("metadata", "defs"):
        for found in root.findall(f"{{{SVG}}}{name}"):
            style = found.find(f"{{{SVG}}}style")
            if name == "metadata" or (style is not None and len(found) == 1):
                root.remove(found)
    for element in root.iter():
        _prefix(element, prefix)
    root.attrib.update({"stroke-linejoin": "round", "stroke-linecap": "butt", "role": "img"})
    root.set("aria-labelledby", f"{prefix}title {prefix}told")
    for side in ("width", "height"):
        root.set(side, root.get(side, "").replace("pt", ""))
    for place, (name, words) in enumerate((("title", title), ("desc", told))):
        made = ElementTree.Element(f"{{{SVG}}}{name}", {"id": prefix + ("title" if name == "title" else "told")})
        made.text, made.tail = words, "\n"
        root.insert(place, made)
    return ElementTree.tostring(root, "unicode") + "\n"


def _prefix(element: ElementTree.Element, prefix: str) -> None:
    for name, value in list(element.attrib.items()):
        if name == "id":
            element.set(name, prefix + value)
        elif name in ("href", f"{{{LINK}}}href") and value.startswith("#"):
            element.set(name, f"#{prefix}{value[1:]}")
        elif "url(#" in value:
            element.set(name, _NAMED.sub(lambda found: f"url(#{prefix}{found.group(1)})", value))
