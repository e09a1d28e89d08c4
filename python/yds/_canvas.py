"""What all pictures have on matplotlib's axes: a sheet with title, key and notes, boxes, and files of the same bytes.

A picture is measured in pixels of 1/72 of an inch, in each form of file. matplotlib is loaded when one is drawn.
"""

from __future__ import annotations

import logging
import warnings
from contextlib import contextmanager
from importlib import import_module
from io import BytesIO
from typing import Any, Dict, Iterator, List, NamedTuple, Sequence, Tuple

from yds._framed import EDGE, GRID, LARGE, PLAIN, SMALL, SOFT, TEXT, WARNING, Frame, Key
from yds._pixels import wrapped

DPI = 72
_LOOK = {
    "axes.edgecolor": EDGE,
    "axes.formatter.useoffset": False,
    "axes.grid": False,
    "axes.labelcolor": TEXT,
    "axes.labelsize": PLAIN,
    "axes.spines.right": False,
    "axes.spines.top": False,
    "axes.unicode_minus": True,
    "figure.dpi": DPI,
    "font.family": ["sans-serif"],
    "font.sans-serif": ["DejaVu Sans", "Verdana", "sans-serif"],
    "font.size": PLAIN,
    "pdf.fonttype": 42,
    "savefig.dpi": "figure",
    "svg.fonttype": "none",
    "svg.hashsalt": "yds",
    "svg.image_inline": True,
    "text.color": TEXT,
    "text.parse_math": False,
    "text.usetex": False,
    "xtick.color": EDGE,
    "xtick.labelsize": 12,
    "ytick.color": EDGE,
    "ytick.labelsize": 12,
}
"""How a picture looks, whatever else matplotlib was told. No sign of a name begins a formula."""

Rectangle = Tuple[float, float, float, float]
"""Left, right, lower and upper edge."""


class Size(NamedTuple):
    """Of a whole picture, in pixels."""

    width: int
    height: int


@contextmanager
def _quiet() -> Iterator[None]:
    """While it is open, matplotlib doesn't tell that it looks for fonts, as it does where its first picture takes long."""
    log = logging.getLogger("matplotlib.font_manager")
    level = log.level
    log.setLevel(logging.ERROR)
    try:
        yield
    finally:
        log.setLevel(level)


def loaded(name: str) -> Any:
    """A module of matplotlib. ImportError says what to install."""
    try:
        with _quiet():
            return import_module(name)
    except ImportError as fault:
        raise ImportError(
            f"a picture needs matplotlib ({fault}); pip install matplotlib, or on Debian apt-get install "
            "python3-matplotlib. In a notebook a document with slots shows itself without it"
        ) from fault


@contextmanager
def look() -> Iterator[None]:
    """While it is open, matplotlib draws as the pictures look, and doesn't tell of signs that its font hasn't."""
    matplotlib = loaded("matplotlib")
    known = {name: value for name, value in _LOOK.items() if name in matplotlib.rcParams}
    with matplotlib.rc_context(), warnings.catch_warnings():
        matplotlib.rcdefaults()
        matplotlib.rcParams.update(known)
        warnings.filterwarnings("ignore", message=r"Glyph .* missing from", category=UserWarning)
        warnings.filterwarnings("ignore", message=r"Matplotlib currently does not support", category=UserWarning)
        yield


def plain(text: str) -> str:
    """The text with ? for each sign that is none of a text, as a terminal's escape or half of a pair."""
    return "".join(sign if sign.isprintable() else "?" for sign in text.replace("\n", " "))


def plain_lines(text: str) -> str:
    """The same of each line."""
    return "\n".join(plain(line) for line in text.split("\n"))


class Sheet:
    """A figure of its own with title, key and notes, and axes below them."""

    def __init__(self, frame: Frame, width: int) -> None:
        """The height is told later: the axes' own may go by what is above them."""
        figure = loaded("matplotlib.figure").Figure(figsize=(width / DPI, 10), dpi=DPI, facecolor="white")
        loaded("matplotlib.backends.backend_agg").FigureCanvasAgg(figure)
        self.figure, self._frame, self._width = figure, frame, width
        self._title = wrapped(plain(frame.title), width - 24, LARGE) if frame.title else []
        told = [(note, WARNING) for note in frame.notes] + [(hint, SOFT) for hint in frame.hints]
        self._notes = [(line, colour) for one, colour in told for line in wrapped(plain(one), width - 26, SMALL)]
        self._legend = legend(figure, frame.key, width - 16)
        height = self._legend.get_window_extent().height if self._legend else 0.0
        self._key_at = 6 + 21 * len(self._title) + (5 if self._title else 0)
        self._notes_at = self._key_at + height + (2 if height else 4)
        self.above = int(self._notes_at + 16 * len(self._notes)) + frame.above
        """How many pixels are above the axes."""

    def axes(self, height: int) -> Any:
        """The axes, where the whole picture is so high. ValueError where that leaves no room."""
        frame, width, figure = self._frame, self._width, self.figure
        inner = width - frame.left - frame.right, height - self.above - frame.below
        if inner[0] < 50 or inner[1] < 20:
            raise ValueError(f"the size {width}x{height} leaves no room for the picture; give a greater one")
        figure.set_size_inches(width / DPI, height / DPI)
        for place, line in enumerate(self._title):
            figure.text(12 / width, 1 - (21 + 21 * place) / height, line, fontsize=LARGE, va="baseline")
        if self._legend:
            self._legend.set_bbox_to_anchor((8 / width, 1 - self._key_at / height), figure.transFigure)
        for place, (line, colour) in enumerate(self._notes):
            at = 1 - (self._notes_at + 12 + 16 * place) / height
            figure.text(13 / width, at, line, fontsize=SMALL, color=colour, va="baseline")
        return figure.add_axes((frame.left / width, frame.below / height, inner[0] / width, inner[1] / height))


def legend(where: Any, key: Sequence[Key], width: float, **words: Any) -> Any:
    """The key in as many columns as the width holds; None where there is none. `where` is a figure or axes.

    words are for matplotlib, as loc and bbox_to_anchor.
    """
    if not key:
        return None
    handles = [_handle(one) for one in key]
    found = None
    for columns in range(min(len(key), 12), 0, -1):
        if found is not None:
            found.remove()
        found = where.legend(
            handles,
            ["."] * len(key),
            ncol=columns,
            frameon=False,
            borderpad=0.2,
            borderaxespad=0.0,
            handlelength=1.6,
            handletextpad=0.5,
            columnspacing=1.4,
            labelspacing=0.35,
            fontsize=PLAIN,
            **{"loc": "upper left", **words},
        )
        # A text that begins with _ would have no entry.
        for text, one in zip(found.get_texts(), key):
            text.set_text(plain(one.text))
        if found.get_window_extent(renderer(where)).width <= width:
            break
    return found


def renderer(where: Any) -> Any:
    """What measures texts."""
    figure = getattr(where, "figure", None) or where
    return figure.canvas.get_renderer() if hasattr(figure.canvas, "get_renderer") else None


def _handle(key: Key) -> Any:
    """The sample of an entry."""
    lines, patches = loaded("matplotlib.lines"), loaded("matplotlib.patches")
    if key.look == "box":
        return patches.Patch(facecolor=key.colour, edgecolor="none")
    if key.look == "area":
        return patches.Patch(facecolor=pale(key.colour), edgecolor=key.colour, linewidth=0.8)
    if key.look in ("line", "dashed"):
        return lines.Line2D(
            [], [], color=key.colour, linewidth=2, linestyle=(0, (4, 2)) if key.look == "dashed" else "-"
        )
    marker: Dict[str, Dict[str, Any]] = {
        "triangle": {"marker": "v"},
        "cross": {"marker": "x", "markeredgewidth": 1.5},
        "ring": {"marker": "o", "markerfacecolor": "none", "markersize": 8},
        "dot": {"marker": "o"},
        "none": {"marker": ""},
    }
    return lines.Line2D([], [], color=key.colour, linestyle="none", **{"markersize": 6, **marker[key.look]})


def pale(colour: str) -> str:
    """The colour, halfway to white and farther."""
    parts = [int(colour[place : place + 2], 16) for place in (1, 3, 5)]
    return "#" + "".join(f"{int(255 - (255 - part) * 0.3):02x}" for part in parts)


def dress(axes: Any, frame: Frame) -> None:
    """The axes' ranges, labels and ticks. The axes' own label is the picture in words."""
    axes.set_xlim(frame.x)
    axes.set_ylim(frame.y)
    axes.set_xlabel(frame.x_label)
    axes.set_ylabel(frame.y_label)
    axes.set_axisbelow(True)
    axes.tick_params(length=4)
    axes.ticklabel_format(style="plain", useOffset=False)
    axes.set_label(frame.told)


def grid(axes: Any, which: str = "both") -> None:
    """Pale lines at the ticks of the axes: x, y or both."""
    axes.grid(True, axis=which, color=GRID, linewidth=1)


def literal(texts: Sequence[Any]) -> None:
    """No sign of these texts begins a formula, also where the axes were made elsewhere."""
    for text in texts:
        if hasattr(text, "set_parse_math"):
            text.set_parse_math(False)


def corners(box: Rectangle) -> List[Tuple[float, float]]:
    """The corners of a box."""
    left, right, lower, upper = box
    return [(left, lower), (right, lower), (right, upper), (left, upper)]


def boxes(axes: Any, found: Sequence[Rectangle], colour: str, **words: Any) -> Any:
    """Boxes of one colour, as one patch of as many parts, in the data of the axes."""
    numpy = loaded("numpy")
    path = loaded("matplotlib.path").Path
    if not found:
        return None
    made = path.make_compound_path_from_polys(numpy.array([corners(box) for box in found]))
    patch = loaded("matplotlib.patches").PathPatch(
        made, facecolor=colour, **{"edgecolor": "none", "linewidth": 0, **words}
    )
    axes.add_artist(patch)
    patch.set_clip_path(axes.patch)
    return patch


def width_of(axes: Any) -> float:
    """How many pixels the axes are wide."""
    return float(axes.get_window_extent().width * DPI / axes.figure.dpi)


def height_of(axes: Any) -> float:
    """How many pixels the axes are high."""
    return float(axes.get_window_extent().height * DPI / axes.figure.dpi)


_METADATA: Dict[str, Dict[str, Any]] = {
    "svg": {"Date": None, "Creator": None, "Format": None, "Type": None},
    "pdf": {"CreationDate": None, "Creator": None, "Producer": None},
    "png": {"Software": None},
}


def saved(figure: Any, form: str) -> bytes:
    """The file of a figure: svg, png or pdf. Two runs write the same bytes."""
    held = BytesIO()
    with look():
        figure.savefig(held, format=form, metadata=_METADATA[form])
    return held.getvalue()
