"""What yds-plot is asked for, and what it reads of its files: a drawing of each kind, and its file."""

from __future__ import annotations

import os
import re
from typing import Callable, Dict, List, NamedTuple, Optional, Sequence, Tuple

from yds._framed import Choice, Range
from yds._scales import Units, units_of
from yds._sheets import Drawing, on_sheet
from yds._text import STANDARD_INPUT, Rows, lines

FORMS = ("svg", "png", "pdf", "text")
MOST_PIXELS = 20_000
_SIZE = re.compile(r"([1-9][0-9]{0,5})x([1-9][0-9]{0,5})").fullmatch
_RANGE = re.compile(r"([0-9]{1,15}(?:\.[0-9]{1,9})?):([0-9]{1,15}(?:\.[0-9]{1,9})?)").fullmatch


class Wanted(NamedTuple):
    """What is asked for of a picture."""

    form: str
    size: Optional[Tuple[int, int]]
    title: Optional[str]
    units: Optional[Units]
    choice: Choice
    idle: Sequence[str] = ()
    """The names of threads that don't count as others."""

    @classmethod
    def read(
        cls,
        form: Optional[str],
        output: Optional[str],
        size: Optional[str],
        title: Optional[str],
        units: Optional[str],
        group: Optional[str],
        part: Optional[str],
    ) -> Wanted:
        """The words, read. ValueError says which is wrong."""
        if group not in (None, "job", "task"):
            raise ValueError(f"--group {group}: there are job and task")
        try:
            told = None if units is None else units_of(units)
        except ValueError as fault:
            raise ValueError(f"--units {fault}") from fault
        return cls(_form(form, output), _size(size), title, told, Choice(range=_part(part), group=group))


def _form(form: Optional[str], output: Optional[str]) -> str:
    """The form that is asked for, or that the ending of the output tells."""
    ending = os.path.splitext(output or "")[1][1:].lower()
    found = form or {"txt": "text"}.get(ending, ending) or FORMS[0]
    if found not in FORMS:
        told = f"--form {form}" if form else f"{output} ends with .{ending}"
        raise ValueError(f"{told}: the forms are {', '.join(FORMS)}")
    return found


def _size(size: Optional[str]) -> Optional[Tuple[int, int]]:
    if size is None:
        return None
    found = _SIZE(size)
    if found is None or max(map(int, found.groups())) > MOST_PIXELS:
        raise ValueError(f"--size {size} isn't WIDTHxHEIGHT as 960x400, each at most {MOST_PIXELS}")
    return int(found.group(1)), int(found.group(2))


def _part(part: Optional[str]) -> Optional[Range]:
    if part is None:
        return None
    found = _RANGE(part)
    if found is None or float(found.group(1)) >= float(found.group(2)):
        raise ValueError(f"--range {part} isn't FROM:TO in the document's units of time")
    return Range(float(found.group(1)), float(found.group(2)))


def drawn(kind: str, files: Sequence[str], wanted: Wanted) -> bytes:
    """The bytes of the picture of the files, or of standard input."""
    drawing = READERS[kind](files, wanted)
    if wanted.form == "text":
        return _as_text(drawing, wanted)
    from yds._canvas import saved
    from yds._svg import drawn as drawn_svg

    axes = on_sheet(drawing, wanted.choice, wanted.size, wanted.title)
    if wanted.form == "svg":
        return drawn_svg(axes, f"{kind}-", wanted.title).encode("utf-8")
    return saved(axes.figure, wanted.form)


def _as_text(drawing: Drawing, wanted: Wanted) -> bytes:
    """The picture as rows of signs."""
    from yds._signs import HEIGHT, WIDTH, text

    width, height = wanted.size or (WIDTH, HEIGHT)
    picture = drawing.make(wanted.choice._replace(width=width * 7.0))
    if wanted.title is not None:
        picture = picture._replace(frame=picture.frame._replace(title=wanted.title))
    return "".join(line + "\n" for line in text(drawing.kind, picture, width, height)).encode("utf-8", "replace")


Reader = Callable[[Sequence[str], Wanted], Drawing]


def _gantt(files: Sequence[str], wanted: Wanted) -> Drawing:
    from yds._gantt import gantt
    from yds._timeline import timeline

    read = timeline(Rows(lines(files)), wanted.units, wanted.idle)
    return Drawing("gantt", lambda choice: gantt(read, choice), 960, 0)


def _speed(files: Sequence[str], wanted: Wanted) -> Drawing:
    from yds._speeds import speed
    from yds._timeline import timeline

    files = files or [STANDARD_INPUT]
    read = [timeline(Rows(lines([file])), wanted.units) for file in files]
    return Drawing("speed", lambda choice: speed(read, names_of(files), choice), 960, 400)


def names_of(files: Sequence[str]) -> List[str]:
    """The files' names without folder and ending; with what tells them apart where two would be one.

    >>> names_of(["out/plan.txt", "oa.txt"]), names_of(["a.plan", "a.oa"]), names_of(["1/a.txt", "2/a.txt"])
    (['plan', 'oa'], ['a.plan', 'a.oa'], ['1/a.txt', '2/a.txt'])
    """
    bases = [os.path.basename(file) for file in files]
    choices = [os.path.splitext(base)[0] for base in bases], bases
    return next((names for names in choices if len(set(names)) == len(names)), list(files))


def _slack(files: Sequence[str], wanted: Wanted) -> Drawing:
    from yds._slacks import read_slacks, slacks

    table = read_slacks(lines(files))
    return Drawing("slack", lambda choice: slacks(table, wanted.units or Units(), choice), 960, 400)


def _curve(files: Sequence[str], wanted: Wanted) -> Drawing:
    from yds._excess import excess, read_breaks

    read = read_breaks(Rows(lines(files)))
    units = wanted.units or read.units
    return Drawing("curve", lambda choice: excess(read.breaks, read.points, units, choice), 720, 440)


def _energy(files: Sequence[str], wanted: Wanted) -> Drawing:
    from yds._bars import bars, read_energies

    read = read_energies(Rows(lines(files)))
    return Drawing("energy", lambda choice: bars(read, wanted.units, choice), 150 * len(read.sides) + 260, 440)


def _ratios(files: Sequence[str], wanted: Wanted) -> Drawing:
    from yds._ratios import ratios
    from yds.tables import read_energies

    table = read_energies(lines(files))
    return Drawing("ratios", lambda choice: ratios(table), 720, 440)


READERS: Dict[str, Reader] = {
    "speed": _speed,
    "gantt": _gantt,
    "slack": _slack,
    "curve": _curve,
    "energy": _energy,
    "ratios": _ratios,
}
