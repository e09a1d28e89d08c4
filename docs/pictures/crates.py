"""crates.py: draws which crate stands on which, as an SVG, from crates.txt.

    python3 docs/pictures/crates.py crates.txt > docs/pictures/crates.svg      (`make map`)

A crate lies in the row above the highest crate that it stands on. A line goes from a crate to each that it stands on,
except where another of them already leads there. Where a line passes a row, it has a place there like a box, so no line
crosses a box. The places in the rows are exchanged until the lines cross seldom. Blue is a crate that stands on
yds_port, so bytes come in or go out through it. A box with a broken edge is part of neither the program nor the C
library.
"""

import sys
from itertools import combinations
from pathlib import Path
from typing import Iterator, List, NamedTuple, NoReturn, Sequence, Set

MARGIN = 20
GAP = 16
BOX_HEIGHT = 38
HEAD_HEIGHT = 66
LEAST_WIDTH = 900
PASS_WIDTH = 14
"""How much of a row a line takes that passes it."""
SWEEPS = 12
ROUNDS = 30
LIBRARIES = {"staticlib", "wasm64"}
"""The words after a crate's name that make it a library."""


def fail(text: str) -> NoReturn:
    """Ends with 1."""
    sys.exit(f"crates.py: {text}")


class Crate(NamedTuple):
    """A line of crates.txt."""

    name: str
    is_library: bool
    uses: List[str]


def read_crates(text: str) -> List[Crate]:
    """The crates of crates.txt, in its order."""
    crates: List[Crate] = []
    names: Set[str] = set()
    for number, line in enumerate(text.split("\n"), 1):
        head, _, rest = line.partition("#")[0].partition(":")
        words = head.split()
        if not words:
            if rest.strip():
                fail(f"line {number}: it names no crate")
            continue
        if words[0] in names:
            fail(f"line {number}: {words[0]} stands twice")
        names.add(words[0])
        crates.append(Crate(words[0], not LIBRARIES.isdisjoint(words[1:]), rest.replace(",", " ").split()))
    return crates


def reached(direct: Sequence[Set[int]]) -> List[Set[int]]:
    """What each stands on, directly or not."""
    reaches = [set(below) for below in direct]
    for between, beyond in enumerate(reaches):
        for below in reaches:
            if between in below:
                below.update(beyond)
    return reaches


class Graph:
    """Which crate stands on which. A crate is its number."""

    def __init__(self, crates: Sequence[Crate]) -> None:
        """Reads the uses. Ported crates have no line of their own. Whole are the program and the C library."""
        numbers = {crate.name: number for number, crate in enumerate(crates)}
        self.names = [crate.name for crate in crates]
        self.direct = [{numbers[used] for used in crate.uses if used in numbers} for crate in crates]
        self.ported = [", ".join(used for used in crate.uses if used not in numbers) for crate in crates]
        self.libraries = {number for number, crate in enumerate(crates) if crate.is_library}
        self.whole = self.libraries | {number for name, number in numbers.items() if name == "yds_cli"}
        self.port = numbers.get("yds_port", -1)
        self.reaches = reached(self.direct)
        for number, below in enumerate(self.reaches):
            if number in below:
                fail(f"{self.names[number]} stands on itself")

    def lines_from(self, crate: int) -> List[int]:
        """Those to which lines go from the crate: no other one that it stands on leads there."""
        below = self.direct[crate]
        return sorted(other for other in below if not any(other in self.reaches[between] for between in below))

    def is_part(self, crate: int) -> bool:
        """Whether it is part of the program or the C library."""
        return any(crate == whole or crate in self.reaches[whole] for whole in self.whole)

    def is_end(self, crate: int) -> bool:
        """Whether bytes come in or go out through it."""
        return crate == self.port or self.port in self.direct[crate]

    def rows(self) -> List[int]:
        """The row of each crate, from 0 below. What is whole has the uppermost one."""
        rows = [-1] * len(self.names)

        def row_of(crate: int) -> int:
            if rows[crate] < 0:
                rows[crate] = max((row_of(other) + 1 for other in self.direct[crate]), default=0)
            return rows[crate]

        uppermost = max(row_of(crate) for crate in range(len(rows)))
        return [uppermost if crate in self.whole else row for crate, row in enumerate(rows)]

    def box_width(self) -> int:
        """So wide that each name and the ported crates below it have room. It is even."""
        texts = zip(self.names, self.ported)
        width = max(60, max(max(len(name) * 8, len(ported) * 4.8) for name, ported in texts) + 12)
        return 2 * int(width / 2 + 0.5)


def mean(values: Sequence[float]) -> float:
    """The mean, added up in order: from Python 3.12 on `sum` rounds otherwise, and the picture is to be the same."""
    total = 0.0
    for value in values:
        total += value
    return total / len(values)


class Order:
    """The order of the nodes in each row. A node is a crate or, after the crates, the place of a line in a row."""

    def __init__(self, graph: Graph) -> None:
        """Makes the lines, with their places, in the order of the crates."""
        self.row_of = graph.rows()
        self.above: List[List[int]] = [[] for _ in self.row_of]
        self.below: List[List[int]] = [[] for _ in self.row_of]
        self.lines = [self.line(crate, other) for crate in range(len(graph.names)) for other in graph.lines_from(crate)]
        self.rows: List[List[int]] = [[] for _ in range(max(self.row_of) + 1)]
        for node, row in enumerate(self.row_of):
            self.rows[row].append(node)
        self.place = [0] * len(self.row_of)
        self.number(self.rows)

    def line(self, upper: int, lower: int) -> List[int]:
        """The nodes of a line from one crate to another, downwards, with a place in each row between."""
        passed = range(self.row_of[upper] - 1, self.row_of[lower], -1)
        first = len(self.row_of)
        nodes = [upper, *range(first, first + len(passed)), lower]
        self.row_of += passed
        self.above += [[] for _ in passed]
        self.below += [[] for _ in passed]
        for one, other in zip(nodes, nodes[1:]):
            self.below[one].append(other)
            self.above[other].append(one)
        return nodes

    def number(self, rows: Sequence[Sequence[int]]) -> None:
        """Notes the place of each node of these rows."""
        for row in rows:
            for place, node in enumerate(row):
                self.place[node] = place

    def crossings(self) -> int:
        """How often lines cross."""
        count = 0
        for row in self.rows:
            parts = [(self.place[node], self.place[lower]) for node in row for lower in self.below[node]]
            count += sum((one[0] - other[0]) * (one[1] - other[1]) < 0 for one, other in combinations(parts, 2))
        return count

    def sort(self, row: List[int], near: Sequence[Sequence[int]]) -> None:
        """Puts a row in the order of the mean place of each node's neighbours above or below."""
        keys = {node: mean([self.place[i] for i in near[node]] or [self.place[node]]) for node in row}
        for place, node in enumerate(row):
            while place and keys[row[place - 1]] > keys[node] + 0.000001:
                row[place] = row[place - 1]
                place -= 1
            row[place] = node
        self.number([row])

    def saved(self, one: int, other: int) -> int:
        """How many crossings fewer there are where two neighbours of a row are exchanged."""
        return sum(
            (self.place[i] > self.place[j]) - (self.place[i] < self.place[j])
            for near in (self.above, self.below)
            for i in near[one]
            for j in near[other]
        )

    def exchange(self) -> None:
        """Exchanges neighbours as long as that saves a crossing."""
        is_better = True
        while is_better:
            is_better = False
            for row in self.rows:
                for i in range(len(row) - 1):
                    if self.saved(row[i], row[i + 1]) > 0:
                        row[i], row[i + 1] = row[i + 1], row[i]
                        is_better = True
                        self.number([row])

    def improve(self) -> None:
        """Sorts the rows upwards and downwards by turns, and keeps the order with the fewest crossings."""
        best, fewest = [list(row) for row in self.rows], self.crossings()
        for sweep in range(SWEEPS):
            is_upwards = sweep % 2 == 0
            for row in self.rows[1:] if is_upwards else self.rows[-2::-1]:
                self.sort(row, self.below if is_upwards else self.above)
            self.exchange()
            count = self.crossings()
            if count < fewest:
                best, fewest = [list(row) for row in self.rows], count
        self.rows = best
        self.number(best)


class Group(NamedTuple):
    """Nodes that touch, and the sum of where each of them wants the first to be."""

    total: float
    nodes: List[int]

    def left(self) -> float:
        """Where the first is."""
        return self.total / len(self.nodes)


class Layout:
    """Where each node is: the middle of its width, and the upper edge of each row."""

    def __init__(self, graph: Graph, order: Order) -> None:
        """Places the rows side by side first, then moves the nodes."""
        self.order = order
        self.box_width = graph.box_width()
        self.crates = len(graph.names)
        self.middle = [0.0] * len(order.row_of)
        for row in order.rows:
            for node, offset in zip(row, self.offsets(row)):
                self.middle[node] = self.width(row[0]) / 2 + offset
        for turn in range(ROUNDS):
            for row in order.rows if turn % 2 == 0 else order.rows[::-1]:
                self.settle(row)
        least = min(middle - self.width(node) / 2 for node, middle in enumerate(self.middle))
        self.x = [int(middle - least + MARGIN + 0.5) for middle in self.middle]
        self.picture_width = max(LEAST_WIDTH, *(x + self.width(node) // 2 + MARGIN for node, x in enumerate(self.x)))
        self.tops = self.row_tops()

    def width(self, node: int) -> int:
        """How wide a node is; even."""
        return self.box_width if node < self.crates else PASS_WIDTH

    def offsets(self, row: Sequence[int]) -> List[float]:
        """How far right of the first each node of a row is at least."""
        offsets = [0.0]
        for one, other in zip(row, row[1:]):
            offsets.append(offsets[-1] + self.width(one) / 2 + GAP + self.width(other) / 2)
        return offsets

    def wanted(self, node: int) -> float:
        """The mean of a node's neighbours."""
        near = self.order.above[node] + self.order.below[node]
        return mean([self.middle[other] for other in near or [node]])

    def settle(self, row: Sequence[int]) -> None:
        """Moves each node as near to its neighbours' mean as the others let it: nodes that touch move together."""
        offsets = dict(zip(row, self.offsets(row)))
        groups: List[Group] = []
        for node in row:
            group = Group(self.wanted(node) - offsets[node], [node])
            while groups and groups[-1].left() > group.left():
                before = groups.pop()
                group = Group(before.total + group.total, before.nodes + group.nodes)
            groups.append(group)
        for group in groups:
            for node in group.nodes:
                self.middle[node] = group.left() + offsets[node]

    def row_tops(self) -> List[int]:
        """The more lines there are between two rows, the more room for them."""
        tops = [HEAD_HEIGHT]
        for row in self.order.rows[:0:-1]:
            lines = sum(len(self.order.below[node]) for node in row)
            tops.append(tops[-1] + BOX_HEIGHT + 38 + 2 * lines)
        return tops[::-1]

    def top(self, node: int) -> int:
        """The upper edge of a node."""
        return self.tops[self.order.row_of[node]]

    def edge_point(self, node: int, other: int, near: Sequence[Sequence[int]]) -> int:
        """Where the line to OTHER leaves. Each of a crate's lines has its own point, in the order of where they go."""
        if node >= self.crates:
            return self.x[node]
        count = len(near[node])
        before = sum(self.order.place[i] < self.order.place[other] for i in near[node])
        step = (self.box_width - 30) / max(count - 1, 4) if count > 1 else 0
        return int(self.x[node] + (before - (count - 1) / 2) * step + 0.5)

    def part(self, upper: int, lower: int) -> str:
        """From the lower edge of a node to the upper edge of the next one, and through it where it is no crate."""
        y, end = self.top(upper) + BOX_HEIGHT, self.top(lower)
        half = (end - y) // 2
        x = self.edge_point(upper, lower, self.order.below)
        to = self.edge_point(lower, upper, self.order.above)
        through = f"V{end + BOX_HEIGHT}" if lower >= self.crates else ""
        return f"C{x} {y + half} {to} {end - half} {to} {end}{through}"

    def path(self, nodes: Sequence[int]) -> str:
        """A whole line."""
        x = self.edge_point(nodes[0], nodes[1], self.order.below)
        parts = "".join(self.part(upper, lower) for upper, lower in zip(nodes, nodes[1:]))
        return f"M{x} {self.top(nodes[0]) + BOX_HEIGHT}{parts}"


class Picture:
    """The lines of the SVG."""

    def __init__(self, graph: Graph) -> None:
        """Orders and places the crates."""
        self.graph = graph
        self.order = Order(graph)
        self.order.improve()
        self.layout = Layout(graph, self.order)

    def draw_lines(self) -> Iterator[str]:
        """The lines from crate to crate."""
        yield '<g fill="none" stroke="#777" stroke-width="1.2">'
        for nodes in self.order.lines:
            title = f"{self.graph.names[nodes[0]]} stands on {self.graph.names[nodes[-1]]}"
            yield f'<path d="{self.layout.path(nodes)}"><title>{title}</title></path>'
        yield "</g>"

    def draw_box(self, crate: int) -> Iterator[str]:
        """A crate's box, its name, and the ported crates that it uses."""
        middle, y, width = self.layout.x[crate], self.layout.top(crate), self.layout.box_width
        color = "#cfe3f5" if self.graph.is_end(crate) else "#f4f4f4"
        edge = "" if self.graph.is_part(crate) else ' stroke-dasharray="4 3"'
        ported = self.graph.ported[crate]
        size = f'x="{middle - width // 2}" y="{y}" width="{width}" height="{BOX_HEIGHT}"'
        yield f'<rect {size} rx="5" fill="{color}" stroke="#333"{edge}/>'
        yield f'<text x="{middle}" y="{y + (17 if ported else 24)}" font-size="14">{self.graph.names[crate]}</text>'
        if ported:
            yield f'<text x="{middle}" y="{y + 31}" font-size="9" fill="#555">{ported}</text>'

    def draw_ends(self, crate: int) -> Iterator[str]:
        """What goes in and comes out of the program or the library, above its box."""
        middle, y = self.layout.x[crate], self.layout.top(crate)
        left, right = middle - self.layout.box_width // 4 - 4, middle + self.layout.box_width // 4 + 4
        is_library = crate in self.graph.libraries
        yield draw_arrow(left, y - 26, y - 2, 1)
        yield draw_arrow(right, y - 2, y - 26, -1)
        yield draw_label(left, y - 45, "words,", "bytes" if is_library else "standard input")
        yield draw_label(right, y - 45, "bytes," if is_library else "standard output,", "status")

    def draw_keys(self, y: int) -> Iterator[str]:
        """What the looks of a box mean."""
        library = " or the C library" if self.graph.libraries else ""
        yield from draw_key(MARGIN, y, 'fill="#cfe3f5"', "bytes come in or go out here: it stands on yds_port")
        yield from draw_key(MARGIN + 400, y, 'fill="#f4f4f4"', "it works in memory alone")
        look = 'fill="none" stroke-dasharray="4 3"'
        yield from draw_key(MARGIN + 630, y, look, f"no part of the program{library}")
        text = "A line goes down to what a crate stands on; what that one makes goes up. "
        text += "Small: the ported crates that a crate uses."
        yield f'<text x="{MARGIN}" y="{y + 36}" font-size="12" text-anchor="start">{text}</text>'

    def draw(self) -> Iterator[str]:
        """All lines."""
        bottom = self.layout.tops[0] + BOX_HEIGHT + 34
        box = f"0 0 {self.layout.picture_width} {bottom + 42}"
        svg = "http://www.w3.org/2000/svg"
        yield f'<svg xmlns="{svg}" viewBox="{box}" font-family="sans-serif" text-anchor="middle">'
        yield "<title>Which crate stands on which</title>"
        yield '<rect width="100%" height="100%" fill="#fff"/>'
        yield from self.draw_lines()
        for crate in range(len(self.graph.names)):
            yield from self.draw_box(crate)
        for crate in sorted(self.graph.whole):
            yield from self.draw_ends(crate)
        yield from self.draw_keys(bottom)
        yield "</svg>"


def draw_arrow(x: int, y: int, tip: int, turn: int) -> str:
    """An arrow from y to the tip: downwards where TURN is 1, upwards where it is -1."""
    shaft = f'<path d="M{x} {y}V{tip - 8 * turn}" stroke="#1f5f99" stroke-width="2"/>'
    return f'{shaft}<path d="M{x} {tip}l-5 {-9 * turn}h10z" fill="#1f5f99"/>'


def draw_label(x: int, y: int, first: str, second: str) -> str:
    """Two lines of text."""
    upper = f'<text x="{x}" y="{y}" font-size="11">{first}</text>'
    return f'{upper}<text x="{x}" y="{y + 13}" font-size="11">{second}</text>'


def draw_key(x: int, y: int, look: str, text: str) -> Iterator[str]:
    """A small box of this look, and what it means."""
    yield f'<rect x="{x}" y="{y}" width="26" height="14" rx="3" stroke="#333" {look}/>'
    yield f'<text x="{x + 34}" y="{y + 12}" font-size="12" text-anchor="start">{text}</text>'


def main(words: Sequence[str]) -> int:
    """Writes the picture of the crates of a file. Gives the status."""
    if len(words) != 1:
        print("usage: python3 crates.py FILE", file=sys.stderr)
        return 2
    try:
        text = Path(words[0]).read_text(encoding="utf-8")
    except (OSError, UnicodeDecodeError) as error:
        fail(f"{words[0]} can't be read: {error}")
    crates = read_crates(text)
    if not crates:
        fail("there is no line of a crate")
    print("\n".join(Picture(Graph(crates)).draw()))
    return 0


if __name__ == "__main__":
    sys.exit(main(sys.argv[1:]))
