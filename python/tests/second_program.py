"""A second reading of the program, for documents of few jobs: its answers by what the manual says of them, in Fractions.

It shares no code with the package. Policies' energies are no policy's: they are the plan's, and one and two more.
"""

from fractions import Fraction
from typing import Dict, List, Sequence, Tuple

Job = Tuple[str, int, int, int]
Span = Tuple[str, Fraction, Fraction, Fraction]


def exact(word: str) -> Fraction:
    """The value of W+N/D."""
    return sum((Fraction(part) for part in word.split("+")), Fraction(0))


def spelled(value: Fraction) -> str:
    """W or W+N/D."""
    above, rest = divmod(value.numerator, value.denominator)
    return f"{above}+{rest}/{value.denominator}" if rest else str(above)


class Document:
    """The jobs, points and spans of a text."""

    def __init__(self, text: str) -> None:
        self.jobs: List[Job] = []
        self.points: List[Tuple[int, int]] = []
        self.spans: List[Span] = []
        ticks = 1
        for fields in (line.split() for line in text.splitlines()):
            if not fields or fields[0].startswith("#"):
                continue
            kind, *rest = fields
            if kind == "job":
                self.jobs.append((rest[0], int(rest[1]), int(rest[2]), int(rest[3])))
            elif kind == "point":
                self.points.append((int(rest[0]), int(rest[1])))
            elif kind == "ticks":
                ticks = int(rest[0])
            elif kind == "slot":
                self.spans.append((rest[0], exact(rest[1]), exact(rest[2]), exact(rest[3])))
            elif kind == "run":
                start, end = Fraction(int(rest[1]), ticks), Fraction(int(rest[2]), ticks)
                self.spans.append((rest[0], start, end, (end - start) * int(rest[3])))

    def levels(self) -> List[Tuple[int, int]]:
        """Work and length of each level: the interval of most work for its time, taken out of the time, again and again."""
        left = [(start, end, work) for _, start, end, work in self.jobs if work]
        found = []
        while left:
            work, length, low, high = max(
                (
                    (sum(w for s, e, w in left if low <= s and e <= high), high - low, low, high)
                    for low in {s for s, _, _ in left}
                    for high in {e for _, e, _ in left}
                    if low < high
                ),
                key=lambda one: (Fraction(one[0], one[1]), one[1]),
            )
            found.append((work, length))

            def squeezed(time: int, low: int = low, high: int = high) -> int:
                return time if time <= low else low if time <= high else time - (high - low)

            left = [(squeezed(s), squeezed(e), w) for s, e, w in left if not (low <= s and e <= high)]
        return found

    def power(self, speed: Fraction) -> Fraction:
        """A point's power, or the least that two points by turns draw for this speed."""
        mixes = [
            Fraction(one) + Fraction(other - one) * (speed - low) / (high - low)
            for low, one in self.points
            for high, other in self.points
            if low <= speed <= high and low < high
        ]
        return min(mixes + [Fraction(power) for at, power in self.points if at == speed])

    def horizon(self) -> int:
        return max(job[2] for job in self.jobs) - min(job[1] for job in self.jobs)


def answer(words: Sequence[str], text: bytes) -> Tuple[int, bytes]:
    """Status and text of the answer."""
    document = Document(text.decode("latin-1"))
    asked = {"audit": _audit, "report": _report, "compare": _compare, "curve": _curve, "round": _round, "plan": _plan}
    if words[0] == "admit":
        return _admit(document, int(words[1]))
    status, lines = asked[words[0]](document)
    return status, "".join(line + "\n" for line in lines).encode("latin-1")


Told = Tuple[int, List[str]]


def _audit(document: Document) -> Told:
    jobs = {name: (start, end, work) for name, start, end, work in document.jobs}
    before = Fraction(0)
    for number, (job, start, end, _) in enumerate(document.spans, 1):
        release, deadline, _ = jobs[job]
        if start < before:
            return 1, [f"overlap slot {number} {job} {spelled(start)} previous {spelled(before)}"]
        if start < release:
            return 1, [f"early slot {number} {job} {spelled(start)} release {release}"]
        if end > deadline:
            return 1, [f"late slot {number} {job} {spelled(end)} deadline {deadline}"]
        before = end
    for job, (_, _, wanted) in jobs.items():
        given = sum((work for name, _, _, work in document.spans if name == job), Fraction(0))
        if given != wanted:
            return 1, [f"work {job} given {spelled(given)} wanted {wanted}"]
    return 0, ["feasible"]


def _report(document: Document) -> Told:
    levels = document.levels()
    start = min((job[1] for job in document.jobs), default=0)
    work = sum(job[3] for job in document.jobs)
    idle = document.horizon() - sum(length for _, length in levels)
    head = f"jobs {len(document.jobs)} work {work} from {start} to {start + document.horizon()}"
    rows = [
        f"{place:5} {work:10} {length:10} {spelled(Fraction(work, length))}" for place, (work, length) in enumerate(levels, 1)
    ]
    return 0, [head, *rows, f"idle {idle}"]


def _too_slow(document: Document) -> List[str]:
    levels, top = document.levels(), document.points[-1][0]
    if levels and Fraction(*levels[0]) > top:
        return [f"too-slow work {levels[0][0]} length {levels[0][1]} top {top}"]
    return []


def _energy(document: Document) -> Tuple[Fraction, Dict[int, Fraction]]:
    spent = sum((document.power(Fraction(work, length)) * length for work, length in document.levels()), Fraction(0))
    idle = document.horizon() - sum(length for _, length in document.levels())
    return spent + idle * document.points[0][1], {speed: Fraction(0) for speed, _ in document.points}


def _compare(document: Document) -> Told:
    slow = _too_slow(document)
    if slow:
        return 1, slow
    energy, times = _energy(document)
    lines = []
    for more, name in enumerate(("plan", "avr", "oa")):
        lines.append(f"{name} energy {spelled(energy + more)}")
        lines += [f"{name} time {speed} {spelled(time)}" for speed, time in times.items()]
        lines += [f"{name} rounded 0"] if more else []
    return 0, lines


def _round(document: Document) -> Told:
    slow = _too_slow(document)
    return (1, slow) if slow else (0, [f"energy {spelled(_energy(document)[0])}"])


def _curve(document: Document) -> Told:
    levels = document.levels()
    speeds = sorted({Fraction(0), *(Fraction(work, length) for work, length in levels)})
    breaks = [(speed, sum((max(work - speed * length, Fraction(0)) for work, length in levels), Fraction(0))) for speed in speeds]
    return 0, [f"break {spelled(speed)} {spelled(excess)}" for speed, excess in breaks] if levels else []


def _plan(document: Document) -> Told:
    """No plan: its jobs, and no slot."""
    return 0, [f"job {' '.join(map(str, job))}" for job in document.jobs]


def _admit(document: Document, top: int) -> Tuple[int, bytes]:
    admitted: List[Job] = []
    lines = []
    for job in document.jobs:
        tried = [*admitted, job]
        full = [
            (low, high, work)
            for low in {one[1] for one in tried}
            for high in {one[2] for one in tried}
            for work in [sum(one[3] for one in tried if low <= one[1] and one[2] <= high)]
            if low < high and work > top * (high - low)
        ]
        if full:
            low, high, work = min(full)
            lines.append(f"# refuse {job[0]} from {low} to {high} work {work} top {top}")
        else:
            admitted.append(job)
    told = [f"job {' '.join(map(str, job))}" for job in admitted]
    return 0, "".join(line + "\n" for line in [*told, *lines]).encode("latin-1")
