"""least_energy.py: the jobs and points of a document as the data of samples/least-energy.mod, for a second answer by GLPK.

    python3 recipes/tests/least_energy.py recipes/samples/folder/a.txt > a.dat
    glpsol -m recipes/samples/least-energy.mod -d a.dat -y schedule.txt        (Debian: apt-get install glpk-utils)
    grep '^point' recipes/samples/folder/a.txt | cat - schedule.txt > lp-schedule.txt
"""

import sys
from pathlib import Path
from typing import Iterable, Iterator, List


def numbered(rows: Iterable[str]) -> List[str]:
    """Rows with their numbers, from 1 on."""
    return [f"{number} {row}" for number, row in enumerate(rows, 1)]


def data(text: str) -> Iterator[str]:
    """The lines of the data. The first point is the idle one: what it takes is taken off the other powers."""
    lines = [line.split() for line in text.splitlines()]
    jobs = [words[1:5] for words in lines if words[:1] == ["job"]]
    points = [[int(word) for word in words[1:3]] for words in lines if words[:1] == ["point"]]
    times = sorted({int(time) for _, release, deadline, _ in jobs for time in (release, deadline)})
    idle = points[0][1]
    names, stretches = numbered(" ".join(job) for job in jobs), numbered(f"{a} {b}" for a, b in zip(times, times[1:]))
    powers = [f"{number} {speed} {power - idle}" for number, (speed, power) in enumerate(points[1:], 2)]
    yield "data;"
    for name, rows in (("J", names), ("S", stretches), ("P", powers)):
        yield f"set {name} := {' '.join(row.split()[0] for row in rows)};"
    for heading, rows in (("name release deadline work", names), ("begin finish", stretches), ("speed power", powers)):
        yield f"param : {heading} :="
        yield from rows
        yield ";"
    yield "end;"


if __name__ == "__main__":
    print(*data(Path(sys.argv[1]).read_text(encoding="utf-8")), sep="\n")
