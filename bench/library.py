"""How often a second a document is answered from Python: by the one call, and by a method with the numbers read.

    python3 library.py DOCUMENT

Writes two numbers, each the most of 101 rounds of a fiftieth of a second, by the clock: plans as bytes; and plans of a
Document made of rows, with the rows of its slots.
"""

import sys
import time
from typing import Callable

import yds


def most_a_second(once: Callable[[], object]) -> float:
    once()
    most = 0.0
    for _ in range(101):
        begun, times, past = time.perf_counter(), 0, 0.0
        while past < 0.02:
            once()
            times += 1
            past = time.perf_counter() - begun
        most = max(most, times / past)
    return most


def main(place: str) -> None:
    with open(place, "rb") as file:
        text = file.read()
    jobs = yds.Document.from_text(text).jobs
    print(
        round(most_a_second(lambda: yds.answer(["plan"], text))),
        round(most_a_second(lambda: yds.Document(jobs).plan().slots)),
    )


if __name__ == "__main__":
    main(sys.argv[1])
