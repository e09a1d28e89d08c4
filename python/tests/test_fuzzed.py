"""Documents near the grammar have the program's bytes and status. SEED and DOCUMENTS choose others, or more."""

import os
import random
import subprocess
import unittest
from concurrent.futures import ThreadPoolExecutor
from typing import List, Tuple

import yds
from stored import PROGRAM, rows

COMMANDS = [
    *(
        ["plan"],
        ["plan"],
        ["round"],
        ["check"],
        ["audit"],
        ["audit", "--points"],
        ["report"],
        ["report", "--json"],
        ["curve"],
    ),
    *(["avr", "--grid", "6"], ["oa", "--grid", "100"], ["compare", "--grid", "12"], ["admit", "2"], ["expand"]),
    *(["oa", "--grid", "0"], ["admit"], ["plan", "plan"], ["\udcff"], ["trial", "7", "3"], []),
]
EDGES = [
    b"0",
    b"1",
    b"2",
    b"3",
    b"64",
    b"4000",
    b"1000001",
    b"1000000000",
    b"1+1/2",
    b"0+2/2",
    b"01",
    b"-1",
    b"#",
    b"a",
    b"\xc3\xa9",
    b"\t",
    b"\r",
]


def changed(draw: random.Random, text: bytes) -> bytes:
    """The text with a line, a field or a byte changed, or its end cut off."""
    lines = text.splitlines(keepends=True) or [b"job a 0 1 1\n"]
    line = draw.randrange(len(lines))
    how = draw.randrange(6)
    if how == 0:
        del lines[line]
    elif how == 1:
        lines.insert(draw.randrange(len(lines) + 1), lines[line])
    elif how == 2:
        fields = lines[line].split(b" ")
        fields[draw.randrange(len(fields))] = draw.choice(EDGES)
        lines[line] = b" ".join(fields).rstrip(b"\n") + b"\n"
    elif how == 3:
        at = draw.randrange(len(lines[line]) + 1)
        lines[line] = lines[line][:at] + bytes([draw.randrange(256)]) + lines[line][at:]
    elif how == 4:
        numbers = [
            field if not field.isdigit() else b"%d" % (int(field) + draw.randrange(3)) for field in lines[line].split()
        ]
        lines[line] = b" ".join(numbers) + b"\n"
    else:
        return text[: len(text) - draw.randrange(min(len(text), 40) + 1)]
    return b"".join(lines)


def drawn(draw: random.Random, texts: List[bytes]) -> Tuple[List[str], bytes]:
    """Words and an input."""
    text = draw.choice(texts)
    for _ in range(draw.randrange(4)):
        text = changed(draw, text)
    return draw.choice(COMMANDS), text


def program(words: List[str], text: bytes) -> yds.Answer:
    """What the program answers."""
    ran = subprocess.run([PROGRAM, *words], input=text, stdout=subprocess.PIPE, check=False)
    return yds.Answer(yds.Status(ran.returncode), ran.stdout)


class StoredAnswers(unittest.TestCase):
    def test_what_is_read_as_an_answer_is_one(self) -> None:
        """Of drawn texts near those of answers: what isn't refused holds as an answer does, by other commands."""
        draw = random.Random(int(os.environ.get("SEED", "1")))
        document = yds.Document([("a", 0, 3, 2), ("b", 1, 2, 1)], [(0, 0), (1, 1), (2, 3)])
        answers = [document.plan(), document.round(), document.avr(6), document.oa(1)]
        taken = refused = 0
        for _ in range(120):
            answer = draw.choice(answers)
            text = changed(draw, answer.text)
            with self.subTest(text=text):
                try:
                    again = type(answer).from_text(text)
                except ValueError:
                    refused += 1
                    continue
                taken += 1
                self.assertTrue(again.audit(points=isinstance(again, yds.Rounded)))
                if isinstance(again, yds.Plan):
                    self.assertTrue(again.check())
                    self.assertEqual(again.peak, again.report().peak)
                elif isinstance(again, yds.Rounded):
                    self.assertEqual(again.energy, yds.Document(again.jobs, again.points).compare().plan.energy)
                elif isinstance(again, yds.Run):
                    self.assertEqual(again.exact, again.grid == 6)
        self.assertGreater(refused, 60)
        self.assertGreater(taken, 0)


class Fuzzed(unittest.TestCase):
    def test_answers_are_those_of_the_program(self) -> None:
        draw = random.Random(int(os.environ.get("SEED", "1")))
        texts = sorted({row.document for row in rows() if len(row.document) < 100000})
        inputs = [drawn(draw, texts) for _ in range(int(os.environ.get("DOCUMENTS", "2000")))]
        with ThreadPoolExecutor(os.cpu_count()) as pool:
            wanted = list(pool.map(program, *zip(*inputs)))
        seen = {answered.status for answered in wanted}
        for (words, text), answered in zip(inputs, wanted):
            with self.subTest(words=words, text=text):
                self.assertEqual(yds.answer(words, text), answered)
        if len(inputs) >= 1000:
            self.assertEqual(seen, {0, 1, 2, 3, 7})


if __name__ == "__main__":
    unittest.main()
