"""Each field of a document broken, for the commands that read whole documents: none passes over it.

A field is missing, doubled, negative, too great, in another unit, or the line is cut off there. A command ends with a
status that isn't 0 then; yds-join, which copies lines, leaves them as they are, so that the program refuses them.
"""

import tempfile
import unittest
from pathlib import Path
from unittest import mock

import second_program
from called import Called, broken, call

HEAD = "# CPU 0 of a kernel trace; time 0 is 100.500000000 s\n# time unit 10 us, speed unit 10000 kHz\n"
POINTS = ["point 0 1", "point 2 3", "point 4 10"]
LINES = [*POINTS, "job a.0 0 9 12", "job a.1 9 18 12", "ticks 1", "run a.0 3 6 4", "run a.1 10 13 4"]
CLOSING = "# 2 jobs written, none left out"
REPORT = '{"from":0,"idle":0,"jobs":2,"levels":[{"length":4,"speed":"2","work":8}],"to":4,"work":8}'


def answered(name: str, *words: object, given: str) -> Called:
    """What the command answers, with a second program's answers."""
    answer = second_program.answer
    with mock.patch("yds._program.of_library", return_value=answer), mock.patch(
        "yds._judged.of_library", return_value=answer
    ), mock.patch("yds.commands.page.of_environment", return_value=answer), mock.patch(
        "yds._page_pictures.find_spec", return_value=None
    ):
        return call(name, *words, given=given.encode("latin-1"))


class BrokenTest(unittest.TestCase):
    def setUp(self) -> None:
        held = tempfile.TemporaryDirectory()
        self.addCleanup(held.cleanup)
        self.folder = Path(held.name)

    def texts(self) -> "list[str]":
        """The document with one field broken in each."""
        found = []
        for place, line in enumerate(LINES):
            for wrong in broken(line, 2 if line[:3] in ("job", "run") else 1):
                found.append("\n".join([HEAD + "\n".join(LINES[:place]), wrong, *LINES[place + 1 :], CLOSING]) + "\n")
        return found

    def test_the_document_is_read(self) -> None:
        text = HEAD + "\n".join([*LINES, CLOSING]) + "\n"
        for name, words in (("page", []), ("parts", ["--folder", self.folder / "parts"]), ("misses", [])):
            self.assertEqual(answered(name, *words, given=text).status, 0)

    def test_page(self) -> None:
        for text in self.texts():
            with self.subTest(text):
                found = answered("page", given=text)
                self.assertEqual((found.status, found.out, found.err.count("\n")), (1, "", 1))

    def test_parts(self) -> None:
        for text in self.texts():
            with self.subTest(text):
                found = answered("parts", "--folder", self.folder / "parts", given=text)
                files = {path.name: path.read_text() for path in (self.folder / "parts").iterdir()}
                self.assertEqual((found.status, files), (1, {"part-00001.txt": "failed\n"}))

    def test_join_leaves_them(self) -> None:
        (self.folder / "first.txt").write_text("# period 40\nhorizon 40\n")
        for text in self.texts():
            with self.subTest(text):
                found = answered("join", self.folder / "first.txt", "-", given=text)
                wanted = (0, "# period 40\nhorizon 40\n" + text)
                self.assertTrue(found[:2] == wanted or (found.status, found.out[-7:]) == (1, "failed\n"), found.out)

    def test_reports(self) -> None:
        """A number that is missing, negative, a text, too long to be one, or a fraction of 0."""
        place = self.folder / "report.json"
        place.write_text(REPORT)
        self.assertEqual(call("reports", place).status, 0)
        for key in ("from", "idle", "jobs", "to", "work", "length", "speed", "levels"):
            for wrong in ('"x"', "-1", "null", "1.5", "true", "[]" if key != "levels" else "{}", '"1+1/0"', '"9ms"'):
                front, _, rest = REPORT.rpartition(f'"{key}":')
                end = rest.index("]") + 1 if key == "levels" else min(rest.index(sign) for sign in ",}" if sign in rest)
                with self.subTest(key, wrong=wrong):
                    place.write_text(f'{front}"{key}":{wrong}{rest[end:]}')
                    self.assertEqual(call("reports", place).status, 1)
            with self.subTest(key, wrong="missing"):
                place.write_text(REPORT.replace(f'"{key}"', '"other"'))
                self.assertEqual(call("reports", place).status, 1)


if __name__ == "__main__":
    unittest.main()
