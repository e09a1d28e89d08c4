"""Each form of text that yds_trace writes, given to each command that reads documents.

A text that was refused, that is cut short, or that has several documents is no document: no command says yes of it, nor
tells its numbers. The texts are the stored answers of yds_trace.
"""

import os
import tempfile
import unittest
from pathlib import Path
from typing import Callable, Iterator, List, NamedTuple, Sequence
from unittest import mock

import second_program
from called import EXPECTED, ROOT, Called, call

CASES = int(os.environ.get("CASES", "200"))
"""At about so many places a document is cut."""
POINTS = "".join(f"point {speed} {speed * speed // 10}\n" for speed in range(0, 620, 10))
FRAMES = "# time unit 10 us, speed unit 10000 kHz\njob decode.0 0 9 9\njob render.0 0 9 9\njob t.0 0 9 9\njob a.0 0 9 9\n"


class Text(NamedTuple):
    """A stored answer of yds_trace."""

    name: str
    status: int
    text: str

    @property
    def documents(self) -> int:
        """How many documents it has."""
        return self.text.count("\nticks ")


def stored() -> Iterator[Text]:
    """All of them."""
    for folder in sorted((ROOT / "examples" / "traces").iterdir()):
        text = (folder / "stdout").read_bytes().decode("latin-1")
        yield Text(folder.name, int((folder / "status").read_text()) if (folder / "status").exists() else 0, text)


class Reader(NamedTuple):
    """A command that reads a document."""

    name: str
    words: Sequence[str] = ()
    with_points: bool = False
    pieces: bool = False
    """Whether it takes several documents, as its page says."""
    refusals: bool = False
    """Whether it tells what was refused, as its page says."""

    def called(self, folder: str, text: str) -> Called:
        """What it answers."""
        words = [word.replace("DIR", folder) for word in self.words]
        given = (POINTS if self.with_points else "") + text
        with mock.patch("yds._program.of_library", return_value=second_program.answer), mock.patch(
            "yds._judged.of_library", return_value=second_program.answer
        ), mock.patch("yds.commands.page.of_environment", return_value=second_program.answer):
            return call(self.name, *words, given=given.encode("latin-1"))


READERS = [
    Reader("misses"),
    Reader("jobs"),
    Reader("jobs", ["--late-moved"]),
    Reader("energy", with_points=True),
    Reader("energy", ["--at", "610"], with_points=True),
    Reader("changes"),
    Reader("answer", refusals=True),
    Reader("parts", ["--folder", "DIR"]),
    Reader("scale", ["--work", "2"]),
    Reader("frames", ["--jobs", "DIR/frames.txt"]),
    Reader("join", ["DIR/points.txt", "-"], pieces=True),
    Reader("page", with_points=True),
    *(Reader("plot", ["-t", "text", kind]) for kind in ("gantt", "speed")),
]


class TextsTest(unittest.TestCase):
    def setUp(self) -> None:
        held = tempfile.TemporaryDirectory()
        self.addCleanup(held.cleanup)
        self.folder = held.name
        Path(self.folder, "points.txt").write_text(POINTS)
        Path(self.folder, "frames.txt").write_text(FRAMES)

    def refuses(self, reader: Reader, text: str) -> None:
        """It fails, and what it writes is nothing, `failed` at the end, or a verdict of no, which yds-misses tells."""
        with self.subTest(reader.name, words=reader.words, text=text[-200:]):
            status, out, err = reader.called(self.folder, text)
            self.assertEqual(status, 1)
            is_verdict = reader.name == "misses" and out != "" and "feasible" not in out
            self.assertTrue(not out or f"\n{out}".endswith("\nfailed\n") or is_verdict, out[-200:])
            self.assertTrue(err.count("\n") == 1 or is_verdict, err)

    def each(self, texts: Sequence[str], but: Callable[[Reader], bool] = lambda reader: False) -> None:
        """Each command refuses each text."""
        for reader in READERS:
            for text in [] if but(reader) else texts:
                self.refuses(reader, text)

    def test_a_whole_document_is_read(self) -> None:
        text = (EXPECTED / "document.txt").read_text()
        for reader in READERS:
            if reader.name not in ("scale", "frames"):
                with self.subTest(reader.name, words=reader.words):
                    self.assertEqual(reader.called(self.folder, text)[::2], (0, ""))

    def test_what_was_refused(self) -> None:
        texts = [one.text for one in stored() if one.status]
        self.assertGreater(len(texts), 25)
        self.each(texts, lambda reader: reader.refusals)
        answer = next(reader for reader in READERS if reader.refusals)
        for text in texts:
            self.assertIn('"refusals":[{"reason":"failed"}]', answer.called(self.folder, text).out)

    def test_several_documents(self) -> None:
        texts = [one.text for one in stored() if one.documents > 1 and not one.status]
        self.assertGreater(len(texts), 0)
        self.each(texts, lambda reader: reader.pieces)
        one = (EXPECTED / "document.txt").read_text()
        other = one.replace("decode", "video").replace("audio", "sound").replace("5123.4", "5128.4")
        self.each([one + other, other + one])

    def test_a_table_of_threads_and_no_text(self) -> None:
        tables = [one.text for one in stored() if one.text.startswith("threads ")]
        self.assertGreater(len(tables), 0)
        self.each(tables)
        self.each([""], lambda reader: reader.name in ("answer", "misses"))

    def test_a_document_that_is_cut_short(self) -> None:
        """Anywhere: behind a line or within one."""
        cut: List[str] = []
        for name in ("document.txt", "document-late.txt"):
            text = (EXPECTED / name).read_text()
            first = text.index("\njob ") + 5
            cut += [text[:end] for end in range(first, len(text) - 1, max(1, len(text) * 30 // CASES))]
            cut += [text[: text.rindex("# ")], text[: text.rindex("# ") + 9], text[: text.index("ticks")]]
        self.each(cut)

    def test_each_stored_document_without_its_last_line(self) -> None:
        texts = [one.text for one in stored() if one.documents == 1 and not one.status]
        self.assertGreater(len(texts), 35)
        readers = [reader for reader in READERS if reader.name not in ("page", "plot", "frames")]
        for text in texts:
            for reader in readers:
                self.refuses(reader, text[: text.rindex("# ")])


if __name__ == "__main__":
    unittest.main()
