"""Every stored row gives the program's bytes and status, by the one call and by the methods."""

import unittest
from typing import Any, Callable, Dict, List, Union

import yds
from stored import rows

METHODS: Dict[str, Callable[[List[str], bytes], Any]] = {
    "plan": lambda words, text: yds.Document.from_text(text).plan(),
    "round": lambda words, text: yds.Document.from_text(text).round(),
    "avr": lambda words, text: yds.Document.from_text(text).avr(int(words[2])),
    "oa": lambda words, text: yds.Document.from_text(text).oa(int(words[2])),
    "compare": lambda words, text: yds.Document.from_text(text).compare(int(words[2])),
    "check": lambda words, text: yds.Document.from_text(text).check(),
    "audit": lambda words, text: yds.Document.from_text(text).audit(points="--points" in words),
    "report": lambda words, text: yds.Document.from_text(text).report(),
    "curve": lambda words, text: yds.Document.from_text(text).curve(),
    "admit": lambda words, text: yds.Document.from_text(text).admit(int(words[1])),
    "expand": lambda words, text: yds.expand(text),
    "trial": lambda words, text: yds.trial(int(words[1]), int(words[2])),
}


def by_method(words: List[str], text: bytes) -> Union[bytes, Exception]:
    """The text of the answer of the method that is named like the command, with its fields read; or what it raises."""
    try:
        result = METHODS[words[0]](words, text)
        repr(result)
        if isinstance(result, yds.Document):
            result.jobs
        return bytes(result.text)
    except yds.YdsError as fault:
        return fault


class StoredRows(unittest.TestCase):
    def test_the_one_call_gives_the_bytes_and_the_status(self) -> None:
        seen = 0
        for row in rows():
            with self.subTest(row.name):
                self.assertEqual(yds.answer(row.words, row.document), row.wanted)
            seen += 1
        self.assertGreater(seen, 130)

    def test_the_methods_give_the_bytes(self) -> None:
        for row in rows():
            if row.wanted.status is yds.Status.USAGE or "--json" in row.words:
                continue
            with self.subTest(row.name):
                got = by_method(row.words, row.document)
                if row.wanted.status is yds.Status.REFUSED:
                    self.assertIsInstance(got, yds.Refused)
                    self.assertEqual(got.text, row.wanted.text)
                else:
                    self.assertEqual(got, row.wanted.text)

    def test_a_no_is_false_and_a_yes_is_true(self) -> None:
        for row in rows():
            if row.words and row.wanted.status in (yds.Status.DONE, yds.Status.NO) and "--json" not in row.words:
                with self.subTest(row.name):
                    self.assertEqual(
                        bool(METHODS[row.words[0]](row.words, row.document)), row.wanted.status is yds.Status.DONE
                    )

    def test_what_was_read_is_spelled_as_it_was_written(self) -> None:
        """The rows of what the library wrote are a document again, with the same answers of audit and check."""
        for row in rows():
            if row.wanted.status is yds.Status.DONE and row.words[0] in (
                "plan",
                "round",
                "avr",
                "oa",
                "admit",
                "expand",
            ):
                with self.subTest(row.name):
                    wrote = yds.Document.from_text(row.wanted.text)
                    again = yds.Document(wrote.jobs, wrote.points, wrote.slots, wrote.levels)
                    self.assertEqual(again.audit().text, wrote.audit().text)
                    self.assertEqual(again.check().text, wrote.check().text)
                    self.assertEqual(
                        (again.jobs, again.points, again.slots, again.levels),
                        (wrote.jobs, wrote.points, wrote.slots, wrote.levels),
                    )


if __name__ == "__main__":
    unittest.main()
