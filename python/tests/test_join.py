"""yds-join: texts of one document, where their units are the same."""

import tempfile
import unittest
from pathlib import Path
from typing import Tuple

from called import EXPECTED, call

POINTS = "# table: speed unit 10000 kHz, power unit 1000 uW\npoint 0 0\n"
TRACE = "# time 0 is 5.5 s\n# time unit 10 us, speed unit 10000 kHz\njob a 0 9 4\n"


class JoinTest(unittest.TestCase):
    def setUp(self) -> None:
        folder = tempfile.TemporaryDirectory()
        self.addCleanup(folder.cleanup)
        self.folder = Path(folder.name)

    def join(self, *texts: str) -> Tuple[int, str, str]:
        """Status, output and error, with the files' bare names."""
        files = []
        for place, text in enumerate(texts):
            files.append(self.folder / f"t{place}")
            files[-1].write_bytes(text.encode("latin-1"))
        called = call("join", *files)
        return called.status, called.out, called.err.replace(f"{self.folder}/", "")

    def test_one_text_after_the_other(self) -> None:
        points, trace = EXPECTED / "points.txt", EXPECTED / "document.txt"
        self.assertEqual(call("join", points, trace), (0, points.read_text() + trace.read_text(), ""))
        self.assertEqual(
            self.join("# period 10\r\njob c 0 10 1", "# period 10\njob a 0 10 1 # \xb5\n")[1],
            "# period 10\njob c 0 10 1\n# period 10\njob a 0 10 1 # \xb5\n",
        )
        told = "# t1 tells no units: they are taken to be those of t0\n"
        self.assertEqual(self.join(POINTS, "job a 0 9 4\n"), (0, POINTS + "job a 0 9 4\n" + told, ""))

    def test_what_is_refused(self) -> None:
        for texts, told in [
            (
                (POINTS, TRACE.replace("10000 kHz", "1000 kHz")),
                "t1, line 2: a unit of speed of 1000 kHz here, and 10000 kHz in t0; give both the same --khz",
            ),
            (
                (TRACE, TRACE.replace("10 us", "100 us")),
                "t1, line 2: a unit of time of 100 us here, and 10 us in t0; give both the same --us",
            ),
            (
                (POINTS, POINTS.replace("1000 uW", "10 uW")),
                "t1, line 1: a unit of power of 10 uW here, and 1000 uW in t0; give the points of one --uw",
            ),
            ((TRACE, TRACE.replace("5.5", "5.6")), "t1, line 1: time 0 at 5.6 s here, and 5.5 s in t0; give one trace"),
            (
                ("# period 10\njob a 0 9 4\n", "# period 20\njob b 0 9 4\n"),
                "t1, line 1: the period 20 here, and 10 in t0; give the jobs of one horizon",
            ),
            ((POINTS, POINTS), "t1 has points, and t0 too; give the points of one device"),
            ((POINTS, "# nothing\n"), "t1 has no line of a document; look at what wrote it"),
            ((POINTS, "failed\n"), "t1, line 1: the input is an answer of no: failed"),
            ((POINTS, "MHz,mA\x1b\n"), 't1, line 1: "MHz,mA?" is no line of a document'),
        ]:
            status, out, err = self.join(*texts)
            self.assertEqual((status, out.splitlines()[-1], err), (1, "failed", f"yds-join: {told}\n"))
        self.assertEqual(call("join", EXPECTED / "points.txt")[:2], (2, "failed\n"))
        called = call("join", EXPECTED / "points.txt", self.folder)
        self.assertEqual(called[:2], (1, "failed\n"))


if __name__ == "__main__":
    unittest.main()
