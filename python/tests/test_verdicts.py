"""yds-whole of verdicts: the slot that one tells of is a slot of its part."""

import tempfile
import unittest
from pathlib import Path

from called import Called, call

FIRST = "# part 1: jobs 1 to 1, from 0 to 300, shift 0\njob a 0 300 200\nticks 1\nrun a 0 20 10\n"
LAST = "# part 2: jobs 2 to 2, from 800 to 900, shift 600, the last\njob b 200 300 100\nticks 1\nrun b 310 320 10\n"


class VerdictsTest(unittest.TestCase):
    def setUp(self) -> None:
        folder = tempfile.TemporaryDirectory()
        self.addCleanup(folder.cleanup)
        self.folder = Path(folder.name)
        for number, text in enumerate((FIRST, LAST), 1):
            (self.folder / f"part-0000{number}.txt").write_text(text)

    def whole(self, first: str, last: str) -> Called:
        """The verdict on the whole, of those on the parts."""
        places = [self.folder / f"part-0000{number}.audit" for number in (1, 2)]
        for place, text in zip(places, (first, last)):
            place.write_text(text + "\n")
        return call("whole", *places)

    def test_times_and_numbers_are_those_of_the_whole(self) -> None:
        told = self.whole("feasible", "late slot 1 b 320 deadline 300")
        self.assertEqual((told.status, told.out), (1, "late slot 2 b 920 deadline 900\n"))

    def test_a_slot_that_isnt_there(self) -> None:
        for number in (0, 2):
            told = self.whole("feasible", f"late slot {number} b 320 deadline 300")
            self.assertEqual((told.status, told.out), (1, "failed\n"))
            self.assertIn(f"part-00002.audit: tells of slot {number}, and the part has 1", told.err)


if __name__ == "__main__":
    unittest.main()
