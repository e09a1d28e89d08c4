"""test_believed.py: tries what docs/believed.py counts with two small crates, whose definitions are known by hand.

    python3 checks/test_believed.py

The last line is 'N passed, M failed'.
"""

import sys
import tempfile
import unittest
from pathlib import Path

ROOT = Path(__file__).resolve().parent.parent
sys.path.insert(0, str(ROOT / "docs"))

import believed  # noqa: E402
from believed import Place  # noqa: E402

LOW = """-- The lower one.
use Rattle.std.specs.Prelude.{ℕ}

-- a comment
abbrev pub low : ℕ → ℕ
low n = n

abbrev pub other : ℕ
other = 1

abbrev pub ◌under◌ : ℕ → ℕ → Bool
a under b = nat_lt a b
"""

HIGH = """use Rattle.low.specs.Low.{low, ◌under◌}

pub record High : Type 0 where
  -- its height
  pub height : ℕ

  pub is : low height ≡ height

abbrev pub quite_high : High → Bool
quite_high high = high.height under 7

abbrev pub alone : ℕ
alone = 3
"""


class Believed(unittest.TestCase):
    """What is counted of small crates."""

    def setUp(self) -> None:
        room = tempfile.TemporaryDirectory()
        self.addCleanup(room.cleanup)
        crates = Path(room.name)
        for crate, name, text in (("low", "Low", LOW), ("high", "High", HIGH)):
            (crates / crate / "specs").mkdir(parents=True)
            (crates / crate / "specs" / f"{name}.antt").write_text(text, encoding="utf-8")
        self.definitions = believed.Definitions(crates)

    def names(self, *names: str) -> list[str]:
        """Gives the names of what these of the upper crate rest on."""
        return sorted(it.name for it in self.definitions.reached([Place("high/specs/High", name) for name in names]))

    def test_what_stands_alone(self) -> None:
        self.assertEqual(self.names("alone"), ["alone"])

    def test_of_another_crate(self) -> None:
        self.assertEqual(self.names("High"), ["High", "low"])

    def test_an_operator_and_what_it_rests_on(self) -> None:
        self.assertEqual(self.names("quite_high"), ["High", "low", "quite_high", "◌under◌"])

    def test_lines_without_comments(self) -> None:
        place = Place("high/specs/High", "High")
        self.assertEqual(len(self.definitions.lines(place)), 3)
        self.assertEqual(believed.told(self.definitions, "high", [place]), "high: 2 definitions, 5 lines")

    def test_no_definition_of_that_name(self) -> None:
        self.assertEqual(believed.main(["--crates", str(self.definitions.crates), "high/High", "none"]), 1)

    def test_the_promises_are_there(self) -> None:
        definitions = believed.Definitions(ROOT / "crates")
        for promise in believed.PROMISES:
            for place in promise.places:
                self.assertIn(place.name, definitions.read(place.file))


def main() -> int:
    suite = unittest.defaultTestLoader.loadTestsFromModule(sys.modules[__name__])
    result = unittest.TextTestRunner(stream=sys.stdout).run(suite)
    failed = len(result.failures) + len(result.errors)
    print(f"{result.testsRun - failed} passed, {failed} failed")
    return 1 if failed else 0


if __name__ == "__main__":
    sys.exit(main())
