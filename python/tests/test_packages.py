"""What packages say of themselves: the wheel what pyproject.toml says, and debian/copyright whose code is in them."""

import re
import sys
import unittest
from email import message_from_string
from importlib.util import find_spec

from called import ROOT


class Metadata(unittest.TestCase):
    @unittest.skipUnless(find_spec("tomllib"), "Python reads TOML from 3.11 on")
    def test_both_say_the_same(self) -> None:
        import tomllib

        sys.path.insert(0, str(ROOT / "packaging"))
        self.addCleanup(sys.path.remove, str(ROOT / "packaging"))
        from wheel import METADATA  # type: ignore[attr-defined]

        told = message_from_string(METADATA)
        project = tomllib.loads((ROOT / "python" / "pyproject.toml").read_text())["project"]
        self.assertEqual((told["Name"], told["Summary"]), (project["name"], project["description"]))
        self.assertEqual(told["Requires-Python"], project["requires-python"])
        self.assertEqual(told["License"], project["license"]["text"])
        self.assertEqual(told["Author"], project["authors"][0]["name"])
        self.assertEqual(told.get_all("Classifier"), project["classifiers"])
        extras = project["optional-dependencies"]
        wanted = [f"{name}; extra == '{extra}'" for extra, names in extras.items() for name in names]
        self.assertEqual(told.get_all("Requires-Dist"), wanted)
        self.assertEqual(told.get_all("Provides-Extra"), list(extras))


class Copyright(unittest.TestCase):
    def test_each_crate_of_others_is_named(self) -> None:
        stands_on = {}
        for line in (ROOT / "crates.txt").read_text().splitlines():
            head, colon, below = line.partition("#")[0].partition(":")
            if colon:
                stands_on[head.split()[0]] = below.split()
        told = (ROOT / "debian" / "copyright").read_text().split("Files: *")[0]
        for program, its in (("yds_cli", "yds_cli\n and the library of (.*?);"), ("yds_trace_cli", "yds_trace of (.*?)\\.")):
            named = re.search(its, told, re.DOTALL)
            self.assertIsNotNone(named)
            crates = set(re.split(r",\s+|\s+and\s+", named.group(1).strip())) | {"json"}  # type: ignore[union-attr]
            below, waiting = set(), [program]
            while waiting:
                crate = waiting.pop()
                if crate not in below:
                    below.add(crate)
                    waiting += stands_on.get(crate, [])
            self.assertEqual(crates - {"json"}, below - set(stands_on) - {"json"})


if __name__ == "__main__":
    unittest.main()
