"""The examples of the docstrings and of the pages, and the page of all calls."""

import doctest
import importlib
import inspect
import pkgutil
import re
import unittest

import yds
from stored import ROOT


def load_tests(loader: unittest.TestLoader, tests: unittest.TestSuite, pattern: object) -> unittest.TestSuite:
    """A test for each docstring and page that has examples."""
    tests.addTests(doctest.DocTestSuite(yds))
    for module in pkgutil.iter_modules(yds.__path__, "yds."):
        tests.addTests(doctest.DocTestSuite(importlib.import_module(module.name)))
    for page in ("docs/library.md", "README.md", "python/README.md"):
        tests.addTests(doctest.DocFileSuite(str(ROOT / page), module_relative=False, encoding="utf-8"))
    tests.addTests(loader.loadTestsFromTestCase(Calls))
    return tests


class Calls(unittest.TestCase):
    def test_the_page_of_calls_has_what_the_package_gives(self) -> None:
        """Several modules have a Run, a Job or a near of their own: the page has those that the package gives."""
        page = (ROOT / "docs" / "api.md").read_text()
        entries = dict(re.findall(r"^### (yds\.\S+)\n\n((?:.|\n)*?)(?=^##)", page + "##", re.MULTILINE))
        for module in (yds, yds.energy, yds.pictures, yds.schedule):
            for name in module.__all__:
                given = getattr(module, name)
                if inspect.ismodule(given) or not callable(given) or not inspect.getdoc(given):
                    continue
                first = str(inspect.getdoc(given)).split("\n")[0]
                home = f"{given.__module__}.{given.__qualname__}"
                found = entries.get(f"{module.__name__}.{name}") or entries.get(f"yds.{name}", "")
                with self.subTest(home):
                    self.assertIn(first, found.replace("\\", ""))


if __name__ == "__main__":
    unittest.main()
