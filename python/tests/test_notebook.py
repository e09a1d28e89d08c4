"""The notebook of library/examples: its cells run from the first to the last, and print what stands in it."""

import ast
import io
import json
import os
import unittest
from contextlib import redirect_stdout
from importlib.util import find_spec
from typing import Any, Dict, List

from stored import ROOT

PLACE = ROOT / "library" / "examples" / "folder.ipynb"


def run(source: str, names: Dict[str, Any]) -> Any:
    """Runs a cell, and gives the value of its last line, if that is an expression."""
    tree = ast.parse(source)
    last = tree.body.pop() if tree.body and isinstance(tree.body[-1], ast.Expr) else None
    exec(compile(tree, str(PLACE), "exec"), names)
    if not isinstance(last, ast.Expr):
        return None
    return eval(compile(ast.Expression(last.value), str(PLACE), "eval"), names)


def printed(cell: Dict[str, Any]) -> str:
    """What a stored cell has printed."""
    return "".join("".join(output["text"]) for output in cell["outputs"] if output["output_type"] == "stream")


class Notebook(unittest.TestCase):
    def setUp(self) -> None:
        self.addCleanup(os.chdir, os.getcwd())
        os.chdir(PLACE.parent)

    def test_its_cells_run_and_print_what_stands_in_it(self) -> None:
        cells: List[Dict[str, Any]] = json.loads(PLACE.read_text(encoding="utf-8"))["cells"]
        names: Dict[str, Any] = {"__name__": "__main__"}
        pictures = 0
        for place, cell in enumerate(cells):
            source = "".join(cell["source"])
            if cell["cell_type"] != "code" or ("matplotlib" in source and not find_spec("matplotlib")):
                continue
            told = io.StringIO()
            with self.subTest(place), redirect_stdout(told):
                value = run(source, names)
            self.assertEqual(told.getvalue(), printed(cell))
            stored = [output["data"] for output in cell["outputs"] if output["output_type"] == "execute_result"]
            if stored and "image/svg+xml" in stored[0]:
                self.assertEqual(value._repr_svg_(), "".join(stored[0]["image/svg+xml"]))
                pictures += 1
        self.assertEqual(pictures, 2)


if __name__ == "__main__":
    unittest.main()
