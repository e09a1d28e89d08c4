"""Writes the manual page of each command of the Python package, as its --man does: man.py FOLDER NAME .., from python/yds."""

import sys
from importlib import import_module
from pathlib import Path
from typing import Sequence

ROOT = Path(__file__).resolve().parent.parent
sys.path.insert(0, str(ROOT / "python"))
sys.dont_write_bytecode = True


def main(folder: str, names: Sequence[str]) -> None:
    """A file NAME.1 for each command."""
    manual_of = import_module("yds._words").manual_of
    for name in names:
        command = import_module(f"yds.commands.{name.replace('yds-', '', 1)}").COMMAND
        Path(folder, f"{name}.1").write_text(manual_of(command) + "\n", encoding="latin-1")


if __name__ == "__main__":
    main(sys.argv[1], sys.argv[2:])
