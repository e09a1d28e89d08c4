#!/usr/bin/env python3
"""The start of each command: a link to this file, or what pip makes, has the name of the command, as yds-scale.

Who calls the file itself gives the name as the first word.
"""

from __future__ import annotations

import os
import signal
import sys
from importlib import import_module

if __name__ == "__main__":
    # The folder of this file is no place of modules; the one that holds the package is.
    sys.path[0] = os.path.dirname(os.path.dirname(os.path.dirname(os.path.realpath(__file__))))


def start() -> int:
    """Runs the command that the program's name says, and gives its status."""
    name = os.path.basename(sys.argv[0])
    if name == "_start.py" and len(sys.argv) > 1:
        name = sys.argv.pop(1)
    module = name.replace("yds-", "", 1)
    try:
        main = import_module(f"yds.commands.{module}").main
    except ModuleNotFoundError as fault:
        if fault.name != f"yds.commands.{module}":
            raise
        sys.stderr.write(f"{name}: there is no command of this name\n")
        return 2
    except KeyboardInterrupt:
        return 128 + signal.SIGINT
    status: int = main(sys.argv[1:])
    return status


if __name__ == "__main__":
    sys.exit(start())
