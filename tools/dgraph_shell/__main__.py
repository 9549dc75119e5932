"""Starts the tool where the package is run, by its name or by its folder."""

import sys
from pathlib import Path

if not __package__:
    sys.path[0] = str(Path(__file__).resolve().parent.parent)

from dgraph_shell.words import main

if __name__ == "__main__":
    sys.exit(main())
