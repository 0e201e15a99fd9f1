#!/usr/bin/env python3
"""Makes one run of a plan: one.py FOLDER NUMBER. Its files are in FOLDER. The status is 0 where the simulator has run the
program to some end, and else the simulator's."""

import sys
from pathlib import Path

from runs import make_run, read_plan
from settings import refuse


def main() -> int:
    """Reads the words, and makes the run."""
    if len(sys.argv) != 3 or not sys.argv[2].isascii() or not sys.argv[2].isdigit():
        refuse("FOLDER NUMBER are wanted")
    folder = Path(sys.argv[1])
    status = make_run(folder, read_plan(folder), int(sys.argv[2]))
    return 0 if status <= 3 else status


if __name__ == "__main__":
    sys.exit(main())
