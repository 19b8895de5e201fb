#!/usr/bin/env python3
"""Jobs of a depth-ordered scan as text, and sessions shown as the rows come out: `scan.py --help`."""

import sys

from scanlib.options import main


def status() -> int:
    """As `main` says. 1 means refused: a fault of the tool itself must not end with it, as Python would."""
    try:
        return main()
    except Exception as fault:
        print(f"scan.py: a fault of this tool, not of its input: {fault!r}", file=sys.stderr)
        return 2


if __name__ == "__main__":
    sys.exit(status())
