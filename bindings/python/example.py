#!/usr/bin/env python3
"""example.py LIBRARY SCRIPT REPORT [STANDING]..: judges a report, and writes yes or no.

The last words are the names of the endpoints that stood. The status is 0 for yes, 1 for no, and 2 otherwise.
"""

import sys
from pathlib import Path

import codzvregi


def main(words: list[str]) -> int:
    """Judges what the words name, and answers the exit status."""
    if len(words) < 3:
        print(__doc__.splitlines()[0], file=sys.stderr)
        return 2
    script, report = (Path(name).read_bytes() for name in words[1:3])
    try:
        is_history = codzvregi.Library(words[0]).judge(script, report, words[3:])
    except codzvregi.Fault as fault:
        print(fault, file=sys.stderr)
        return 2
    print("yes" if is_history else "no")
    return 0 if is_history else 1


if __name__ == "__main__":
    sys.exit(main(sys.argv[1:]))
