"""Holds what the examples print against what they must print.

Usage: printed.py FOLDER NAME..., with the folder that these examples were built into.
"""

import pathlib
import subprocess
import sys

# the arguments of each example, and what it prints
PRINTED = {
    "chain": ([], "ok 5 20\n0 1 3 4 4\n"),
    "compose": ([], "ok 4 8\n1 2 5 6\n2147483647\n"),
    "halves": ([], "ok 5 59\n0 1 3 4 4\n"),
    "joiner": (["5", "2", "0,1,1", "0,1,2"], "0\n1\n3\n4\n4\n"),
}


def wrong(folder, name):
    """What an example does that is wrong, or None."""
    arguments, expected = PRINTED[name]
    done = subprocess.run([pathlib.Path(folder).resolve() / name, *arguments], capture_output=True, text=True)
    if (done.returncode, done.stdout, done.stderr) == (0, expected, ""):
        return None
    return f"{name} printed {done.stdout!r} with status {done.returncode}: {done.stderr}"


if __name__ == "__main__":
    found = [wrong(sys.argv[1], name) for name in sys.argv[2:]]
    sys.exit("\n".join(filter(None, found)) or 0)
