"""The page on the C interface shows the examples as they are compiled.

Usage: shown.py PAGE FILE...
"""

import sys

page, *files = (open(name, encoding="utf-8").read() for name in sys.argv[1:])
for name, file in zip(sys.argv[2:], files):
    if f"```c\n{file}```\n" not in page:
        sys.exit(f"{sys.argv[1]} does not show {name} as it is")
