"""crates.txt lists of each crate only what it uses: a dependency is named in its sources, or in its definitions and proofs."""

import pathlib
import re
import sys

CRATES = pathlib.Path("crates")


def listed():
    """The crates of crates.txt, each with what it depends on."""
    lines = (line.split("#")[0] for line in pathlib.Path("crates.txt").read_text().splitlines())
    rows = (line.split(":") for line in lines if line.strip())
    return {kind.split()[0]: rest.split() for kind, rest in rows}


def used(crate):
    """The crates that the files of a crate name, and other words that stand where such a name may."""
    code = " ".join(file.read_text() for file in (CRATES / crate / "src").rglob("*.rt"))
    laws = code + " ".join(file.read_text() for file in (CRATES / crate).rglob("*.antt"))
    return set(re.findall(r"\b(\w+)::", code)) | set(re.findall(r"\bRattle\.(\w+)\.", laws))


def main():
    rows = listed()
    found = [f"{crate} does not use {name}" for crate, names in rows.items() for name in sorted(set(names) - used(crate))]
    for fault in found:
        print(f"crates.txt: {fault}")
    print(f"dependencies: {len(rows)} crates read, {len(found)} faults")
    return 1 if found or not rows else 0


if __name__ == "__main__":
    sys.exit(main())
