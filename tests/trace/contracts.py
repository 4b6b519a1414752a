"""Every public function of the crates has a contract that names its result, and no function that C calls has a `requires`. What a contract says of
the result is for readers and for the must-fail edits; this finds the one that says nothing.
"""

import pathlib
import re
import sys

CRATES = pathlib.Path("crates")


def heads(file):
    """The public functions of a file: each with all that stands before its body, on one line."""
    text = re.sub(r"//.*$", "", file.read_text(), flags=re.M)
    return [" ".join(head.split()) for head in re.findall(r"^ *(pub (?:extern \"C\" )?fn .*?)^ *\{$", text, re.M | re.S)]


def result(head):
    """The type after the parameters of a function, or nothing: an arrow in the bound of a type parameter is none of the function's."""
    signature = re.split(r" (?:requires|ensures)\b", head)[0]
    at, depth = signature.index("("), 0
    bounds = re.search(r"fn \w+<", signature)
    if bounds:
        at, depth = bounds.end(), 1
        while depth:
            depth += {"<": 1, ">": -1}.get(signature[at], 0) if signature[at - 1:at + 1] != "->" else 0
            at += 1
    while True:
        depth += {"(": 1, ")": -1}.get(signature[at], 0)
        at += 1
        if not depth:
            return signature[at:].partition("->")[2].strip()


def faults(head):
    name = re.search(r"fn (\w+)", head).group(1)
    ensured = head.partition(" ensures ")[2]
    if not ensured:
        yield f"{name} ensures nothing"
    elif result(head) and not re.search(r"\bresult\b", ensured):
        yield f"{name} gives a result that its contract does not name"
    if 'extern "C"' in head and "requires" in head:
        yield f"{name} is called from C and requires something"


def main():
    read = [(file, head) for file in sorted(CRATES.glob("*/src/**/*.rt")) for head in heads(file)]
    found = [f"{file}: {fault}" for file, head in read for fault in faults(head)]
    for fault in found:
        print(fault)
    print(f"contracts: {len(read)} public functions read, {len(found)} faults")
    return 1 if found or not read else 0


if __name__ == "__main__":
    sys.exit(main())
