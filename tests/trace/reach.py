"""What the tests reach: the definitions that the equations compute, and the functions that the linked library and the job program call. A name
counts as reached if it is used there or by something that is; this finds a row that names a test of something else, and no more.

  read              reads the crates of equations in a folder
  out_of_equations  the definitions of a row that no equation computes
  out_of_library    whether a row names functions and none of them is called
"""

import pathlib
import re

CRATES = pathlib.Path("crates")
WORD = r"[^\s(){}.,;`∷]+"

computed = {}
called = set()


def definitions():
    """The definitions, each with the names that its text has."""
    found = {}
    for file in sorted((CRATES / "definition" / "specs").glob("*.antt")):
        text = re.sub(r"^--.*$", "", file.read_text(), flags=re.M)
        for part in re.split(r"^(?=unfoldable pub |abbrev pub |pub record )", text, flags=re.M)[1:]:
            name = re.match(rf"(?:unfoldable pub|abbrev pub|pub record) ({WORD})", part).group(1)
            found[name] = set(re.findall(WORD, part)) - {name}
    return found


def functions():
    """The functions of the crates, as (crate, name), each with the names that it calls; and those that other languages call."""
    found, entries = {}, []
    for file in sorted(CRATES.glob("*/src/**/*.rt")):
        text = re.sub(r"//.*$", "", file.read_text(), flags=re.M)
        for part in re.split(r"(?=\bfn \w+)", text)[1:]:
            key = (file.parts[1], re.match(r"fn (\w+)", part).group(1))
            found.setdefault(key, set()).update(re.findall(r"(\w+)\(", part))
        entries += [(file.parts[1], name) for name in re.findall(r'extern "C" fn (\w+)', text)]
    return found, [*entries, ("job_program", "main")]


def closed(first, uses):
    """The names that are reached from the first ones."""
    reached, rest = set(), list(first)
    while rest:
        name = rest.pop()
        if name not in reached:
            reached.add(name)
            rest += uses(name)
    return reached


def read(equations):
    uses = definitions()
    laws = [law for file in equations.glob("*/proofs/*.antt") for law in re.findall(r"^laws\d+ : (.*)$", file.read_text(), re.M)]
    named = set(re.findall(WORD, " ".join(laws))) & uses.keys()
    reached = closed(named, lambda name: uses[name] & uses.keys())
    # a promise is no function: it is reached by what it is made of
    computed.update({name: name in reached or bool(parts & reached) and name[0].isupper() for name, parts in uses.items()})
    calls, entries = functions()
    by_name = {}
    for key in calls:
        by_name.setdefault(key[1], []).append(key)
    called.update(closed(entries, lambda key: [to for name in calls[key] for to in by_name.get(name, [])]))


def out_of_equations(cell):
    """Faults of a row that names the equations: each function that it names is computed, and some part of a promise or a property."""
    names = [name.split(".")[0] for _, listed in re.findall(r"`([A-Z]\w*): ([^`]+)`", cell) for name in listed.split(", ")]
    if not any(computed.get(name) for name in names):
        yield "names the equations, which reach no definition of the row"
    yield from (f"names the equations, which do not reach {name}" for name in names if name[0].islower() and not computed.get(name, True))


def out_of_library(cell):
    """Faults of a row that names the linked library: some function that it names is called."""
    names = [(crate, name) for crate, name in re.findall(r"`(\w+)(?:::\w+)*::(\w+)`", cell) if name[0].islower()]
    if names and not any(name in called for name in names):
        yield f"names the linked library, which calls none of {', '.join('::'.join(name) for name in names)}"
