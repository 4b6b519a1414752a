"""Every name that the tables of docs/TRACE.md and docs/GUARANTEES.md give in backquotes stands where it says, no row is open, and what a row says of
its tests holds as far as it can be looked up.

`File: a, B.part`         names of crates/definition/specs/File.antt, or of proofs/File.antt there
`crate/File: a, b`        names of crates/crate/specs/File.antt, or of proofs/File.antt there
`crate: a`                a name of one of the crate's files of specs/, or right in proofs/
`crate::module::a`, `b`   functions and types of the crate's sources; names listed after it belong to the same crate
`crate!edit`              the must-fail edit of that name, of a crate or, as `definitions!edit` and `weights!edit`, of tests/
`second: group`           a group of the second implementation's check of itself; `linked: group` one of tests/linked

Usage: names.py EQUATIONS, with the folder of the crates of equations that tests/definitions writes.
"""

import pathlib
import re
import sys

import reach

PAGES = ["docs/TRACE.md", "docs/GUARANTEES.md"]
CRATES = pathlib.Path("crates")
TESTS = pathlib.Path("tests")
NAME = r"[^\s`,:;|(){}]+"
GROUPED = ["second", "linked"]
KNOWN = [*GROUPED, "equations", "c-interface", "installed", "joiner", "job-tool"]


def declared(files):
    """The names that such files declare: definitions, theorems, types, and the parts and cases of types."""
    text = "\n".join(file.read_text() for file in files)
    return set(re.findall(rf"^\s*(?:pub |abbrev |unfoldable |data |record )*({NAME})(?= [:({{])", text, re.M))


def sources(crate):
    """The functions and types of a crate's sources."""
    text = "\n".join(file.read_text() for file in (CRATES / crate / "src").rglob("*.rt"))
    return set(re.findall(r"\b(?:fn|struct|enum) (\w+)", text))


def laws(crate, file):
    """The files of this name, or pattern, in which a crate declares definitions and theorems."""
    return [found for part in ["specs", "proofs"] for found in sorted((CRATES / crate / part).glob(f"{file}.antt"))]


def missing_in_laws(place, names):
    crate, _, file = place.rpartition("/")
    known = declared(laws(crate or "definition", file) or laws(place, "*"))
    parts = [part for name in names.split(",") for part in name.strip().split(".")]
    return [f"{place}: {part}" for part in parts if part not in known]


def groups(test):
    """The groups that a test in Rust runs."""
    return set(re.findall(r'^    \("(.+)", ', (TESTS / test / "main.rs").read_text(), re.M))


def missing_edits(row):
    for crate, edit in re.findall(r"`(\w+)!(\w+)`", row):
        folder = TESTS / crate if crate in ["definitions", "weights"] else CRATES / crate
        if not (folder / "must-fail" / f"{edit}.edit").is_file():
            yield f"{crate}!{edit}"


def missing_in_row(row):
    """The names of a row that do not stand where it says, and how many were looked up."""
    missing, read = list(missing_edits(row)), len(re.findall(r"`\w+!\w+`", row))
    for crate, name, others in re.findall(r"`(\w+)(?:::\w+)*::(\w+)`((?:, `[a-z_]+`)*)", row):
        names = [name, *re.findall(r"\w+", others)]
        missing += [f"{crate}::{name}" for name in names if name not in sources(crate)]
        read += len(names)
    for place, names in re.findall(rf"`([A-Za-z_]+(?:/[A-Za-z]+)?): ({NAME}(?:, {NAME})*)`", row):
        if place not in GROUPED:
            missing += missing_in_laws(place, names)
            read += len(names.split(","))
    return missing, read


def cells_of(row):
    return [cell.strip() for cell in row.strip().strip("|").split("|")]


def untrue_tests(header, row):
    """What the row's Test column says that does not hold."""
    cells = dict(zip(header, cells_of(row)))
    tests = cells.pop("Test", "")
    others = " ".join(cells.values())
    for name in re.findall(r"`([^`]+)`", tests):
        if "!" in name:
            continue
        test, _, group = name.partition(": ")
        if test not in KNOWN:
            yield f"names the test {test}, which there is not"
        elif group and group not in groups(test):
            yield f"names the group '{group}' of {test}, which there is not"
        if test == "equations":
            yield from reach.out_of_equations(others)
        if test == "linked":
            yield from reach.out_of_library(others)


def check(page):
    """Prints what is wrong with the tables of a page; how many names were looked up, and how many faults there are."""
    faults, read, header = [], 0, []
    for line in pathlib.Path(page).read_text().splitlines():
        if not line.startswith("|"):
            header = []
            continue
        header = header or cells_of(line)
        missing, count = missing_in_row(line)
        faults += [f"names {name}, which does not stand there" for name in missing]
        faults += [f"{fault}: {line[:60]}" for fault in untrue_tests(header, line)]
        if re.search(r"\bopen\b", re.sub(r"`[^`]*`", "", line)):
            faults.append(f"has an open row: {line}")
        read += count
    for fault in faults:
        print(f"{page} {fault}")
    return read, len(faults)


def main():
    reach.read(pathlib.Path(sys.argv[1]))
    checked = [check(page) for page in PAGES]
    faults = sum(count for _, count in checked)
    print(f"trace: {sum(read for read, _ in checked)} names looked up, {faults} faults")
    return 1 if faults else 0


if __name__ == "__main__":
    sys.exit(main())
