"""Tries programs that make a weight without a product: each edit of tests/weights/must-fail is made in a copy of the crates, and the compiler
must refuse it there, because the places of a weight are private to the crate of the products. Nothing is left to prove then, so these are no
must-fail edits of a crate, which the prover has to refuse.

Usage: refused.py REPOSITORY ROOM, with the proved repository and the folder to work in.
"""

import pathlib
import shutil
import subprocess
import sys

EDITS = pathlib.Path(__file__).parent / "must-fail"
REFUSAL = "error[private-field]: field `places` of struct `Weight` is private"


def below(repository, crate):
    """The crate and those that it stands on, with what crates.txt says of each."""
    lines = [line.split("#")[0].strip() for line in (repository / "crates.txt").read_text(encoding="utf-8").splitlines()]
    rows = {line.partition(":")[0].split()[0]: line for line in lines if line}
    found, rest = {}, [crate]
    while rest:
        name = rest.pop()
        if name in rows and name not in found:
            found[name] = rows[name]
            rest += rows[name].partition(":")[2].split()
    return found


def copied(repository, room, crate):
    """The crates, and what is kept of their proofs."""
    shutil.rmtree(room, ignore_errors=True)
    rows = below(repository, crate)
    for name in rows:
        shutil.copytree(repository / "crates" / name, room / "crates" / name)
    (room / "crates.txt").write_text("\n".join(rows.values()) + "\n", encoding="utf-8")


def check(folder):
    """Whether the crate is admitted, and what is said of it."""
    done = subprocess.run(["rt", "check"], cwd=folder, capture_output=True, text=True)
    return done.returncode == 0, (done.stdout + done.stderr).splitlines()


def tried(repository, room, edit):
    """Makes the edit in a copy, and says whether the compiler refused it for the private field."""
    name, old, new = (line.split(": ", 1)[1] for line in edit.read_text(encoding="utf-8").splitlines())
    crate, _, inside = name.partition("/")
    copied(repository, room, crate)
    folder = room / "crates" / crate
    file = folder / inside
    text = file.read_text(encoding="utf-8")
    if text.count(old) != 1:
        return False, f"its old text stands {text.count(old)} times in {name}"
    if not check(folder)[0]:
        return False, f"{crate} is not admitted without it"
    file.write_text(text.replace(old, new), encoding="utf-8")
    admitted, said = check(folder)
    refused = not admitted and any(line.startswith(f"{inside}:") and line.endswith(REFUSAL) for line in said)
    return refused, f"refused: {REFUSAL}" if refused else "NOT REFUSED AS IT MUST BE"


def main(repository, room):
    edits = sorted(EDITS.glob("*.edit"))
    passed = 0
    for edit in edits:
        ok, line = tried(repository, room, edit)
        passed += ok
        print(f"{edit.stem}: {line}", flush=True)
    shutil.rmtree(room, ignore_errors=True)
    print(f"{passed} passed, {len(edits) - passed} failed")
    return 0 if edits and passed == len(edits) else 1


if __name__ == "__main__":
    sys.exit(main(pathlib.Path(sys.argv[1]).resolve(), pathlib.Path(sys.argv[2]).resolve()))
