#!/usr/bin/env python3
"""Tries wrong definitions: each edit of tests/definitions/must-fail is made in a copy of the definitions, and the equations with the
second implementation, those of the crate that its last line names, must refuse it. A wrong definition that is refused by itself shows
nothing, so it must still be admitted.

Usage: refused.py EQUATIONS ROOM, with the repository of the definitions and the equations that 'make definitions' wrote, and the folder to work in.
"""
import concurrent.futures
import os
import pathlib
import shutil
import subprocess
import sys

EDITS = pathlib.Path(__file__).parent / "must-fail"
EQUATIONS = "./proofs/Equations.antt:"


def prove(command, crate):
    """The prover's verdict on the crate of a folder, 0 where it admits it and 1 where it refuses it, and the lines that it prints."""
    done = subprocess.run(["rt", command, "--jobs", "1"], cwd=crate, capture_output=True, text=True)
    return done.returncode, (done.stdout + done.stderr).splitlines()


def copied(equations, room, crate):
    """The definitions and a crate of equations, with what is kept of their proofs."""
    for name in ["definition", crate]:
        shutil.copytree(equations / "crates" / name, room / "crates" / name)
    (room / "crates.txt").write_text(f"definition:\n{crate}: definition\n", encoding="utf-8")


def refused(equations, room, edit):
    """Makes the edit in a copy and says what refused it; None where nothing did."""
    name, old, new, crate = (line.split(": ", 1)[1] for line in edit.read_text(encoding="utf-8").splitlines())
    copied(equations, room, crate)
    file = room / "crates" / "definition" / name
    text = file.read_text(encoding="utf-8")
    if text.count(old) != 1:
        raise ValueError(f"its old text stands {text.count(old)} times in {name}")
    file.write_text(text.replace(old, new), encoding="utf-8")
    if prove("lib", room / "crates" / "definition")[0] != 0:
        raise ValueError("the definition is not admitted, so the edit shows nothing")
    verdict, lines = prove("check", room / "crates" / crate)
    errors = [line for line in lines if line.startswith(EQUATIONS) and ": error: " in line]
    if verdict > 1 or verdict == 1 and not errors:
        raise ValueError("the prover could not tell")
    return errors[0].split(": error: ")[1][:120] if verdict == 1 else None


def tried(equations, room, edit):
    """Whether the edit was refused, and the line that says so."""
    room = room / edit.stem
    shutil.rmtree(room, ignore_errors=True)
    try:
        error = refused(equations, room, edit)
    except ValueError as fault:
        return False, f"{edit.stem}: {fault}"
    finally:
        shutil.rmtree(room, ignore_errors=True)
    return error is not None, f"{edit.stem}: {'NOT REFUSED' if error is None else 'refused: ' + error}"


def main():
    equations, room = map(pathlib.Path, sys.argv[1:3])
    edits = sorted(EDITS.glob("*.edit"))
    passed = 0
    # half the processors: the gate runs this beside the proofs
    with concurrent.futures.ThreadPoolExecutor(max(1, os.cpu_count() // 2)) as pool:
        for ok, line in pool.map(lambda edit: tried(equations, room, edit), edits):
            passed += ok
            print(line, flush=True)
    print(f"{passed} passed, {len(edits) - passed} failed")
    sys.exit(0 if edits and passed == len(edits) else 1)


main()
