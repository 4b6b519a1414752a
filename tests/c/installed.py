"""What 'make install' puts into a folder, and the examples built from it alone: their sources are copied out of the tree, and compiler and
linker learn from pkg-config where the header and the archive are. Once with PREFIX, once with DESTDIR too.

Usage: installed.py, in the folder of the Makefile.
"""

import os
import pathlib
import re
import shutil
import stat
import subprocess
import sys
import tempfile

from printed import PRINTED, wrong

TREE = pathlib.Path(__file__).resolve().parents[2]
EXAMPLES = TREE / "examples"
FILES = ["include/ruhitapo.h", "lib/libruhitapo.a", "lib/pkgconfig/ruhitapo.pc"]
STRICT = ["-std=c99", "-O2", "-Wall", "-Wextra", "-Werror", "-pedantic"]


def run(*command, **how):
    done = subprocess.run(command, capture_output=True, text=True, **how)
    if done.returncode != 0:
        sys.exit(f"{' '.join(map(str, command))}: {done.stdout}{done.stderr}")
    return done.stdout + done.stderr


def check_files(folder):
    """Just these files stand below the folder, for everyone to read."""
    found = sorted(file for file in folder.rglob("*") if not file.is_dir())
    if [file.relative_to(folder).as_posix() for file in found] != FILES:
        sys.exit(f"other files were installed: {found}")
    for file in found:
        if stat.S_IMODE(file.stat().st_mode) != 0o644:
            sys.exit(f"{file} has not the permissions 644")


def pkg_config(places, *asked):
    return run("pkg-config", *asked, "ruhitapo", env={**os.environ, **places}).split()


def build(name, sources, places):
    """Builds an example with what pkg-config says; the compiler and the linker name every file that they read."""
    words = pkg_config(places, "--cflags", "--libs")
    read = run("gcc", *STRICT, "-H", "-Wl,--trace", "-o", name, f"{name}.c", *words, cwd=sources)
    if str(TREE) in read or "libruhitapo.a" not in read or "ruhitapo.h" not in read:
        sys.exit(f"{name} was built from the tree, or not from what is installed: {read}")


def check(room, prefix, staged):
    """Installs below the prefix, in a folder of its own if it is staged, and builds and runs every example from there."""
    stage = room / "stage"
    folder = stage / prefix.relative_to("/") if staged else prefix
    run("make", "--no-print-directory", "install", f"PREFIX={prefix}", f"DESTDIR={stage if staged else ''}")
    check_files(folder)
    places = {"PKG_CONFIG_LIBDIR": str(folder / "lib" / "pkgconfig"), "PKG_CONFIG_SYSROOT_DIR": str(stage) if staged else ""}
    if not re.fullmatch(r"\d+\.\d+\.\d+", *pkg_config(places, "--modversion")):
        sys.exit("the pkg-config file has no version")
    sources = room / "sources"
    shutil.copytree(EXAMPLES, sources, ignore=shutil.ignore_patterns("*.md"))
    names = sorted(source.stem for source in sources.glob("*.c"))
    if names != sorted(PRINTED):
        sys.exit(f"examples/ has {names}, and printed.py {sorted(PRINTED)}")
    for name in names:
        build(name, sources, places)
        fault = wrong(sources, name)
        if fault:
            sys.exit(fault)
    print(f"{', '.join(names)}: built from {'DESTDIR and PREFIX' if staged else 'PREFIX'} and run")


def main():
    for staged in [False, True]:
        with tempfile.TemporaryDirectory() as name:
            room = pathlib.Path(name).resolve()
            check(room, pathlib.Path("/opt/ruhitapo") if staged else room / "prefix", staged)


if __name__ == "__main__":
    main()
