"""Runs the example that joins the halves of a protocol, cut at every cycle, and holds what it prints against exact integers; then what it says
to wrong arguments.

Usage: halves.py HALVES
"""

import re
import sys

from exact import Report, composed, run, whole

MODULI = [2, 7, 2147483647, 4294967291]

# the order, and the lists of the cycles, which all differ
PROTOCOLS = [
    (5, [[0, 1, 1], [0, 1, 2]]),
    (1, [[0, 3], [0, 0, 1], [0]]),
    (2, [[0, 3], [0, 5, 1], [0, 2]]),
    (40, [[0, 9 - k, k] for k in range(1, 9)]),
    (30, [[0, 1, 0, 2], [0, 1, 3], [0, 1, 1], [0, 7], [0, 2, 5, 1]]),
    (12, [[0, 1, 1] + [0] * 20 + [1], [0, 2, 0, 0, 1]]),
]

# arguments, what is printed, and a part of what the program says on standard error
REFUSED = [
    (["6", "5", "0,1", "/", "0,1"], "no 2\n", ""),
    (["7", "0", "0,1", "/", "0,1"], "no 3\n", ""),
    (["7", "5", "0,7", "/", "0,1"], "no 8\n", ""),
    (["7", "5", "0,1", "/", "0,7"], "no 8\n", ""),
    (["7", "5", "0,1", "/", "1,1"], "no 10\n", ""),
    (["7", "5", "/", *["0,1"] * 65], "no 11\n", ""),
    (["7"], "", "a modulus and an order"),
    (["7", "4097", "/"], "", "not an order up to 4096"),
    (["7x", "5", "/"], "", "not a modulus"),
    (["7", "5", "0,1"], "", "a slash is wanted"),
    (["7", "5", "/", "0,1", "/"], "", "there is a second"),
    (["7", "5", "0,,1", "/"], "", "not a whole number"),
    (["7", "5", "0,1,", "/"], "", "not a whole number"),
    (["7", "5", "0,-1", "/"], "", "not a whole number"),
    (["7", "5", "0,4294967296", "/"], "", "not a whole number below 2^32"),
    (["7", "5", "0;1", "/"], "", "with commas between"),
    (["7", "5", ",".join(["0"] * 4097), "/"], "", "more than 4096 places"),
]


def words(lists):
    return [",".join(map(str, coefficients)) for coefficients in lists]


def joined(halves, p, n, lists, cut):
    """The coefficients that the program prints, or None where it does not print an accepted answer."""
    done = run(halves, str(p), str(n), *words(lists[:cut]), "/", *words(lists[cut:]))
    printed = re.fullmatch(rf"ok {n} \d+\n([\d ]+)\n", done.stdout)
    if done.returncode or done.stderr or not printed:
        return None
    return [int(coefficient) for coefficient in printed[1].split(" ")]


def main():
    halves = sys.argv[1]
    report = Report()
    ordered = 0
    for n, lists in PROTOCOLS:
        for p in MODULI:
            residues = [[c % p for c in coefficients] for coefficients in lists]
            wanted = [c % p for c in whole(n, len(lists), residues)]
            for cut in range(len(lists) + 1):
                found = joined(halves, p, n, residues, cut)
                report.see(found == wanted, f"{p} {n} {residues} cut at {cut}: {found} for {wanted}")
                first, rest = whole(n, cut, residues), whole(n, len(lists) - cut, residues[cut:])
                ordered += [c % p for c in composed(rest, first, n)] != wanted
    # twice as many cycles as one chain takes
    found = joined(halves, 7, 3, [[0, 3]] * 128, 64)
    report.see(found == [0, pow(3, 128, 7), 0], f"64 cycles and 64 cycles: {found}")
    report.see(ordered > 0, "no case shows the order of the halves")
    for arguments, printed, said in REFUSED:
        done = run(halves, *arguments)
        report.see((done.returncode, done.stdout) == (1, printed) and said in done.stderr, f"{arguments}: {done}")
    with open("/dev/full", "w") as full:
        done = run(halves, stdout=full)
    report.see(done.returncode == 1 and "could not be written whole" in done.stderr, f"an output that takes nothing: {done}")
    print(f"halves: {report.tried} checks; {report.failures} failures")
    sys.exit(1 if report.failures else 0)


if __name__ == "__main__":
    main()
