"""Runs the joining example and holds every coefficient that it prints against exact integers; then what it says to wrong arguments.

Usage: whole_numbers.py JOINER
"""

import math
import sys

from exact import Report, digits, primes, run, table, text, whole, words

USUAL = (300, 9, [[0, 1, 1], [0, 1, 2]])

# order, cycles, lists: every coefficient is below the product of the primes
JOINED = [
    USUAL,
    (1, 3, [[0, 1, 1]]),
    (2, 0, [[0, 1, 1]]),
    (5, 2, [[0, 1, 1]]),
    (513, 9, [[0, 1, 1]]),
    (64, 8, [[0, 1, 2]]),
    (200, 4, [[0, 1, 0, 2, 1]]),
    (40, 15, [[0, 3], [0, 4294967295]]),
    (40, 3, [[7, 1, 0, 5], [2, 9, 9, 9, 9, 9, 9]]),
    (3, 1, [[4294967295, 2147483647, 2147483249]]),
    (30, 6, [[0], [5, 2], [0, 0, 1]]),
    (20, 64, [[0, 1]]),
    (150, 10, [[0, 1, 1], [0, 2, 1], [0, 1]]),
    (4, 1, [[0, 1, 1] + [0] * 4093]),
    # the sum of all coefficients is not below the product, those below the order are
    (5, 30, [[0, 1, 1]]),
    (50, 30, [[0, 1, 1]]),
    (70, 30, [[0, 1, 1]]),
    (100, 20, [[0, 1, 1]]),
    (10, 64, [[0, 1, 1]]),
    (2, 64, [[0, 1, 1]]),
    (64, 20, [[0, 0, 4294967295]]),
    (64, 24, [[0, 4294967295]] * 18 + [[0, 0, 4294967295]] * 6),
    (8, 64, [[0, 4294967295], [0, 0, 4294967295]]),
    (3, 64, [[9, 0, 1], [7]]),
]

# the same with cycles that all differ, so that another order gives another table
DIFFERENT = [
    (5, 2, [[0, 1, 1], [0, 1, 2]]),
    (40, 8, [[0, 9 - k, k] for k in range(1, 9)]),
    (200, 8, [[0, 1, 1], [0, 1, 2], [0, 1, 3], [0, 2, 1], [0, 2, 3], [0, 3], [0, 3, 1], [0, 1, 4]]),
    (64, 5, [[0, 1, 0, 2], [0, 0, 3], [0, 1, 1], [0, 7], [0, 2, 5, 1]]),
    (30, 6, [[3, 1], [0, 1, 2], [1, 0, 0, 1], [2, 5], [0, 4, 1], [6, 1, 1]]),
    (3, 4, [[4294967295, 1, 1], [0, 2, 0, 0, 0, 1], [1, 4294967295], [5, 0, 1]]),
]

# arguments, and a part of what the program says
REFUSED = [
    (["300"], "usage"),
    (["300", "9"], "usage"),
    (["-h"], "usage"),
    (["--help", "9"], "usage"),
    (["--help", "9", "0,1"], "not a whole number"),
    (["0", "1", "0,1"], "too small"),
    (["4097", "1", "0,1"], "too large"),
    (["ten", "1", "0,1"], "not a whole number"),
    (["-4", "1", "0,1"], "not a whole number"),
    (["4x", "1", "0,1"], "not a whole number"),
    (["4", "65", "0,1"], "too large"),
    (["4", "1", ""], "a list is empty"),
    (["4", "1", "0,1", ""], "a list is empty"),
    (["4", "1", "0 1 1"], "no spaces"),
    (["4", "1", "0, 1, 1"], "no spaces"),
    (["4", "1", " 0,1"], "no spaces"),
    (["4", "1", "0,1 "], "no spaces"),
    (["4", "1", "0\t1"], "no spaces"),
    (["4", "1", "0,1,"], "ends with a comma"),
    (["4", "1", "0,,1"], "a number before each comma"),
    (["4", "1", ",1"], "a number before each comma"),
    (["4", "1", "0;1"], "commas between them"),
    (["4", "1", "0,-1"], "not a whole number"),
    (["4", "1", "0,4294967296"], "too large"),
    (["4", "1", "0,99999999999999999999"], "too large"),
    (["4", "1", ",".join(["0"] * 4097)], "4096 places"),
    (["4", "1"] + ["0,1"] * 65, "64 lists"),
    (["300", "10", "0,1,1"], "product of the sixteen primes"),
    (["5", "64", "5,0,1"], "every bound"),
]


def edge(value):
    """A setting whose table is `value` and zeros: its digits, by Horner."""
    cycles = [[digit, 2**31 if i else 0] for i, digit in enumerate(digits(value))]
    return 2, len(cycles), cycles[::-1]


def joined(joiner, limit, report):
    """How many whole numbers were compared, and the bits of the largest."""
    compared = largest = 0
    for setting in JOINED + DIFFERENT + [edge(limit - 1)]:
        expected = table(*setting)
        assert max(expected) < limit, setting
        answer = run(joiner, *words(*setting))
        same = (answer.returncode, answer.stdout, answer.stderr) == (0, text(expected), "")
        report.see(same, f"joined: joiner {' '.join(words(*setting))}: {answer.stderr}")
        compared += len(expected)
        largest = max(largest, *expected)
    for n, cycles, lists in DIFFERENT:
        expected = table(n, cycles, lists)
        report.see(whole(n, cycles, lists) == expected, f"whole polynomials: {lists}")
        report.see(table(n, cycles, lists[::-1]) != expected, f"another order, another table: {lists}")
    usual = run(joiner)
    report.see((usual.returncode, usual.stdout) == (0, text(table(*USUAL))), "joined: joiner with no arguments")
    return compared, largest.bit_length()


def refused(joiner, limit, report):
    for arguments, says in [*REFUSED, (words(*edge(limit)), "product of the sixteen primes")]:
        answer = run(joiner, *arguments)
        right = answer.returncode == 1 and answer.stdout == "" and says in answer.stderr and answer.stderr.count("\n") == 1
        report.see(right, f"refused with '{says}': joiner {' '.join(arguments)}: {answer.stderr}")


def helped(joiner, report):
    answer = run(joiner, "--help")
    right = answer.returncode == 0 and answer.stderr == "" and answer.stdout.startswith("usage: joiner ORDER CYCLES LIST...\n")
    report.see(right, f"the use is printed: joiner --help: {answer.stdout}{answer.stderr}")


def main(joiner):
    limit = math.prod(primes())
    report = Report()
    compared, bits = joined(joiner, limit, report)
    refused(joiner, limit, report)
    helped(joiner, report)
    print(
        f"joiner: {report.tried} checks, {compared} whole numbers compared, the largest of {bits} bits; {report.failures} failures"
    )
    return 1 if report.failures else 0


if __name__ == "__main__":
    sys.exit(main(sys.argv[1]))
