"""Holds the numbers of the joining example against Python's integers: every result is the least such number that is not below the exact one.

Usage: rounding.py NUMBERS SEED, where NUMBERS is the program of numbers.c
"""

import random
import subprocess
import sys

from exact import Report

WORDS = 18
MOST = 2**40
TOO_LARGE = 2**60
ZERO = (0, -MOST)
FAR = 2 * WORDS


def rounded(whole, exponent):
    """The least number of 18 words that is not below whole times 2^(32 exponent): its words, its exponent."""
    if whole == 0:
        return ZERO
    dropped = -(-whole.bit_length() // 32) - WORDS
    if dropped > 0:
        raised = -(-whole >> 32 * dropped)
        return rounded(raised, exponent + dropped) if raised >> 32 * WORDS else clamped(raised, exponent + dropped)
    return clamped(whole << -32 * dropped, exponent + dropped)


def clamped(whole, exponent):
    return whole, TOO_LARGE if exponent > MOST else max(exponent, -MOST)


def product(a, b):
    return rounded(a[0] * b[0], a[1] + b[1])


def aligned(a, b):
    """Both whole numbers for one exponent, and that. What lies further below the other than FAR rounds and compares as if it lay there."""
    exponent = max(min(a[1], b[1]), max(a[1], b[1]) - FAR)
    return *(whole << 32 * max(old - exponent, 0) for whole, old in [a, b]), exponent


def total(a, b):
    one, other, exponent = aligned(a, b)
    return rounded(one + other, exponent)


def less(a, b):
    one, other, _ = aligned(a, b)
    return one < other


def seeded(source):
    """A number of any length, with runs of ones for the carries; the exponent is small, or at an end."""
    count = source.choice([0, 1, 2, 16, 17, 18, 18, 18])
    whole = 0
    for _ in range(count):
        whole = whole << 32 | source.choice([0, 1, 2**31, 2**32 - 1, 2**32 - 1, source.getrandbits(32)])
    exponents = [0, 0, 1, -1, source.randint(-40, 40), source.choice([-MOST, MOST, MOST + 1, MOST - WORDS, TOO_LARGE])]
    return rounded(whole, source.choice(exponents))


def shown(number):
    return f"{number[0]:0{8 * WORDS}x} {number[1]}"


def questions(source):
    """Lines for the program, each with its answer."""
    ones = (2 ** (32 * WORDS) - 1, 0)
    yield f"add {shown(ones)} {shown(rounded(1, -1))}", shown(rounded(1, WORDS))
    for _ in range(4000):
        a, b = seeded(source), seeded(source)
        yield f"multiply {shown(a)} {shown(b)}", shown(product(a, b))
        yield f"add {shown(a)} {shown(b)}", shown(total(a, b))
        near = rounded(max(a[0] - 1, 0), a[1])
        for one, other in [(a, b), (a, near), (near, a), (a, a)]:
            yield f"below {shown(one)} {shown(other)}", str(int(less(one, other)))
        yield f"decimal {shown(a)}", str(a[0])
        if a[0] and a[1] <= MOST:
            yield f"bits {shown(a)}", str(a[0].bit_length() + 32 * a[1])
    for power in [*range(-200, 200), 2**24 * 4095, -(2**24)]:
        yield f"power {power}", shown(rounded(2 ** (power % 32), power // 32))


def main(program, seed):
    report = Report()
    asked = list(questions(random.Random(seed)))
    lines = "".join(f"{line}\n" for line, _ in asked)
    done = subprocess.run([program], input=lines, capture_output=True, text=True, timeout=120)
    printed = done.stdout.splitlines()
    report.see(done.returncode == 0 and len(printed) == len(asked), f"{len(asked)} answers: {len(printed)} {done.stderr}")
    for (line, expected), said in zip(asked, printed):
        report.see(said == expected, f"{line}: {said}, not {expected}")
    print(f"rounding: seed {seed}, {len(asked)} results of bounds compared; {report.failures} failures")
    return 1 if report.failures else 0


if __name__ == "__main__":
    sys.exit(main(sys.argv[1], sys.argv[2]))
