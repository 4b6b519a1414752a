"""What the tests of the joining example share: its tables in Python's integers, the sixteen primes, and a run of the program."""

import subprocess

# numbers from here on are all taken to be this one; the product of the primes is far below
CAP = 2**600


def primes():
    """The sixteen largest below 2^31, found by search."""
    found = []
    candidate = 2**31 - 1
    while len(found) < 16:
        if all(candidate % d for d in range(2, 46341)):
            found.append(candidate)
        candidate -= 1
    return found


def multiplied(a, b, n):
    result = [0] * n
    for i, x in enumerate(a):
        if x:
            for j, y in enumerate(b[: n - i]):
                result[i + j] += x * y
    return [min(c, CAP) for c in result]


def composed(f, g, n):
    """f(g) below x^n over the integers, from the powers of g."""
    result = [0] * n
    power = [1] + [0] * (n - 1)
    for i, coefficient in enumerate(f):
        if i:
            power = multiplied(power, g, n)
        result = [min(r + coefficient * x, CAP) for r, x in zip(result, power)]
    return result


def table(n, cycles, lists):
    """The cycles composed, the first one outermost: from the last one outwards."""
    inner = ([0, 1] + [0] * n)[:n]
    for i in reversed(range(cycles)):
        inner = composed(lists[i % len(lists)], inner, n)
    return inner


def whole(n, cycles, lists):
    """The same from the first cycle inwards, each put for x into all that stands around it: whole polynomials, cut at the end."""
    outer = [0, 1]
    for i in range(cycles):
        inner = lists[i % len(lists)]
        places = (len(outer) - 1) * (len(inner) - 1) + 1
        outer = composed(outer, inner, places)
    return (outer + [0] * n)[:n]


def text(coefficients):
    return "".join(f"{c}\n" for c in coefficients)


def digits(value):
    """In the radix 2^31, the most significant first."""
    return [*digits(value >> 31), value % 2**31] if value else []


def words(n, cycles, lists):
    """The setting as the arguments of the program."""
    return [str(n), str(cycles), *(",".join(map(str, l)) for l in lists)]


def run(joiner, *arguments, **streams):
    """Standard output and standard error are read, unless the streams are named."""
    streams = {"stdout": subprocess.PIPE, "stderr": subprocess.PIPE, **streams}
    return subprocess.run([joiner, *arguments], text=True, timeout=120, **streams)


class Report:
    """Counts what was tried, and prints each failure."""

    def __init__(self):
        self.tried = self.failures = 0

    def see(self, holds, what):
        self.tried += 1
        if not holds:
            self.failures += 1
            print(f"FAILED: {what}"[:400])
