"""Which tables the joining example joins: those with a bound F(r) / r^(order - 1) below the product of the primes, r a power of two.

The bound is worked out again in decimal numbers of 80 digits, for seeded settings and for settings on both sides of the product. A table that
is joined is right in every number; one without such a bound is refused, and the refusal names the power, the least bound and its bits.

Usage: bounds.py JOINER SEED
"""

import decimal
import itertools
import math
import random
import re
import sys

from exact import Report, digits, primes, run, table, text, words

decimal.setcontext(decimal.Context(prec=80, Emax=decimal.MAX_EMAX, Emin=decimal.MIN_EMIN, traps=[]))
TWO = decimal.Decimal(2)
NARROW = decimal.Decimal(10) ** -60
MOST_HALVINGS = 700
REFUSAL = re.compile(
    r"joiner: the table may not fit: "
    r"(?:the least bound of the coefficient of x\^(\d+), the value at x = 2\^-(\d+) times 2\^(\d+), has (\d+) bits|"
    r"every bound of the coefficient of x\^(\d+) has more than (\d+) bits)"
    r" and is not below the product of the sixteen primes, which has 496 bits: take fewer cycles or a lower order\n"
)


def value(halvings, cycles, lists):
    """The composed series at x = 2^-halvings."""
    x = TWO**-halvings
    for i in reversed(range(cycles)):
        places = list(itertools.dropwhile(lambda c: c == 0, reversed(lists[i % len(lists)])))
        following = decimal.Decimal(places[0] if places else 0)
        for coefficient in places[1:]:
            following = following * x + coefficient
        x = following
    return x


def bound(halvings, n, cycles, lists):
    return value(halvings, cycles, lists) * TWO ** (halvings * (n - 1))


def first_or_least(limit, n, cycles, lists):
    """The first bound below the limit, or else the least: the bounds fall to it and rise from there, their logarithm being convex."""
    least = decimal.Decimal("inf")
    for halvings in range(MOST_HALVINGS):
        here = bound(halvings, n, cycles, lists)
        if here < limit:
            return here
        if here > least:
            break
        least = here
    return least


def joined_rightly(answer, setting):
    return (answer.returncode, answer.stdout, answer.stderr) == (0, text(table(*setting)), "")


def refused_rightly(answer, setting, least):
    said = REFUSAL.fullmatch(answer.stderr)
    if answer.returncode != 1 or answer.stdout or not said:
        return False
    power, halvings, times, bits, every_power, fewer_bits = (int(words or -1) for words in said.groups())
    if power < 0:
        return every_power == setting[0] - 1 and TWO**fewer_bits <= least
    here = bound(halvings, *setting)
    right = power == setting[0] - 1 and times == halvings * power
    return right and TWO ** (bits - 1) <= here < TWO**bits and here <= least * (1 + NARROW)


def see(joiner, limit, setting, report):
    """Whether the setting was joined."""
    least = first_or_least(limit, *setting)
    assert not limit * (1 - NARROW) < least < limit * (1 + NARROW), setting
    answer = run(joiner, *words(*setting))
    right = joined_rightly(answer, setting) if least < limit else refused_rightly(answer, setting, least)
    report.see(right, f"{'joined' if least < limit else 'refused'}: joiner {' '.join(words(*setting))}: {answer.stderr}")
    return least < limit


def seeded(source):
    """A setting whose numbers grow slowly or fast."""
    most = source.choice([1, 2, 9, 999, 2**32 - 1])
    lists = []
    for _ in range(source.choice([1, 1, 2, 3])):
        constant = source.choice([0, 0, 0, source.randint(0, most)])
        lists.append([constant, *(source.randint(0, most) for _ in range(source.choice([1, 2, 2, 3, 5])))])
    return source.choice([1, 2, 3, 5, 9, 20, 40]), source.choice([1, 3, 5, 7, 9, 10, 12, 15, 20]), lists


# cycles and lists; the order is taken as large as there is a bound, and one larger
GROWING = [
    (10, [[0, 1, 1]]),
    (12, [[0, 1, 1]]),
    (20, [[0, 1, 1]]),
    (64, [[0, 1, 1]]),
    (11, [[0, 1, 1], [0, 1, 2]]),
    (30, [[0, 2, 1]]),
    (9, [[0, 1, 0, 3]]),
    (64, [[0, 2, 0, 0, 0, 1]]),
    (50, [[0, 3, 0, 0, 0, 1, 5]]),
    (10, [[1, 1, 1]]),
    (16, [[0, 0, 5], [0, 1, 1], [0, 1, 2, 3]]),
]


def largest_order(limit, cycles, lists):
    least, beyond = 1, 4096
    while beyond - least > 1:
        middle = (least + beyond) // 2
        least, beyond = (middle, beyond) if first_or_least(limit, middle, cycles, lists) < limit else (least, middle)
    return least


def grown(joiner, limit, report):
    for cycles, lists in GROWING:
        n = largest_order(limit, cycles, lists)
        see(joiner, limit, (n, cycles, lists), report)
        see(joiner, limit, (n + 1, cycles, lists), report)


def narrow(limit):
    """Settings with one coefficient that is not 0, just below the product of the primes or equal to it, and larger ones from the order on."""
    for value in [limit - 1, limit]:
        yield value < limit, (1, 16, [[digit, 2**31] for digit in reversed(digits(value))])
    for last in [1, 0]:
        *others, least = primes()
        yield last > 0, (2, 16, [*([0, p, 1] for p in others), [0, least - last, 1]])


def main(joiner, seed):
    limit = math.prod(primes())
    source = random.Random(seed)
    report = Report()
    settings = [seeded(source) for _ in range(160)]
    joined = sum(see(joiner, limit, setting, report) for setting in settings)
    report.see(10 < joined < 150, f"seeded settings on both sides: {joined} of {len(settings)} joined")
    grown(joiner, limit, report)
    for fits, setting in narrow(limit):
        assert (max(table(*setting)) < limit) == fits and value(0, *setting[1:]) > limit, setting
        answer = run(joiner, *words(*setting))
        right = joined_rightly(answer, setting) if fits else answer.returncode == 1 and REFUSAL.fullmatch(answer.stderr)
        report.see(right, f"{'joined' if fits else 'refused'}: joiner {' '.join(words(*setting))}: {answer.stderr}")
    print(f"bounds: seed {seed}, {report.tried} checks, {joined} of {len(settings)} seeded ones joined; {report.failures} failures")
    return 1 if report.failures else 0


if __name__ == "__main__":
    sys.exit(main(sys.argv[1], sys.argv[2]))
