#!/usr/bin/env python3
"""Writes lists of intervals and the sizes of the original's groups of them, for tests/grouping/data/intervals.txt.

usage: interval_vectors.py ORACLE OUT    (ORACLE as in oracle.py)

A case is a line: the bits of each value, `:`, the sizes of the groups in order; all parted by blanks.
"""
import itertools
import math
import random
import sys

from oracle import write_lists

SEED = 5
MARGIN = 5.0
RANDOM_LISTS = 3000
LONGEST = 40
MOST = 16384
HEADER = (
    "# Lists of intervals as the bits of f64s, then the sizes of the groups that the original's group_by_interval makes. "
    f"Made by `tools/interval_vectors.py ORACLE OUT` with the seed {SEED}."
)

# 3.3 and 8.3 are not near, as 8.3 - 3.3 is above 5.0, and no rise, as 3.3 + 5.0 is 8.3; so are the last two.
# The two before those are near and a rise at once.
KNOWN = [3.3, 8.3, 13.3, 2.0**-51, 5 + 2.0**-50, 3 + 3 * 2.0**-50, 8 + 2.0**-48]
SPECIAL = [0.0, -0.0, 5.0, -5.0, 2.5, -2.5, 100.0, 105.0, 110.5, 16777216.0, -16777216.0, 5e-324, -5e-324]
assert 3.3 + MARGIN == 8.3 and 8.3 - 3.3 > MARGIN
assert KNOWN[5] + MARGIN == KNOWN[6] and KNOWN[6] - KNOWN[5] > MARGIN
assert KNOWN[3] + MARGIN < KNOWN[4] and KNOWN[4] - KNOWN[3] <= MARGIN


def beside(x):
    """x and the f64s right above and below it."""
    return [x, math.nextafter(x, math.inf), math.nextafter(x, -math.inf)]


def walk(rng, value):
    """A step of about the margin, either way, or of halves."""
    size = rng.choice([0.0, 0.5, 2.5, 4.5, 5.5, 11.0] + beside(MARGIN))
    return value + size * rng.choice([-1, 1])


def edge(rng, value):
    """The margin away, or one f64 nearer or farther."""
    return rng.choice(beside(value + rng.choice([MARGIN, -MARGIN])) + [value])


def known(rng, _):
    return rng.choice(KNOWN)


def special(rng, _):
    return rng.choice(SPECIAL)


def climb(rng, value):
    return value + rng.choice([0.0, 5.0, 5.5, 60.0])


def fall(rng, value):
    return value - rng.choice([0.0, 5.0, 5.5, 60.0])


STEPS = [walk, walk, edge, edge, known, special, climb, fall]


def values(rng, count):
    """A list whose manner changes now and then."""
    made, value, step = [], rng.choice(KNOWN + SPECIAL), rng.choice(STEPS)
    while len(made) < count:
        made.append(value)
        if rng.random() < 0.1:
            step = rng.choice(STEPS)
        value = max(-16777216.0, min(16777216.0, step(rng, value)))
    return made


def lists(rng):
    """Every list of up to 4 of four values, random lists of up to LONGEST, and three of MOST."""
    for count in range(5):
        yield from itertools.product([100.0, 105.0, 112.0, 99.0], repeat=count)
    for _ in range(RANDOM_LISTS):
        yield values(rng, rng.randrange(rng.choice([9, LONGEST + 1])))
    yield [125.0] * MOST
    yield [rng.choice([3.3, 8.3, 8.5, 0.0, -0.0]) for _ in range(MOST)]
    yield values(rng, MOST)


def main():
    if len(sys.argv) != 3:
        sys.exit(__doc__)
    cases = list(lists(random.Random(SEED)))
    answers = write_lists(sys.argv[1], "group", cases, HEADER, sys.argv[2])
    for case, sizes in zip(cases, answers):
        assert sum(map(int, sizes.split())) == len(case), f"{case}: {sizes}"


if __name__ == "__main__":
    main()
