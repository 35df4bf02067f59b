#!/usr/bin/env python3
"""Writes lists of deltas and what the original's normaliser maps each to, for tests/grouping/data/normalized.txt.

usage: normalizer_vectors.py ORACLE OUT    (ORACLE as in oracle.py)

A case is a line: the bits of each delta, `:`, the bits of what it maps to; all parted by blanks.
"""
import itertools
import random
import sys

from interval_vectors import LONGEST, values
from oracle import write_lists

SEED = 6
RANDOM_LISTS = 2000
HEADER = (
    "# Deltas as the bits of f64s, then what the original's DeltaTimeNormalizer maps each to. "
    f"Made by `tools/normalizer_vectors.py ORACLE OUT` with the seed {SEED}."
)


def lists(rng):
    """Every list of up to 4 of five values, random lists of up to LONGEST, and 600 distinct values that fall."""
    for count in range(5):
        yield from itertools.product([0.0, -0.0, 5.0, 2.5, 100.0], repeat=count)
    yield [100.0, 105.0]
    yield [100.0, 103.0, 107.0]
    for _ in range(RANDOM_LISTS):
        yield values(rng, rng.randrange(rng.choice([9, LONGEST + 1])))
    yield [600.5 - i for i in range(600)]


def main():
    if len(sys.argv) != 3:
        sys.exit(__doc__)
    cases = list(lists(random.Random(SEED)))
    answers = write_lists(sys.argv[1], "normalize", cases, HEADER, sys.argv[2])
    for case, answer in zip(cases, answers):
        assert len(answer.split()) == len(case), f"{case}: {answer}"


if __name__ == "__main__":
    main()
