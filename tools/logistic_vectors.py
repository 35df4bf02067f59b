#!/usr/bin/env python3
"""Prints the original's logistic_exp at steps 0 to 299 as bit patterns, for tests/numeric/data/logistic_exp.txt.

usage: logistic_vectors.py ORACLE    (as in oracle.py)
"""
import re
import sys

from oracle import ask

STEPS = 300
HEADER = (
    "# The original's logistic_exp at steps 0 to 299, the bits of an f64 a line. "
    "Made by `tools/logistic_vectors.py ORACLE`; stored, as exp may differ from system to system."
)


def main():
    if len(sys.argv) != 2:
        sys.exit(__doc__)
    # from exp itself instead of the oracle's own table
    requests = ["raw on"] + [f"table {n}" for n in range(STEPS)]
    answers = ask(sys.argv[1], "\n".join(requests) + "\n")
    assert len(answers) == STEPS, f"{len(answers)} answers to {STEPS} requests"
    for n, answer in enumerate(answers):
        assert re.fullmatch("[0-9a-f]{16}", answer), f"step {n}: {answer!r}"
    print(HEADER)
    print("\n".join(answers))


if __name__ == "__main__":
    main()
