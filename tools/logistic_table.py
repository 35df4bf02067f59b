#!/usr/bin/env python3
"""Computes and checks the logistic table T: 264 values, each the nearest f64 to 1 / (1 + e^(e (n - 2))).

usage: logistic_table.py --source    the constant of the Rattle source, in shortest decimals
       logistic_table.py --spec      the list of bit patterns of the specification

How the nearest is decided: the real value is computed with 120 decimal digits. decimal rounds exp, products, sums and
quotients correctly, so the rounded e and its product with n - 2 put the exponent off by less than 10^-116, and the
value by less than 10^-115 of itself. Both ends of an interval 10^-100 of the value to either side are rounded to f64
(Python divides whole numbers with correct rounding, subnormal results included). Rounding keeps order, so where both
ends round to one f64, the real value rounds to it too; this is asserted, so there is no tie and none too close to tell.
"""
import struct
import sys
from decimal import Decimal, localcontext
from fractions import Fraction

STEPS = 264
DIGITS = 120
WIDTH = Fraction(1, 10**100)
GROWTH_LOW, GROWTH_HIGH = Fraction("15.15426224147"), Fraction("15.15426224148")


def real_value(n):
    """1 / (1 + e^(e (n - 2))), off by less than 10^-115 of itself."""
    with localcontext() as context:
        context.prec = DIGITS
        exponent = Decimal(1).exp() * (n - 2)
        return Fraction(1 / (1 + exponent.exp()))


def nearest(n, value):
    """The f64 nearest to every number within WIDTH of the value."""
    low, high = value * (1 - WIDTH), value * (1 + WIDTH)
    below = low.numerator / low.denominator
    above = high.numerator / high.denominator
    assert below == above, f"step {n}: too close to the middle of two f64s"
    return below


def check(table):
    """What the scope says of T: it falls, T(2) is a half, and D = (1 - T) / T grows by one factor."""
    assert len(table) == STEPS and table[2] == 0.5
    odds = [(1 - Fraction(t)) / Fraction(t) for t in table]
    for n in range(STEPS - 1):
        assert table[n] > table[n + 1] > 0, f"step {n}: no fall"
        assert GROWTH_LOW < odds[n + 1] / odds[n] < GROWTH_HIGH, f"step {n}: D grows by another factor"


def bits(value):
    return struct.unpack("<Q", struct.pack("<d", value))[0]


def source(table):
    """repr gives the shortest decimal that reads back as the same f64."""
    rows = [f"    {value!r}," for value in table]
    return "\n".join([f"static T: [f64; {STEPS}] = [", *rows, "];"])


def spec(table):
    words = [f"0x{bits(value):016x} ∷" for value in table]
    rows = ["    " + " ".join(words[i : i + 4]) for i in range(0, STEPS, 4)]
    return "\n".join(["table_bits =", *rows]) + " []"


def main():
    printers = {"--source": source, "--spec": spec}
    if len(sys.argv) != 2 or sys.argv[1] not in printers:
        sys.exit(__doc__)
    table = [nearest(n, real_value(n)) for n in range(STEPS)]
    check(table)
    print(printers[sys.argv[1]](table))


if __name__ == "__main__":
    main()
