#!/usr/bin/env python3
"""Writes crates/replay/data/build, whose cases crates/replay replays: raw objects, and the charts that the original builds of them.

usage: build_vectors.py ORACLE OUT
(ORACLE as in oracle.py)

The form is that of vectors.py: numbers have their low byte first, a float is the number of its bits, and a case is a head and a body:
  call 6, build: raw objects m (2), rate (8), raw kinds (m), raw times (8m), and of the chart that is built: kinds (n), starts (8n),
                 deltas (8n), ratios (8n); n is m - 2, or 0 where m is below 2, and the width is 8
"""
import itertools
import math
import random
import struct
import sys

from oracle import ask, bits, float_of, words
from rhythm_vectors import LIMIT, about_zero, beats, falling, running, word
from vectors import MOST, SEED, beside, drawn, head

BUILD = 6
LONGEST = 120
COMMON = [1.0, 2.0, 0.5, 3.0, 1 / 3, 1.5, 2 / 3, 1.25, 0.8]
TIES = [1.125, 1.375, 1.75, 2.5]
RATES = [0.25, beside(0.25, 1), 0.75, 1.0, 1.5, beside(4.0, -1), 4.0]
HUGE = range(51, 61)
# what build does not read: the first two kinds and the first time
UNREAD_KINDS = [0, 1, 2, 3, 7, 190, 255]
UNREAD_TIMES = [0.0, -1000.0, math.nan, math.inf, -math.inf, 1e300]


# the styles of times: each gives m of them, which are accepted at the rate
def on_beats(rng, rate, m):
    return running(rng, drawn(rng, beats, m))


def in_ratio(rng, rate, m):
    """Spaces that are each about a common ratio of the one before, so that every ratio is met."""
    def space(rng, before):
        near = before[-1] * rng.choice(COMMON) if before else 120.0
        near = near if 30.0 < near < 500.0 else 120.0
        return near * rng.choice([1.0, 1.0, rng.uniform(0.95, 1.05)])
    return running(rng, drawn(rng, space, m))


def close(rng, rate, m):
    """Neighbours that are equal or close, so that deltas are zero and quotients NaN and infinite."""
    return running(rng, drawn(rng, about_zero, m))


def backwards(rng, rate, m):
    return falling(rng, drawn(rng, beats, m))


def threes(rng, m, piece):
    """Three times after another, about a zero of either sign: the spaces between them are exact."""
    return list(itertools.chain(*(piece(rng.choice([0.0, -0.0])) for _ in range(m // 3 + 1))))[:m]


def tied(rng, rate, m):
    """Quotients that lie halfway between two common ratios, and the next floats on either side."""
    def piece(zero):
        space = rng.choice([rate, math.ldexp(rate, rng.randrange(-9, 9)), 100.0])
        return -space, zero, space * beside(rng.choice(TIES), rng.randrange(-1, 2))
    return threes(rng, m, piece)


def huge(rng, rate, m):
    """A tiny space before a large one, so that the quotient is about 2^51 and more, of either sign."""
    def piece(zero):
        large = math.ldexp(rng.uniform(1.0, 2.0), rng.randrange(0, 20)) * rng.choice([1.0, -1.0])
        tiny = math.ldexp(large, -rng.choice([*HUGE, *HUGE, 61, 62, 100, 1000, 1090]))
        return zero, tiny * rng.choice([1.0, -1.0]) * rng.choice([1.0, rng.uniform(0.5, 1.0)]), large
    return threes(rng, m, piece)


def at_limits(rng, rate, m):
    """Starts and deltas at the ends of their range."""
    most = LIMIT * rate * rng.choice([1.0, -1.0])
    return [rng.choice([0.0, -0.0, most, beside(most, -1), most / 2]) for _ in range(m)]


def anywhere(rng, rate, m):
    return [rng.uniform(-0.5, 0.5) * LIMIT * rate for _ in range(m)]


STYLES = [on_beats, in_ratio, close, backwards, tied, huge, at_limits, anywhere]


def in_turn(rng, rate, m):
    """Some times of each style in turn."""
    styles = itertools.cycle(s for s in STYLES if s != at_limits)
    return list(itertools.islice(itertools.chain.from_iterable(s(rng, rate, rng.randrange(3, 40)) for s in styles), m))


def chart(rng, rate, m, style):
    """Raw kinds, raw times and the rate; what is not read is anything."""
    kinds, times = [rng.randrange(3) for _ in range(m)], style(rng, rate, m)
    kinds[:2] = [rng.choice(UNREAD_KINDS) for _ in kinds[:2]]
    times[:1] = [rng.choice(UNREAD_TIMES) for _ in times[:1]]
    return kinds, times, rate


def charts():
    rng = random.Random(SEED)
    styles = itertools.cycle(STYLES)
    for m in itertools.chain([0] * 8, [1] * 8, [2] * 8, range(3, 12), range(3, 12), range(15, LONGEST + 1, 15)):
        for _ in range(1 if m < 3 else 4):
            yield chart(rng, rng.choice([*RATES, rng.uniform(0.25, 4.0)]), m, next(styles))
    yield chart(rng, 1.5, MOST + 2, in_ratio)
    yield chart(rng, rng.uniform(0.9, 1.1), MOST + 1, in_turn)


def request(kinds, times, rate):
    """Kinds above 2, which the protocol can't say, and the first time have stand-ins: they are not read."""
    said = "".join(str(min(kind, 2)) for kind in kinds)
    return f"build {len(kinds)} {bits(rate)}\n{said}\n{words([0.0] * len(times[:1]) + times[1:])}\n"


def ask_build(oracle, charts):
    """For each the built kinds, and the words of the starts, the deltas and the ratios."""
    lines = iter(ask(oracle, "".join(request(*c) for c in charts)))
    for kinds, _, _ in charts:
        n = max(len(kinds) - 2, 0)
        assert next(lines) == f"chart {n}"
        built, columns = [int(kind) for kind in next(lines)], [next(lines).split() for _ in range(3)]
        assert all(len(column) == n for column in (built, *columns))
        yield built, columns
    assert next(lines, None) is None, "more answers than requests"


def case(kinds, times, rate, answer):
    built, columns = answer
    body = struct.pack("<Hd", len(kinds), rate) + bytes(kinds) + struct.pack(f"<{len(times)}d", *times)
    body += bytes(built) + b"".join(map(word, itertools.chain(*columns)))
    return head(BUILD, 8, len(built), body)


def quotient(a, b):
    if b != 0.0:
        return a / b
    return math.nan if a == 0.0 else math.copysign(math.inf, a) * math.copysign(1.0, b)


def check_ratios(deltas_and_ratios):
    """The quotients and the ratios that they give hold what they are made for."""
    met = [(quotient(d[i], d[i - 1]), r[i]) for d, r in deltas_and_ratios for i in range(1, len(d))]
    quotients = {q for q, _ in met}
    assert {r for _, r in met} == {*COMMON}, "a common ratio is missing, or there is another"
    assert quotients >= {beside(q, k) for q in TIES for k in (-1, 0, 1)}, "a tie or a neighbour of one is missing"
    assert quotients >= {math.inf, -math.inf} and any(map(math.isnan, quotients))
    finite = [(q, r) for q, r in met if math.isfinite(q)]
    for sign, power in itertools.product((1.0, -1.0), HUGE):
        assert any(2.0**power <= sign * q < 2.0 ** (power + 1) for q, _ in finite), f"no quotient of {sign} * 2^{power}"
    for sign in (1.0, -1.0):
        assert any(sign * q >= 2.0**51 and r != 1.0 for q, r in finite), "no other ratio far out"
        assert any(sign * q > 2.0**54 and r == 1.0 for q, r in finite), "no ratio 1.0 farther out"


def check(charts, answers):
    """The charts are accepted, and hold what they are made for."""
    columns = [[[float_of(x) for x in column] for column in answer[1]] for answer in answers]
    assert all(abs(x) <= LIMIT for starts, deltas, _ in columns for x in starts + deltas), "a chart is refused"
    assert {x for starts, deltas, _ in columns for x in starts + deltas} >= {LIMIT, -LIMIT}
    check_ratios([(deltas, ratios) for _, deltas, ratios in columns])
    assert {rate for _, _, rate in charts} >= {*RATES}, "a rate is missing"
    assert bits(-0.0) in {x for answer in answers for x in answer[1][0]}, "no start of -0.0"
    split = [d != t / rate - u / rate for (_, times, rate), (_, deltas, _) in zip(charts, columns)
             for u, t, d in zip(times[1:], times[2:], deltas)]
    assert any(split), "no delta differs from the difference of the starts"
    built = [(kinds, times) for kinds, times, _ in charts if len(kinds) > 2]
    assert any(max(kinds[:2]) > 2 for kinds, _ in built), "no chart is built where a kind that is not read is bad"
    assert any(not math.isfinite(times[0]) for _, times in built), "nor where the first time is bad"


def main():
    if len(sys.argv) != 3:
        sys.exit(__doc__)
    all_charts = list(charts())
    answers = list(ask_build(sys.argv[1], all_charts))
    check(all_charts, answers)
    with open(sys.argv[2], "wb") as out:
        for raw, answer in zip(all_charts, answers):
            out.write(case(*raw, answer))
    print(f"build: {len(all_charts)} cases, {sum(len(built) for built, _ in answers)} objects")


if __name__ == "__main__":
    main()
