"""Stretches of colour's charts, which tools/vectors.py stores: single ones, and lessons, which mark several as a set.

A part of call 8, lesson, on the chart of the colour case before it: how many pairs k (2), offsets, lengths (k numbers of
two bytes each), means (8k), tenths (8k, signed).
"""
import fractions
import itertools
import random
import struct

MOST_PAIRS = 32
MANY = 1000
SEED = 9
# how many lessons the charts have, in turn: no multiple of 3, since every third chart is of one style
LESSONS = [1, 2, 0, 1]


def struck(kinds, a, b):
    """The notes from object a up to b."""
    return [i for i in range(a, b) if kinds[i] != "2"]


def spans(rng, kinds):
    """Of six stretches those that have a note: the whole, one object, one from the start, one to the end, any, and from the first NonHit to the last."""
    n = len(kinds)
    if n == 0:
        return []
    i, a = rng.randrange(n), rng.randrange(n)
    parts = [(0, n), (i, i + 1), (0, rng.randrange(n) + 1), (rng.randrange(n), n), (a, rng.randrange(a, n) + 1)]
    if "2" in kinds:
        parts.append((kinds.index("2"), kinds.rindex("2") + 1))
    return [part for part in parts if struck(kinds, *part)]


def stretch(kinds, values, a, b):
    """Mean and tenths of a stretch by the original's values, which has no mean of notes itself. Python's floats are f64."""
    notes, total = struck(kinds, a, b), 0.0
    for i in notes:
        total += values[i]
    mean = total / len(notes)
    # of a fraction Python rounds exactly, a half to the even number
    return mean, round(10 * fractions.Fraction(mean))


# ---- the styles of lessons: each gives both ends of the stretches, whose first objects rise


def some(rng, places):
    """At most 3, 8 or 32 of the places, 32 of very many, in their order."""
    most = rng.choice([3, 8, MOST_PAIRS]) if len(places) < MANY else MOST_PAIRS
    return sorted(rng.sample(places, min(len(places), most)))


def unmarked(rng, kinds):
    return []


def alone(rng, kinds):
    n = len(kinds)
    a = rng.randrange(n)
    return [(a, rng.randrange(a, n) + 1)]


def single(rng, kinds):
    """Single objects."""
    return [(a, a + 1) for a in some(rng, range(len(kinds)))]


def to_the_end(rng, kinds):
    return [(a, len(kinds)) for a in some(rng, range(len(kinds)))]


def anywhere(rng, kinds):
    """Often over one another."""
    n = len(kinds)
    return [(a, rng.randrange(a, n) + 1) for a in some(rng, range(n))]


def in_a_row(rng, kinds):
    """Each ends where the next begins."""
    cuts = some(rng, range(len(kinds)))
    return list(zip(cuts, [*cuts[1:], len(kinds)]))


def over_nonhits(rng, kinds):
    """From a note over NonHits up to the note behind them."""
    notes = struck(kinds, 0, len(kinds))
    gaps = [(a, b + 1) for a, b in itertools.pairwise(notes) if b - a > 1]
    return some(rng, gaps)


STYLES = [anywhere, to_the_end, unmarked, alone, single, in_a_row, over_nonhits]


def lessons(all_kinds):
    """For each chart its lessons, each a list of both ends of its stretches, of which each has a note."""
    rng, styles, counts = random.Random(SEED), itertools.cycle(STYLES), itertools.cycle(LESSONS)
    for kinds, count in zip(all_kinds, counts):
        drawn = [style(rng, kinds) if kinds else [] for style in itertools.islice(styles, count)]
        yield [[part for part in parts if struck(kinds, *part)] for parts in drawn]


def lesson_body(parts, answers):
    k, (means, tenths) = len(parts), zip(*answers) if answers else ((), ())
    body = struct.pack("<H", k) + struct.pack(f"<{k}H", *(a for a, _ in parts)) + struct.pack(f"<{k}H", *(b - a for a, b in parts))
    return body + struct.pack(f"<{k}d", *means) + struct.pack(f"<{k}q", *tenths)


def check_lessons(all_kinds, marked, answers, spares):
    """The lessons hold what they are made for: few and many pairs, that overlap and do not, and stretches of each kind."""
    sets = [(kinds, parts) for kinds, drawn in zip(all_kinds, marked) for parts in drawn]
    assert {len(parts) for _, parts in sets} >= {0, 1, MOST_PAIRS}, "a number of pairs is missing"
    assert any(len(parts) == MOST_PAIRS and len(kinds) > MANY for kinds, parts in sets), "no long chart has 32 pairs"
    neighbours = [(b, c) for _, parts in sets for (_, b), (c, _) in itertools.pairwise(parts)]
    for holds in (lambda b, c: c < b, lambda b, c: c == b, lambda b, c: c > b):
        assert sum(holds(*ends) for ends in neighbours) > 500, "few neighbours overlap, touch, or lie apart"
    found = [(kinds, a, b) for kinds, parts in sets for a, b in parts]
    assert sum(b == len(kinds) for kinds, _, b in found) > 500, "few stretches end with their chart"
    assert sum(b - a == 1 for _, a, b in found) > 500, "few stretches of one object"
    between = [kinds[a] != "2" != kinds[b - 1] and "2" in kinds[a:b] for kinds, a, b in found]
    assert sum(between) > 500, "few stretches with a NonHit between notes"
    assert max(a for _, a, _ in found) > 255 and max(b - a for _, a, b in found) > 255, "no number of two bytes"
    tenths = [tenth for told in answers for _, tenth in told]
    assert min(tenths) < 0 < max(tenths), "tenths have one sign"
    assert spares == {*range(8)}, f"places to spare: {spares}"
