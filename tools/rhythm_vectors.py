#!/usr/bin/env python3
"""Writes crates/replay/data/rhythm, whose cases crates/replay replays: charts, and what the original answers on them.

usage: rhythm_vectors.py ORACLE OUT
(ORACLE as in oracle.py)

The form is that of vectors.py: numbers have their low byte first, a float is the number of its bits, and a case is a head and a body:
  call 4, rhythm: groups (2), pattern groups (2), kinds (n), starts (8n), deltas (8n), each object's group (2n) and pattern group (2n)
  call 5, record, on the chart of the rhythm case before it: group (2), first note (2), note count (2), pattern group (2), 1 where it has
                  an own interval, else 0 (2), window (8), own interval or 0 (8), ratio (8), interval (8), penalty (8), pattern ratio (8)
"""
import itertools
import math
import random
import struct
import sys

from oracle import ask, bits, float_of, words
from vectors import MOST, SEED, beside, drawn, grown, head, mixed

RHYTHM = 4
RECORD = 5
LONGEST = 160
LIMIT = 2.0**24
WINDOWS = [1.0, beside(1.0, 1), 20.0, 35.5, 80.0, beside(1000.0, -1), 1000.0]
NAN = "7ff8000000000000"


# the styles of deltas: each gives the delta that follows those before it
def beats(rng, before):
    """Some milliseconds off a beat, so that groups are long and their deltas within the margin."""
    beat = before[-1] if before and rng.randrange(5) else rng.choice([75.0, 100.0, 150.0, 300.0])
    return beat + rng.choice([0.0, 0.0, 0.5, -1.0, 2.0, 2.5])


def at_margin(rng, before):
    """Often exactly 5.0 from the one before, or the next float on either side."""
    if not before or rng.randrange(4) == 0:
        return rng.choice([95.0, 100.0, 102.5, 105.0, 107.0])
    return beside(before[-1] + rng.choice([5.0, -5.0]), rng.randrange(-1, 2))


def about_zero(rng, before):
    return rng.choice([0.0, -0.0, 0.5, -0.5, 0.25, -0.25, 2.5, -2.5, 5.0, -5.0, 40.0])


def halves(rng, before):
    return rng.randrange(0, 60) / 2


def limits(rng, before):
    return rng.choice([LIMIT, -LIMIT, beside(LIMIT, -1), 0.0, 100.0])


def repeated(rng, before):
    """Own intervals that come back a few groups later, at the penalty's threshold or beside it."""
    return rng.choice([90.0, 100.0, 110.0, 111.0, 150.0]) if len(before) % 3 == 0 else before[-1]


STYLES = [beats, at_margin, about_zero, halves, limits, repeated]


def running(rng, deltas):
    """Each start the one before and its delta."""
    return [min(max(s, -LIMIT), LIMIT) for s in itertools.accumulate(deltas)]


def falling(rng, deltas):
    """Starts that fall, so that durations are below zero."""
    return [-s for s in running(rng, deltas)]


def standing(rng, deltas):
    """Starts close together, so that intervals are 0.0."""
    return [rng.choice([0.0, 5.0, 7.0, -3.0]) for _ in deltas]


STARTS = [running, running, falling, standing]


def chart(kinds, starts, deltas, rng, windows=WINDOWS):
    return kinds, starts, deltas, rng.choice(windows)


def charts():
    rng = random.Random(SEED)
    styles, starts = itertools.cycle(STYLES), itertools.cycle(STARTS)
    for n in itertools.chain([0] * 3, range(1, 13), range(1, 13), range(13, LONGEST + 1, 3)):
        for kinds in (grown(mixed(rng), n), "01" * (n // 2) + "1" * (n % 2)):
            for _ in range(3):
                deltas = drawn(rng, next(styles), n)
                yield chart(kinds, next(starts)(rng, deltas), deltas, rng)
    fall = [float(MOST - i) for i in range(MOST)]
    yield chart("0" * MOST, running(rng, [1.0] * MOST), fall, rng)
    deltas = drawn(rng, beats, MOST)
    yield chart(grown(mixed(rng), MOST), running(rng, [d / 300 for d in deltas]), deltas, rng)
    deltas = drawn(rng, about_zero, MOST - 1)
    yield chart(grown(mixed(rng), MOST - 1), standing(rng, deltas), deltas, rng)


def picked(rng, groups):
    """Of many groups the first four, the last two and some others."""
    if groups <= 12:
        return list(range(groups))
    return [0, 1, 2, 3, *sorted(rng.sample(range(4, groups - 2), 6)), groups - 2, groups - 1]


def chart_text(kinds, starts, deltas):
    return f"chart {len(kinds)}\n{kinds}\n{words(starts)}\n{words(deltas)}\n{words([1.0] * len(kinds))}\n"


def ask_rhythm(oracle, charts):
    """For each chart both counts and each object's two numbers."""
    lines = iter(ask(oracle, "".join(chart_text(*c[:3]) + "rhythm\n" for c in charts)))
    for kinds, *_ in charts:
        counts, *objects = [tuple(map(int, next(lines).split())) for _ in range(1 + len(kinds))]
        yield counts, objects
    assert next(lines, None) is None, "more answers than requests"


def ask_records(oracle, charts, asked):
    """For each chart the fields of the groups that are asked for."""
    record = "record {} {}\n".format
    texts = [chart_text(*c[:3]) + "".join(record(g, bits(c[3])) for g in groups) for c, groups in zip(charts, asked)]
    lines = iter(ask(oracle, "".join(texts)))
    for groups in asked:
        yield [next(lines).split() for _ in groups]
    assert next(lines, None) is None, "more answers than requests"


def word(text):
    return struct.pack("<Q", int(text, 16))


def rhythm_case(kinds, starts, deltas, counts, objects):
    n = len(kinds)
    body = struct.pack("<HH", *counts) + bytes(map(int, kinds)) + struct.pack(f"<{n}d{n}d", *starts, *deltas)
    for column in zip(*objects) if objects else [(), ()]:
        body += struct.pack(f"<{n}H", *column)
    return head(RHYTHM, 2, n, body)


def record_case(n, window, group, fields):
    first, notes, own, ratio, interval, penalty, pattern, pattern_ratio = fields
    body = struct.pack("<HHHHHd", group, int(first), int(notes), int(pattern), int(own != "-"), window)
    body += word("0" if own == "-" else own) + word(ratio) + word(interval) + word(penalty) + word(pattern_ratio)
    return head(RECORD, 2, n, body)


def check_records(records):
    """The records hold what they are made for."""
    owns = {r[2] for r in records}
    ratios = {r[3] for r in records}
    pattern_ratios = {r[7] for r in records}
    penalties = [float_of(r[5]) for r in records]
    assert {"-", bits(0.0), bits(-0.0)} <= owns, "an own interval of zero, of either sign, is missing"
    for name, seen in (("ratio", ratios), ("pattern ratio", pattern_ratios)):
        assert NAN in seen, f"no {name} is NaN"
        assert any(math.isinf(float_of(x)) for x in seen), f"no {name} is infinite"
    assert any(p > 1.0 for p in penalties) and 0.8 in penalties and 0.4 in penalties and 1.0 in penalties
    assert any(int(r[1]) == MOST for r in records), "no group of all objects"


def main():
    if len(sys.argv) != 3:
        sys.exit(__doc__)
    oracle, rng, all_charts = sys.argv[1], random.Random(SEED), list(charts())
    rhythms = list(ask_rhythm(oracle, all_charts))
    asked = [picked(rng, groups) for (groups, _), _ in rhythms]
    records = list(ask_records(oracle, all_charts, asked))
    check_records(list(itertools.chain(*records)))
    with open(sys.argv[2], "wb") as out:
        for (kinds, starts, deltas, window), rhythm, groups, fields in zip(all_charts, rhythms, asked, records):
            out.write(rhythm_case(kinds, starts, deltas, *rhythm))
            for case in zip(groups, fields):
                out.write(record_case(len(kinds), window, *case))
    print(f"rhythm: {len(all_charts)} cases, {sum(len(c[0]) for c in all_charts)} objects")
    print(f"record: {sum(map(len, records))} cases")


if __name__ == "__main__":
    main()
