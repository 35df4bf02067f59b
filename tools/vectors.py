#!/usr/bin/env python3
"""Writes crates/replay/data/encode and crates/replay/data/colour, whose cases crates/replay replays: charts, and what the original answers on them.

usage: vectors.py ORACLE OUT           the cases of encode and turns
       vectors.py ORACLE OUT colour    those of colour, stretch and lesson
(ORACLE as in oracle.py)

Numbers have their low byte first; a float is the number of its bits. A case is a head of 8 bytes and a body:
  head   call (1 byte), width (1), objects n (2), bytes of the body (4)
  call 1, encode: hit patterns (2), kinds (n), streak, its place, alternating pattern, its place, hit pattern
                  (n numbers of `width` bytes each), interval (n)
  call 2, colour: distinct ratios m (2), kinds (n), each object's ratio as its place in the table
                  (n numbers of `width` bytes each), values (8n), the table of ratios (8m)
  call 3, stretch, on the chart of the colour case before it: a (2), b (2), mean (8), tenths (4, signed)
  call 7, turns, on the chart of the encode case before it: previous, next (n numbers of two bytes each, 65535 for none)
  call 8, lesson, on the chart of the colour case before it: as in stretches.py
"""
import itertools
import math
import random
import struct
import sys

from oracle import ask, bits, float_of, words
from stretches import check_lessons, lesson_body, lessons, spans, stretch

SEED = 1
ENCODE = 1
COLOUR = 2
STRETCH = 3
TURNS = 7
LESSON = 8
NO_TURN = 65535
LONGEST = 300
MOST = 16384


def streaks(lengths, first=0):
    """A streak of each length, Center and Rim in turn."""
    return "".join("01"[(first + i) % 2] * n for i, n in enumerate(lengths))


def mixed(rng):
    """Kinds at random, in short streaks."""
    while True:
        yield rng.choice("0001112") * rng.choice([1, 1, 1, 2, 3])


def coupled(rng):
    """Units of a few streaks, each repeated, so that many patterns are coupled."""
    while True:
        unit = streaks([rng.choice([1, 1, 2, 3]) for _ in range(rng.randrange(1, 5))], rng.randrange(2))
        yield unit * rng.randrange(1, 7) + rng.choice(["", "", "", "2"])


def seams(rng):
    """Long streaks, and NonHits where one ends and the next, of either kind, begins."""
    while True:
        yield rng.choice("01") * rng.choice([1, 2, 5, 30, 90]) + "2" * rng.choice([0, 1, 1, 2])


def grown(pieces, n):
    """The first n kinds of the pieces."""
    kinds = ""
    while len(kinds) < n:
        kinds += next(pieces)
    return kinds[:n]


def charts():
    rng = random.Random(SEED)
    for n in range(9):
        for kinds in itertools.product("012", repeat=n):
            yield "".join(kinds)
    # two hit patterns of four, alike: interval 1; then k hit patterns, repeated: interval k, or 17 past 15
    yield streaks([1, 2, 1, 2, 1, 1, 1, 2, 1, 1, 1, 2])
    for k in range(3, 18):
        yield streaks([*range(1, k + 1)] * 2)
    for n in range(LONGEST + 1):
        for style in (mixed, coupled, seams):
            yield grown(style(rng), n)
    yield grown(itertools.repeat("01"), MOST - 1)
    yield grown(mixed(rng), MOST - 1)
    yield grown(itertools.repeat(streaks([1, 2, 3, 1, 2, 3])), MOST)
    yield grown(itertools.chain(["1" * 9000 + "2"], coupled(rng)), MOST)


def request(kinds):
    """A chart whose starts, deltas and ratios are all 1.0, as the replay has them: encode and turns look at the kinds alone."""
    ones = words([1.0] * len(kinds))
    return f"chart {len(kinds)}\n{kinds}\n{ones}\n{ones}\n{ones}\nencode\nturns\n"


def ask_encode(oracle, all_kinds):
    """For each chart the number of hit patterns, the six numbers of each object, and its two turns."""
    lines = iter(ask(oracle, "".join(map(request, all_kinds))))
    for kinds in all_kinds:
        hits = int(next(lines))
        yield hits, *([tuple(map(int, next(lines).split())) for _ in kinds] for _ in range(2))
    assert next(lines, None) is None, "more answers than requests"


def head(call, width, n, body):
    return struct.pack("<BBHI", call, width, n, len(body)) + body


def case(kinds, hits, objects):
    *columns, intervals = zip(*objects) if objects else [()] * 6
    width = 1 if max(itertools.chain(*columns), default=0) < 256 else 2
    assert len(columns) == 5 and all(len(c) == len(kinds) for c in columns)
    body = struct.pack("<H", hits) + bytes(map(int, kinds))
    for column in columns:
        body += struct.pack(f"<{len(kinds)}{'BH'[width - 1]}", *column)
    body += bytes(intervals)
    return head(ENCODE, width, len(kinds), body)


def turns_case(turns):
    n = len(turns)
    return head(TURNS, 2, n, b"".join(struct.pack(f"<{n}H", *column) for column in zip(*turns)))


def check_intervals(answers):
    seen = {o[5] for _, objects, _ in answers for o in objects}
    assert seen == {*range(1, 16), 17}, f"intervals seen: {sorted(seen)}"
    assert max(hits for hits, _, _ in answers) > 8000, "no chart has many hit patterns"


def told(kinds, turns):
    """Of each object its two turns, how many notes stand before it, its kind, and the notes of its chart."""
    notes = kinds.replace("2", "")
    passed = itertools.accumulate((kind != "2" for kind in kinds), initial=0)
    return [(*turn, before, kind, notes) for turn, before, kind in zip(turns, passed, kinds)]


def check_turns(all_kinds, answers):
    """Either turn is missing, and is a number of two bytes; and NonHits make both what notes alone would not."""
    objects = [o for kinds, (_, _, turns) in zip(all_kinds, answers) for o in told(kinds, turns)]
    for turn in map(set, list(zip(*objects))[:2]):
        assert NO_TURN in turn and max(turn - {NO_TURN}) > 255, "a turn is never missing, or never above 255"
    assert any(later < before for _, later, before, _, _ in objects), "no next note stands before its object"
    noted = [(*turn, kind, notes) for *turn, _, kind, notes in objects if kind != "2"]
    assert any(earlier == NO_TURN and kind != notes[0] for earlier, _, kind, notes in noted), "no NonHit hides the note before it"
    assert any(later != NO_TURN and kind == notes[later] for _, later, kind, notes in noted), "no next note has its streak's kind"


# ---- colour, stretch and lesson


TYPICAL = [0.25, 1 / 3, 0.5, 2 / 3, 0.75, 1.0, 4 / 3, 1.5, 2.0, 3.0, 4.0]
LEAST, LARGEST = 2.0**-24, 2.0**24


def beside(x, k):
    """The float k places further from zero."""
    return struct.unpack("<d", struct.pack("<q", struct.unpack("<q", struct.pack("<d", x))[0] + k))[0]


def last_within(q, step):
    """From q on, step by step, the last quotient that the tolerance takes."""
    while abs(1.0 - q) > 0.01:
        q = beside(q, -step)
    while abs(1.0 - beside(q, step)) <= 0.01:
        q = beside(q, step)
    return q


LOW, HIGH = last_within(0.99, -1), last_within(1.01, 1)
EDGES = [beside(LOW, -1), LOW, HIGH, beside(HIGH, 1)]


# the styles of ratios: each gives the ratio that follows those before it
def typical(rng, before):
    return rng.choice(TYPICAL)


def equal(rng, before):
    return before[-1] if before else rng.choice(TYPICAL + [2.5, LEAST, LARGEST])


def at_tolerance(rng, before):
    """Often about 0.99 or 1.01 of the ratio two before, so that the quotient lies at the tolerance or beside it."""
    if len(before) < 2 or not 0.2 < before[-2] < 5.0 or rng.randrange(4) == 0:
        return rng.choice(TYPICAL)
    return beside(before[-2] * rng.choice([LOW, HIGH]), rng.randrange(-2, 3))


def extreme(rng, before):
    return rng.choice([LEAST, beside(LEAST, 1), 1.0, beside(LARGEST, -1), LARGEST])


def wide(rng, before):
    """From the whole range, with one before it taken again now and then."""
    if before and rng.randrange(4):
        return rng.choice(before[-3:])
    return math.ldexp(rng.uniform(1.0, 2.0), rng.randrange(-24, 24))


def any_style(rng, before):
    return rng.choice([typical, at_tolerance, at_tolerance, extreme, wide])(rng, before)


def drawn(rng, style, n):
    """n values, each by the style and those before it."""
    made = []
    for _ in range(n):
        made.append(style(rng, made))
    return made


def colour_charts():
    """Kinds, ratios and stretches of the charts."""
    rng = random.Random(SEED)
    styles = itertools.cycle([typical, equal, at_tolerance, extreme, wide, any_style, at_tolerance])
    for n in range(LONGEST + 1):
        for style in (mixed, coupled, seams):
            kinds = grown(style(rng), n)
            yield kinds, drawn(rng, next(styles), n), spans(rng, kinds)
    for style, ratios in ((mixed, typical), (coupled, any_style)):
        kinds = grown(style(rng), MOST)
        yield kinds, drawn(rng, ratios, MOST), spans(rng, kinds)


def colour_request(kinds, ratios):
    ones = words([1.0] * len(kinds))
    return f"chart {len(kinds)}\n{kinds}\n{ones}\n{ones}\n{words(ratios)}\ncolour\n"


def ask_colour(oracle, charts):
    """For each chart the values, and mean and tenths of each stretch."""
    lines = iter(ask(oracle, "".join(colour_request(kinds, ratios) for kinds, ratios, _ in charts)))
    for kinds, _, parts in charts:
        values = [float_of(word) for word in next(lines).split()]
        assert len(values) == len(kinds)
        yield values, [stretch(kinds, values, *part) for part in parts]
    assert next(lines, None) is None, "more answers than requests"


# means half-way between two tenths, and how they are sought: the kinds, and stretches from the first object on
HALVES = [k / 4 for k in range(-11, 12, 2)]
SOUGHT, ENDS, STEPS = "01101", (4, 5), 200
KNOWN_HALF = ("00001", [float.fromhex("0x1.df7197f2d26a0p+0")] * 5, [(4, 5)])


def half_charts(oracle):
    """Charts of equal ratios, sought so that a mean is half-way between two tenths, or as near to that as an f64 comes, or beside that."""
    (values, _), = ask_colour(oracle, [(SOUGHT, [1.0] * len(SOUGHT), [])])
    tried = []
    for end, k in itertools.product(ENDS, range(-59, 60, 2)):
        # the first two values stay; the others have 1 - 0.4 * ratio as a factor, which is 0.6 at the ratio 1
        wanted, most = k / 20 * end - sum(values[:2]), sum(values[2:end]) / 0.6
        near = (1.0 - wanted / most) / 0.4
        if LEAST < near < LARGEST:
            tried += [(k / 20, (SOUGHT, [beside(near, i)] * len(SOUGHT), [(0, end)])) for i in range(-STEPS, STEPS + 1)]
    found = {}
    for (half, chart), (_, ((mean, _),)) in zip(tried, ask_colour(oracle, [chart for _, chart in tried])):
        if mean in (beside(half, -1), half, beside(half, 1)):
            found.setdefault(mean, chart)
    return [*found.values(), KNOWN_HALF]


def colour_case(kinds, ratios, values):
    table = list(dict.fromkeys(ratios))
    width = 1 if len(table) <= 256 else 2
    n, place = len(kinds), {r: i for i, r in enumerate(table)}
    body = struct.pack("<H", len(table)) + bytes(map(int, kinds))
    body += struct.pack(f"<{n}{'BH'[width - 1]}", *(place[r] for r in ratios))
    body += struct.pack(f"<{n}d", *values) + struct.pack(f"<{len(table)}d", *table)
    return head(COLOUR, width, n, body)


def stretch_case(n, part, answer):
    return head(STRETCH, 1, n, struct.pack("<HHdi", *part, *answer))


def check_values(charts, answers):
    """The values hold what they are made for: -0.0, and both sides of the tolerance where the ratio tells."""
    objects = [(min(i, 4), r[i] / r[i - 2], v[i]) for (_, r, _), (v, _) in zip(charts, answers) for i in range(2, len(r))]
    assert sum(bits(v) == bits(-0.0) for _, _, v in objects) > 1000, "few values of -0.0"
    told = {(i, q) for i, q, v in objects if v != 0.0}
    assert told >= {*itertools.product([2, 3, 4], EDGES)}, "a quotient at the tolerance is missing"
    seen = {r for _, ratios, _ in charts for r in ratios}
    assert seen >= {LEAST, beside(LEAST, 1), beside(LARGEST, -1), LARGEST}


def check_parts(charts, answers):
    """The stretches hold what they are made for: NonHits at both ends, one note alone, and none but notes of -0.0."""
    parts = [(k[a:b], v[a:b]) for (k, _, drawn), (v, _) in zip(charts, answers) for a, b in drawn]
    assert sum(k[0] == k[-1] == "2" for k, _ in parts) > 50, "few stretches between NonHits"
    assert sum(len(k) == 1 for k, _ in parts) > 500, "few stretches of one note"
    silent = [all(bits(x) == bits(-0.0) for x, kind in zip(v, k) if kind != "2") for k, v in parts]
    assert sum(silent) > 50, "few stretches whose notes are all -0.0"


def check_tenths(answers):
    """Exact halves with either neighbour even, below zero and above, and some tenths that a rounded product would miss."""
    found = [stretch for _, stretches in answers for stretch in stretches]
    assert {mean for mean, _ in found} >= {*HALVES}, "a mean half-way between two tenths is missing"
    off = [mean for mean, tenths in found if round(10.0 * mean) != tenths]
    assert sum(m < 0.0 for m in off) >= 5 and sum(m > 0.0 for m in off) >= 5, f"rounded tenths differ at {off} only"
    return len(off)


def marked_stretches(drawn, charts):
    """For each chart its lessons. Those that are sought for one mean have none."""
    return [*lessons(kinds for kinds, _, _ in drawn), *([] for _ in charts[len(drawn):])]


def lesson_answers(charts, marked, answers):
    """For each lesson the answers of its stretches, and how many places its slices have to spare (replay_cases/specs/Count.antt)."""
    stretches = itertools.accumulate(len(parts) for _, _, parts in charts)
    for i, ((kinds, _, _), drawn, (values, _), before) in enumerate(zip(charts, marked, answers, stretches)):
        for parts in drawn:
            yield [stretch(kinds, values, *part) for part in parts], (i + 1 + 2 * before) % 8


def write_colour(out, charts, answers, marked, told):
    """Each colour case, its stretches, then its lessons."""
    with open(out, "wb") as file:
        for (kinds, ratios, parts), (values, stretches), drawn in zip(charts, answers, marked):
            file.write(colour_case(kinds, ratios, values))
            for part, answer in zip(parts, stretches):
                file.write(stretch_case(len(kinds), part, answer))
            for lesson in drawn:
                file.write(head(LESSON, 2, len(kinds), lesson_body(lesson, next(told))))


def main_colour(oracle, out):
    drawn = list(colour_charts())
    charts = [*drawn, *half_charts(oracle)]
    answers = list(ask_colour(oracle, charts))
    marked = marked_stretches(drawn, charts)
    told, spares = zip(*lesson_answers(charts, marked, answers))
    check_values(charts, answers)
    check_parts(charts, answers)
    check_lessons([kinds for kinds, _, _ in charts], marked, told, set(spares))
    off = check_tenths(answers)
    write_colour(out, charts, answers, marked, iter(told))
    print(f"colour: {len(charts)} cases, {sum(len(c[0]) for c in charts)} values")
    print(f"stretch: {sum(len(c[2]) for c in charts)} cases, {off} whose tenths a rounded product would miss")
    print(f"lesson: {len(told)} cases, {sum(map(len, told))} pairs")


def main():
    if len(sys.argv) == 4 and sys.argv[3] == "colour":
        return main_colour(*sys.argv[1:3])
    if len(sys.argv) != 3:
        sys.exit(__doc__)
    all_kinds = list(charts())
    answers = list(ask_encode(sys.argv[1], all_kinds))
    check_intervals(answers)
    check_turns(all_kinds, answers)
    with open(sys.argv[2], "wb") as out:
        for kinds, (hits, objects, turns) in zip(all_kinds, answers):
            out.write(case(kinds, hits, objects))
            out.write(turns_case(turns))
    print(f"encode, and turns: {len(all_kinds)} cases, {sum(map(len, all_kinds))} objects")


if __name__ == "__main__":
    main()
