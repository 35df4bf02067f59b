#!/usr/bin/env -S python3 -B
"""Draws docs/chart.svg, the chart of docs/GUIDE.md, from the library's own answers.

usage: tools/picture.py            writes docs/chart.svg
       tools/picture.py --check    says whether docs/chart.svg is what it would write, and writes nothing

It needs gcc and the archive, as tools/library.py says.
"""
import os
import sys

from library import GUIDE, ROOT, colour, encode, open_library

PICTURE = os.path.join(ROOT, "docs", "chart.svg")

# objects stand STEP apart from LEFT on; the names of rows end at NAMES; TALL is from the lowest end of a bar to the highest
STEP, LEFT, RADIUS, TALL = 40, 178, 15, 120
NAMES = LEFT - 30
WIDTH, HEIGHT = LEFT + STEP * len(GUIDE.letters) - 8, 426

# every ink has a contrast of at least 4.5 to 1 with what it stands on, every shape one of 3 to 1 with the ground
INK, PALE, LINE, BAR, BAND = "#262626", "#595959", "#595959", "#6f5aa6", "#f3f2f7"
RED, BLUE, GREY = "#b8402c", "#1f5f9f", "#e6e6e6"
KINDS = {"d": "Center (don)", "k": "Rim (kat)", "n": "NonHit (no note)"}


def middle(i):
    """Where object i stands, from left to right."""
    return LEFT + STEP * i


def runs(numbers):
    """The first and last object of each group, by the objects' group numbers."""
    firsts = [i for i in range(len(numbers)) if i == 0 or numbers[i] != numbers[i - 1]]
    return list(zip(firsts, [first - 1 for first in firsts[1:]] + [len(numbers) - 1]))


def shown(value):
    """A colour value as the picture gives it: two decimals, with a true minus sign; 0 where there is no change."""
    return "0" if value == 0 else f"{value:.2f}".replace("-", "\u2212")


def text(x, y, words, anchor="middle", size=12, fill=INK, more=""):
    return f'<text x="{x:g}" y="{y:g}" text-anchor="{anchor}" font-size="{size}" fill="{fill}"{more}>{words}</text>'


def draw_name(y, name):
    return text(NAMES, y, name, anchor="end", size=13)


def draw_kind(x, y, letter):
    """A disc for the middle of the drum, a ring for its rim, a box for no note; each with its letter."""
    shape, ink = {
        "d": (f'<circle cx="{x}" cy="{y}" r="{RADIUS}" fill="{RED}"/>', "#ffffff"),
        "k": (f'<circle cx="{x}" cy="{y}" r="{RADIUS - 2}" fill="#ffffff" stroke="{BLUE}" stroke-width="4"/>', BLUE),
        "n": (f'<rect x="{x - 14}" y="{y - 11}" width="28" height="22" rx="3" fill="{GREY}" stroke="{LINE}" '
              'stroke-width="1.5"/>', INK),
    }[letter]
    return [shape, text(x, y + 4.5, letter, size=14, fill=ink, more=' font-weight="bold"')]


def draw_legend(y):
    lines = [draw_name(y + 4.5, "kinds")]
    for x, (letter, name) in zip(range(LEFT, WIDTH, 4 * STEP), KINDS.items()):
        lines += draw_kind(x, y, letter) + [text(x + RADIUS + 7, y + 4.5, "= " + name, anchor="start", size=13)]
    return lines


def draw_row(y, name, labels, fill=INK):
    return [draw_name(y, name)] + [text(middle(i), y, label, fill=fill) for i, label in enumerate(labels)]


def draw_groups(y, name, numbers):
    lines = [draw_name(y, name)]
    for first, last in runs(numbers):
        a, b = middle(first) - RADIUS, middle(last) + RADIUS
        lines.append(f'<path d="M {a} {y - 8} V {y - 1} H {b} V {y - 8}" fill="none" stroke="{LINE}" stroke-width="1.5"/>')
    return lines


def draw_intervals(y, encoded):
    middles = [((middle(first) + middle(last)) / 2, encoded.interval[first]) for first, last in runs(encoded.hit)]
    return [draw_name(y, "repetition interval")] + [text(x, y, interval) for x, interval in middles]


def draw_bands(top, hit):
    """A pale band behind every second hit pattern, so that the eye finds it again in each row."""
    lines = []
    for first, last in runs(hit)[1::2]:
        x, width = middle(first) - STEP // 2, STEP * (last - first + 1)
        lines.append(f'<rect x="{x}" y="{top}" width="{width}" height="{HEIGHT - 12 - top}" fill="{BAND}"/>')
    return lines


def draw_values(top, values):
    """A bar for each value, up from the zero line, or down from it if the value is negative; the figures below them all."""
    unit = TALL / (max(0, *values) - min(0, *values))
    zero = top + unit * max(0, *values)
    lines = [draw_name(zero + 4.5, "0")]
    for i, value in enumerate(values):
        if value != 0:
            upper, height = zero - unit * max(0, value), unit * abs(value)
            lines.append(f'<rect x="{middle(i) - 11}" y="{upper:.1f}" width="22" height="{height:.1f}" fill="{BAR}"/>')
    ends = f"M {middle(0) - STEP // 2} {zero:.1f} H {middle(len(values)) - STEP // 2}"
    lines.append(f'<path d="{ends}" stroke="{LINE}" stroke-width="1.5"/>')
    return lines + draw_row(top + TALL + 20, "colour value", [shown(value) for value in values])


def told(encoded, values):
    """What the picture shows, in words."""
    def joined(labels):
        return ", ".join(str(label) for label in labels)

    def groups(numbers):
        return joined(GUIDE.letters[first:last + 1] for first, last in runs(numbers))

    kinds = joined(f"{letter} = {name}" for letter, name in KINDS.items())
    intervals = joined(encoded.interval[first] for first, _ in runs(encoded.hit))
    return "\n".join([
        f"{len(GUIDE.letters)} objects stand in a row, numbered from 0: {' '.join(GUIDE.letters)}, where {kinds}.",
        f"Below each stands its delta in milliseconds: {joined(GUIDE.deltas)}.",
        f"Then its ratio: {joined(f'{ratio:g}' for ratio in GUIDE.ratios)}.",
        f"Brackets join the objects of a streak: {groups(encoded.streak)};",
        f"of an alternating pattern: {groups(encoded.pattern)};",
        f"and of a hit pattern: {groups(encoded.hit)}. A pale band lies behind every second hit pattern.",
        f"Below each hit pattern stands its repetition interval: {intervals}.",
        f"At the bottom a bar shows each object's colour value: {joined(shown(value) for value in values)}.",
    ])


def drawn(library):
    encoded, values = encode(library, GUIDE), colour(library, GUIDE)
    lines = [
        f'<svg xmlns="http://www.w3.org/2000/svg" viewBox="0 0 {WIDTH} {HEIGHT}" font-family="sans-serif" role="img" '
        'aria-labelledby="title desc">',
        f'<title id="title">The chart {GUIDE.letters}: its rhythm, groups and colour values</title>',
        f'<desc id="desc">{told(encoded, values)}</desc>',
        f'<rect width="{WIDTH}" height="{HEIGHT}" fill="#ffffff"/>',
    ]
    lines += draw_bands(56, encoded.hit)
    lines += draw_legend(28)
    lines += draw_row(74, "object", range(len(GUIDE.letters)), fill=PALE)
    for i, letter in enumerate(GUIDE.letters):
        lines += draw_kind(middle(i), 98, letter)
    lines += draw_row(136, "delta, ms", GUIDE.deltas)
    lines += draw_row(158, "ratio", [f"{ratio:g}" for ratio in GUIDE.ratios])
    lines += draw_groups(184, "streaks", encoded.streak)
    lines += draw_groups(208, "alternating patterns", encoded.pattern)
    lines += draw_groups(232, "hit patterns", encoded.hit)
    lines += draw_intervals(252, encoded)
    lines += draw_values(266, values)
    return "\n".join(lines + ["</svg>"]) + "\n"


def read():
    with open(PICTURE, encoding="utf-8") as file:
        return file.read()


def main():
    picture = drawn(open_library())
    if sys.argv[1:] == ["--check"]:
        if not os.path.isfile(PICTURE) or read() != picture:
            sys.exit("docs/chart.svg is not what tools/picture.py draws: run it, and look at the picture")
        print("picture: ok")
        return
    with open(PICTURE, "w", encoding="utf-8") as file:
        file.write(picture)


main()
