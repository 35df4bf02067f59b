#!/usr/bin/env -S python3 -B
"""Holds the figures that the documents give of colour values, means and rhythm groups to the library's own answers.

usage: tools/figures.py            prints each phrase with its figures, by file
       tools/figures.py --check    says whether each phrase stands in its file

It needs gcc and the archive, as tools/library.py says.
"""
import functools
import itertools
import os
import random
import re
import sys

from library import DEFAULT, GUIDE, ROOT, Chart, Settings, build, colour, encode, lesson, open_library, record, rhythm, starts, stretch, taps, turns

# the searches go through every chart of up to ALL objects, and through RANDOM longer ones of up to LONG
ALL, RANDOM, LONG, SEED = 9, 3000, 60, 1
NOTES = 11
WINDOW = 50.0
WORDS = ["none", "one", "two", "three", "four", "five", "six", "seven", "eight", "nine"]


def demand(holds, words):
    if not holds:
        sys.exit(words)


def even(letters):
    """A chart in an even rhythm; its times don't matter for its values."""
    return Chart(letters, [150] * len(letters), [1.0] * len(letters))


def opening(numbers):
    """The objects that open a group, by the objects' group numbers; not the first object."""
    return {i for i in range(1, len(numbers)) if numbers[i] != numbers[i - 1]}


def listed(numbers):
    """Numbers as a sentence has them: 1, 2 and 3."""
    words = [f"{number:g}" for number in numbers]
    return ", ".join(words[:-1]) + " and " + words[-1]


def searched():
    """The letters of the charts that are searched."""
    for n in range(1, ALL + 1):
        yield from itertools.product("dkn", repeat=n)
    source = random.Random(SEED)
    for _ in range(RANDOM):
        yield source.choices("dkn", k=source.randint(ALL + 1, LONG))


@functools.cache
def highest_even(library):
    """The highest value in an even rhythm, of the first two objects and of the others."""
    front, rest = [], []
    for letters in searched():
        values = colour(library, even(letters))
        front.append(max(values[:2]))
        rest.append(max(values[2:], default=0.0))
    return max(front), max(rest)


@functools.cache
def extremes_behind(library, ratio):
    """The lowest and the highest value from the fifth object on, of objects of ratio 1 that stand two behind one of the ratio.

    Two objects have the ratio and two have 1, in turn; begun with either two, each object is tried.
    """
    values = []
    for letters, turn in itertools.product(searched(), (0, 2)):
        ratios = [ratio if (i + turn) % 4 < 2 else 1.0 for i in range(len(letters))]
        after = colour(library, even(letters)._replace(ratios=ratios))
        values += [after[i] for i in range(4, len(after)) if ratios[i - 2] == ratio]
    return min(values), max(values)


def first_two(library):
    return [highest_even(library)[0]]


def from_third(library):
    return [highest_even(library)[1]]


def highest_behind_half(library):
    return [extremes_behind(library, 0.5)[1]]


def highest_behind_two(library):
    highest = extremes_behind(library, 2.0)[1]
    demand(0.99 < highest < 1, f"behind a ratio of 2 the highest value is {highest}, not just below 1")
    return [highest]


def below_zero_behind_three(library):
    """How far below zero the lowest value is; the phrase has the sign."""
    return [-extremes_behind(library, 3.0)[0]]


def lowest_alternate(library):
    """From and up to how many notes the lowest mean is that of streaks of one length, among charts with both colours."""
    for n in range(3, NOTES + 1):
        charts = [("d",) + rest for rest in itertools.product("dk", repeat=n - 1) if "k" in rest]
        lowest = min(charts, key=lambda letters: stretch(library, even(letters), 0, n)[0])
        streaks = {len(list(streak)) for _, streak in itertools.groupby(lowest)}
        demand(len(streaks) == 1, "of charts with " + str(n) + " notes one with unequal streaks scores lowest: " + "".join(lowest))
    return [3, NOTES]


def means_of_two(library):
    return [stretch(library, even(letters), 0, len(letters))[0] for letters in ("ddkdkkd", "dkdkdkdk")]


def shrinking(library):
    return colour(library, even("dkdkdkdk"))[1:4]


def new_changes(library):
    """The values of ddkdkkd where an alternating pattern opens."""
    chart = even("ddkdkkd")
    values = colour(library, chart)
    return [values[i] for i in sorted(opening(encode(library, chart).pattern))]


def repeated_changes(library):
    """Its values where a streak opens, and no alternating pattern."""
    chart = even("ddkdkkd")
    values, encoded = colour(library, chart), encode(library, chart)
    return [values[i] for i in sorted(opening(encoded.streak) - opening(encoded.pattern))]


def whole(library):
    """Mean and tenths of the guide's chart."""
    return stretch(library, GUIDE, 0, len(GUIDE.letters))


def in_a_lesson(library):
    """The offset and the length of the guide's two pairs, and the tenths that a lesson of both tells of each."""
    stretches = [(0, GUIDE.letters.index("n") + 3), (GUIDE.letters.index("n"), 15)]
    told = lesson(library, GUIDE, stretches)
    demand(told.values == colour(library, GUIDE), "a lesson on the guide's chart has other values")
    alone = [stretch(library, GUIDE, a, b) for a, b in stretches]
    demand([*zip(told.means, told.tenths)] == alone, "a lesson on the guide's chart has other means or tenths")
    return [number for a, b in stretches for number in (a, b - a)] + told.tenths


def with_roll(library):
    """The value of the roll in the guide's chart, and what the mean would be if it counted."""
    values = colour(library, GUIDE)
    return values[GUIDE.letters.index("n")], sum(values) / len(values)


def at(i):
    """The value of object i of the guide's chart."""
    return lambda library: [colour(library, GUIDE)[i]]


def built(library, rate):
    """The guide's chart out of its times, which two raw objects stand before."""
    times = [-2 * GUIDE.deltas[0], -GUIDE.deltas[0]] + starts(GUIDE)
    return build(library, "dd" + GUIDE.letters, times, rate)


def built_deltas(library):
    """The deltas of the guide's chart at 1.5 times its speed, from the longest down; its letters, ratios and values are as before."""
    same, fast = built(library, 1.0), built(library, 1.5)
    demand(list(same) == [GUIDE.letters, starts(GUIDE), GUIDE.deltas, GUIDE.ratios], "another chart is built of the guide's times")
    demand(fast.letters == GUIDE.letters and fast.ratios == GUIDE.ratios, "at another speed the guide's chart has other ratios")
    chart = Chart(fast.letters, fast.deltas, fast.ratios)
    demand(colour(library, chart) == colour(library, GUIDE), "at another speed the guide's chart has other values")
    return sorted(set(fast.deltas), reverse=True)


def groups(library):
    """What is known of the rhythm groups of the guide's chart."""
    return [record(library, GUIDE, group, WINDOW) for group in range(rhythm(library, GUIDE).groups)]


def group_firsts(library):
    group = rhythm(library, GUIDE).group
    return [listed([group.index(number) for number in range(len(groups(library)))])]


def own_intervals(library):
    known = groups(library)
    owns = {group.own for group in known if group.has_own}
    demand(len(owns) == 1 and all(group.has_own for group in known), "the groups of the guide's chart have several own intervals")
    return [WORDS[len(known)], *owns]


def between_groups(library):
    return [listed([group.interval for group in groups(library)[1:]])]


def pattern_groups(library):
    return [WORDS[rhythm(library, GUIDE).pattern_groups]]


def penalties(library):
    """The penalties that neighbouring groups share, each with the number of those groups."""
    shared = itertools.groupby(group.penalty for group in groups(library))
    return [(penalty, WORDS[len(list(same))]) for penalty, same in shared]


def first_penalty(library):
    return penalties(library)[0]


def other_penalty(library):
    demand(len(penalties(library)) == 2, "the groups of the guide's chart don't have two penalties, one after the other")
    return penalties(library)[1]


def known_within(library, settings=DEFAULT):
    """To within how many whole milliseconds the deltas of the guide's chart may be known at most for its groups to be given, and one more."""
    within = next(within for within in itertools.count() if taps(library, GUIDE, within + 1, settings).open)
    whole = rhythm(library, GUIDE, settings)
    for known in range(within + 1):
        tapped = taps(library, GUIDE, known, settings)
        demand((tapped.group, tapped.groups) == (whole.group, whole.groups), f"known to within {known} ms the guide's chart has other groups")
    return [within, within + 1]


def with_margin(margin):
    return Settings(margin, DEFAULT.search_limit, DEFAULT.threshold, DEFAULT.tolerance)


def known_under_10(library):
    """The same under a margin of 10 ms, without the one more."""
    wide = with_margin(10.0)
    demand(rhythm(library, GUIDE, wide) == rhythm(library, GUIDE), "under a margin of 10 ms the guide's chart has other groups")
    return known_within(library, wide)[:1]


def interval_under_4(library):
    """The interval that the objects 13 and 14 of the guide's chart have in common under a search limit of 4."""
    short = Settings(DEFAULT.margin, 4, DEFAULT.threshold, DEFAULT.tolerance)
    found = set(encode(library, GUIDE, short).interval[13:15])
    demand(len(found) == 1, "under a search limit of 4 the objects 13 and 14 have two intervals")
    return [*found]


def around(i):
    """The notes before and after the streak of object i of the guide's chart."""
    return lambda library: [notes[i] for notes in turns(library, GUIDE)]


def behind(i):
    """The note after that streak alone."""
    return lambda library: [turns(library, GUIDE).next[i]]


def not_there(library):
    """What is told before the first streak of the guide's chart, before the roll's, and after the last."""
    told = turns(library, GUIDE)
    numbers = {told.previous[0], told.previous[GUIDE.letters.index("n")], told.next[-1]}
    demand(len(numbers) == 1, "a note that is not there is told by several numbers")
    return [*numbers]


def ends_apart(library):
    """The two ends of a delta of 150 ms that is known to within as many milliseconds as leave the groups open."""
    within = known_within(library)[1]
    return [150 + within, 150 - within]


# the file, the phrase, and what gives its figures
FIGURES = [
    ("docs/GUIDE.md", "every such chart of {} to {} notes", lowest_alternate),
    ("docs/GUIDE.md", "at most about {:.2f} from the third object on", from_third),
    ("docs/GUIDE.md", "The first two objects go up to {:.2f}", first_two),
    ("docs/GUIDE.md", "{:.2f} at most after a ratio of 0.5", highest_behind_half),
    ("docs/GUIDE.md", "at most about {:.0f} after a ratio of 2", highest_behind_two),
    ("docs/GUIDE.md", "as low as \u2212{:.2f} after a ratio of 3", below_zero_behind_three),
    ("docs/GUIDE.md", "`ddkdkkd` scores higher (mean {:.2f}) than `dkdkdkdk` (mean {:.2f})", means_of_two),
    ("docs/GUIDE.md", "its values shrink: {:.2f}, {:.2f}, {:.2f}", shrinking),
    ("docs/GUIDE.md", "({:.2f}, {:.2f}, {:.2f})", new_changes),
    ("docs/GUIDE.md", "repeats ({:.2f})", repeated_changes),
    ("docs/GUIDE.md", "deltas of {:g} and {:g} ms", built_deltas),
    ("docs/GUIDE.md", "The `kk` at 3 and 4 stands between the notes {} and {}", around(3)),
    ("docs/GUIDE.md", "there is no such note the answer is {}", not_there),
    ("docs/GUIDE.md", "the note after it is note {}, the `d` at 11", behind(8)),
    ("docs/GUIDE.md", "the `kk` at 6 and 7 has note {} after it, the `k` at 9", behind(6)),
    ("docs/GUIDE.md", "The whole chart has mean {:.3f} and tenths {}", whole),
    ("docs/GUIDE.md", "The pairs {} and {}, {} and {}, asked about together, have the tenths {} and {}", in_a_lesson),
    ("docs/GUIDE.md", "a value of its own, {:.2f}, but is no note: with it the mean would be {:.3f}", with_roll),
    ("docs/GUIDE.md", "lowers the sum to {:.2f}", at(13)),
    ("docs/GUIDE.md", "lowers it to {:.2f}", at(14)),
    ("docs/GUIDE.md", "object 3 has {:.2f}", at(3)),
    ("docs/GUIDE.md", "the groups begin at the objects {}", group_firsts),
    ("docs/GUIDE.md", "all {} have {:g}", own_intervals),
    ("docs/GUIDE.md", "{} ms", between_groups),
    ("docs/GUIDE.md", "give {} pattern groups", pattern_groups),
    ("docs/GUIDE.md", "{:g} for the first {} groups", first_penalty),
    ("docs/GUIDE.md", "{:g} for the other {}", other_penalty),
    ("docs/GUIDE.md", "known to within {} ms either way, and the groups are those above; to within {} ms, and they are open", known_within),
    ("docs/GUIDE.md", "{} and {} are not near", ends_apart),
    ("docs/GUIDE.md", "Under a margin of 10 ms the deltas of our chart may be known to within {} ms", known_under_10),
    ("docs/GUIDE.md", "the interval at 13 and 14 is {}", interval_under_4),
    ("README.md", "at most {:.2f} from the third object on", from_third),
    ("README.md", "up to {:.2f} at the first two", first_two),
    ("include/dresserduck.h", "a value is at most about {:.2f} from the third object on", from_third),
    ("include/dresserduck.h", "at most about {:.2f} at the first two", first_two),
    ("include/dresserduck.h", "at most about {:.0f} after a ratio of 2", highest_behind_two),
]


def phrases(library):
    """Each file with its phrases, the figures put in."""
    by_file = {}
    for file, template, figures in FIGURES:
        numbers = figures(library)
        demand(template.count("{") == len(numbers), f"{file}: {template}: the library gives {len(numbers)} figures")
        by_file.setdefault(file, []).append(template.format(*numbers))
    return by_file


def stands(phrase, text):
    """Whether the phrase stands in the text, and its figures are no ends of longer ones."""
    return re.search(r"(?<![\w.\u2212-])" + re.escape(phrase) + r"(?!\w|\.\d)", text) is not None


def text_of(file):
    """The file's words with one space between them, without the stars that begin the lines of a comment."""
    with open(os.path.join(ROOT, file), encoding="utf-8") as opened:
        return re.sub(r"\s+(\*\s+)*", " ", opened.read())


def check(by_file):
    """Names every phrase that is missing."""
    texts = {file: text_of(file) for file in by_file}
    missing = [f"{file} has no: {phrase}" for file, every in by_file.items() for phrase in every if not stands(phrase, texts[file])]
    demand(not missing, "\n".join(missing))
    print(f"figures: {len(FIGURES)} ok")


def main():
    by_file = phrases(open_library())
    if sys.argv[1:] == ["--check"]:
        check(by_file)
        return
    for file, every in by_file.items():
        print("\n    ".join([file + ":"] + every))


main()
