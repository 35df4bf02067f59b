#!/usr/bin/env python3
"""Prints what the letters program is to print for the letters on standard input, by the scope's rules: a streak is a string of letters,
an alternating pattern a list of streaks, a hit pattern a list of patterns."""
import sys


def streaks(letters):
    made, last_note = [], None
    for letter in letters:
        # no letter n is a note, so none is ever the last note
        if letter == last_note:
            made[-1] += letter
        else:
            made.append(letter)
        if letter != "n":
            last_note = letter
    return made


def patterns(streaks):
    made = []
    for streak in streaks:
        if made and len(made[-1][-1]) == len(streak):
            made[-1].append(streak)
        else:
            made.append([streak])
    return made


def coupled(patterns, i):
    def look(pattern):
        return len(pattern[0]), len(pattern), pattern[0][0]

    return i + 2 < len(patterns) and look(patterns[i]) == look(patterns[i + 2])


def hit_patterns(patterns):
    made, start = [], 0
    while start < len(patterns):
        end = start
        while coupled(patterns, end):
            end += 1
        # end is the first uncoupled pattern: alone, or taken with the next
        end += 1 if end == start else 2
        made.append(patterns[start:end])
        start = end
    return made


def interval(hits, i):
    def look(hit):
        return len(hit), [len(pattern[0]) for pattern in hit[:2]]

    for back in range(1, 16):
        if back <= i and look(hits[i - back]) == look(hits[i]):
            return back
    return 17


hits = hit_patterns(patterns(streaks(sys.stdin.read())))
for number, hit in enumerate(hits):
    print(interval(hits, number), "|".join(",".join(pattern) for pattern in hit))
