#!/usr/bin/env python3
"""Prints a line for each function of a crate and of what it calls: its name, `array` where its code has one, `writes` where it stores
into memory. Of a function of the kit's libraries it says `library` where a crate here calls it, `below` where libraries alone do, and `array`.
The code is the proved code that programs are linked from, which `rt lib` in the crate's folder keeps, and the kit for its libraries. A closure
counts as called where it is passed; what a library calls by a bound is no function by its name there, and is among what was passed.

usage: functions.py CRATE
"""
import json
import os
import subprocess
import sys

CRATES = os.path.join(os.path.dirname(os.path.abspath(__file__)), "..", "..", "crates")
KIT = os.path.dirname(subprocess.run(["rt", "doc"], capture_output=True, text=True, check=True).stdout.strip())


def is_library(krate):
    return not os.path.isdir(os.path.join(CRATES, krate))


def code(krate):
    """The functions of a crate or library, each with its locals and its body, by name."""
    of = os.path.join(KIT, "rlibs") if is_library(krate) else os.path.join(CRATES, krate, "out", "rlib")
    path = os.path.join(of, krate + ".rlib", "toolchain", "mir.json")
    if not os.path.isfile(path):
        sys.exit(f"{path} is missing: run `rt lib` in crates/{krate} first")
    with open(path, encoding="utf-8") as file:
        return dict(json.load(file))


def parts(tree, name):
    """What stands under this name anywhere in the tree."""
    if isinstance(tree, dict):
        yield from (inner for key, inner in tree.items() if key == name)
        tree = list(tree.values())
    if isinstance(tree, list):
        for inner in tree:
            yield from parts(inner, name)


def called(calls, known, library):
    """The functions that are called, and those of the closures and impls that are passed."""
    for function, *_ in calls:
        if list(function) == ["Fn"]:
            yield function["Fn"][0]
        elif not library:
            sys.exit(f"a call of {function}, which is no function by its name")
        for impl in parts(function, "Impl"):
            for functions in known.values():
                yield from (name for name in functions if name.startswith(impl[0] + "::"))


def main(krate):
    known = {krate: code(krate)}
    # those that a crate here calls come first, so that each library's function has the nearer word
    left, below, seen = sorted(known[krate]), [], set()
    while left or below:
        reached = "library" if left else "below"
        name = (left or below).pop()
        if name in seen:
            continue
        seen.add(name)
        of = name.split("::")[0]
        if of not in known:
            known[of] = code(of)
        if name not in known[of]:
            print(f'"{name}" {reached} unknown')
            continue
        whole = known[of][name]
        calls = list(parts(whole["body"], "Call"))
        stored = [assigned[0] for assigned in parts(whole["body"], "Assign")] + [call[2] for call in calls]
        words = [f'"{name}"'] + [reached] * is_library(of)
        words += ["array"] * any(True for _ in parts([whole["locals"], whole["body"]], "Array"))
        words += ["writes"] * (any(place["steps"] for place in stored) and not is_library(of))
        print(*words)
        (below if is_library(of) else left).extend(called(calls, known, is_library(of)))


main(sys.argv[1])
