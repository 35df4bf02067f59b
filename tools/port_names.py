#!/usr/bin/env python3
"""Respells the repository's own definitions and lemmas after port.py: run once, at the top, for the move to today's Rattle.

port_names.tsv has a line a name: as it was, as port.py left it, and as it is now. Functions, types, exported names,
texts and paths keep their spelling: in .rt files only clauses and `ghost use` lines are read.
"""

import os
import re

HERE = os.path.dirname(os.path.abspath(__file__))
TOP = os.path.dirname(HERE)
TOKEN = re.compile(r"[^\s(){}\[\].,;:=λ]+")
CLAUSE = re.compile(r"\b(?:requires|ensures|ghost|invariant)\b[^{;()\n]*\{")


def table():
    with open(os.path.join(HERE, "port_names.tsv"), encoding="utf-8") as f:
        rows = [line.rstrip("\n").split("\t") for line in f]
    return {ported: now for _, ported, now in rows if ported != now}


def is_old_spelling(name):
    return "-" in name or re.search("[a-z0-9][A-Z]", name)


def respelled(text, names, fields):
    """The text with each name as it is now; after a dot, where fields and paths stand, only what has the old spelling."""

    def one(m):
        word = m.group(0)
        if word not in names:
            return word
        behind_dot = m.start() > 0 and text[m.start() - 1] == "."
        if behind_dot and not (fields and is_old_spelling(word)):
            return word
        return names[word]

    return TOKEN.sub(one, text)


def imports(line, names):
    """A use line: the names in its braces, and none of its path."""
    path, brace, rest = line.partition("{")
    return path + brace + respelled(rest, names, False)


def antt(text, names, fields):
    lines = []
    for line in text.split("\n"):
        is_use = re.match(r"\s*(?:pub |unfoldable )*use ", line)
        lines.append(imports(line, names) if is_use else respelled(line, names, fields))
    return "\n".join(lines)


def closing(text, start):
    depth = 0
    for i in range(start, len(text)):
        depth += {"{": 1, "}": -1}.get(text[i], 0)
        if depth == 0:
            return i
    return len(text)


def rattle(text, names):
    text = re.sub(r"(?m)^ghost use .*$", lambda m: imports(m.group(0), names), text)
    out, at = [], 0
    for m in CLAUSE.finditer(text):
        if m.start() < at or text[m.start() :].startswith("ghost use"):
            continue
        end = closing(text, m.end() - 1)
        out += [text[at : m.end()], respelled(text[m.end() : end], names, True)]
        at = end
    return "".join(out) + text[at:]


def main():
    names = table()
    for folder, _, files in os.walk(os.path.join(TOP, "crates")):
        for name in sorted(files):
            path = os.path.join(folder, name)
            if not name.endswith((".rt", ".antt")):
                continue
            with open(path, encoding="utf-8") as f:
                text = f.read()
            new = rattle(text, names) if name.endswith(".rt") else antt(text, names, name != "Proof.antt")
            if new != text:
                with open(path, "w", encoding="utf-8") as f:
                    f.write(new)


main()
