#!/usr/bin/env python3
"""Turns clauses that read slices by `lent`, `left` and the readings of memory: run once, after port_names.py.

usage: port_clauses.py [TOP]

`lent x` becomes x.old of a `&mut` and x.now of a `&`, `left x` becomes x.new; `before a b`, `after a b` and `held a b` become
`memory` of a.old, a.new and a.old; `chart`, `chart_held`, `raw` and `raw_held` take the lists.
"""

import os
import re
import sys

TOP = sys.argv[1] if len(sys.argv) > 1 else os.path.dirname(os.path.dirname(os.path.abspath(__file__)))
READ = {"lent": "old", "left": "new"}
MADE = {
    "before": ("memory", "old"),
    "after": ("memory", "new"),
    "held": ("memory", "old"),
    "chart": ("chart", "old"),
    "chart_held": ("chart", "old"),
    "raw": ("raw", "old"),
    "raw_held": ("raw", "old"),
}
FUNCTION = re.compile(r"\bfn (\w+)(?:<[^>]*>)?\(")
CLAUSE = re.compile(r"\s*(?:->[^{]*?)?\s*(requires\*?|ensures\*?)( \w+)? \{")
PARAMETER = re.compile(r"\s*(?:mut )?(\w+): (&(?:'\w+ )?(mut )?)?")
MAKING = re.compile(r"(?<![\w.])((?:\w+\.)?)(" + "|".join(sorted(MADE, key=len, reverse=True)) + r")((?:\s+[a-z_]+\b(?!\.))+)")


def closing(text, start, opens, closes):
    depth = 0
    for i in range(start, len(text)):
        depth += (text[i] == opens) - (text[i] == closes)
        if depth == 0:
            return i
    raise ValueError("unbalanced")


def parted(signature):
    """The parameters, parted by the commas outside brackets."""
    parts, depth, part = [], 0, ""
    for c in signature:
        depth += (c in "([{<") - (c in ")]}>")
        if c == "," and depth == 0:
            parts.append(part)
            part = ""
        else:
            part += c
    return [*parts, part]


def references(signature):
    """Whether each parameter that is a reference is a mutable one."""
    found = (PARAMETER.match(part) for part in parted(signature))
    return {m.group(1): bool(m.group(3)) for m in found if m and m.group(2)}


def field(name, moment, mutable):
    if name not in mutable:
        return None
    return f"{name}.{moment}" if mutable[name] else f"{name}.now"


def turned(clause, mutable):
    def made(m):
        path, word, rest = m.groups()
        new, moment = MADE[word]
        fields = []
        for name in rest.split():
            f = field(name, moment, mutable)
            if f is None:
                break
            fields.append(f)
            rest = rest.lstrip()[len(name) :]
        return f"{path}{new} {' '.join(fields)}{rest}" if fields else m.group(0)

    def read(m):
        return field(m.group(2), READ[m.group(1)], mutable) or m.group(0)

    clause = MAKING.sub(made, clause)
    clause = re.sub(r"\((lent|left) (\w+)\)", read, clause)
    return re.sub(r"(?<![\w.])(lent|left) (\w+)", read, clause)


def rattle(text):
    out, at = [], 0
    for m in FUNCTION.finditer(text):
        if m.start() < at:
            continue
        end = closing(text, m.end() - 1, "(", ")")
        mutable = references(text[m.end() : end])
        behind = end + 1
        while c := CLAUSE.match(text, behind):
            begin = c.end() - 1
            behind = closing(text, begin, "{", "}") + 1
            out += [text[at:begin], turned(text[begin:behind], mutable)]
            at = behind
    return "".join(out) + text[at:]


def main():
    for folder, _, files in os.walk(os.path.join(TOP, "crates")):
        for name in sorted(files):
            path = os.path.join(folder, name)
            if not name.endswith(".rt") or f"{os.sep}out{os.sep}" in path:
                continue
            with open(path, encoding="utf-8") as f:
                text = f.read()
            new = rattle(text)
            if new != text:
                with open(path, "w", encoding="utf-8") as f:
                    f.write(new)


main()
