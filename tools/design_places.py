#!/usr/bin/env python3
"""Lists the places of src/ that docs/DESIGN-PASS.md counts, point by point: `tools/design_places.py [-q] [ROOT]`.

It goes by text: what it names is a place to look at, and the page says of each what became of it."""
import difflib
import pathlib
import re
import sys

CODES = r"(refusal|number|call|stage|coupled): (u8|u16|u64)|-> u8$"
WORDS_OF_NONE = {"Absent", "Accepted", "Refused", "Bad", "Long", "Nothing", "Once", "Colour"}
KEYWORDS = set("fn pub let mut if else while for in return match as loop break true false self".split())


def functions(text):
    """Each function: its name, its parameters, its contract and its body."""
    for found in re.finditer(r"fn (\w+)(?:<[^>]*>)?\(([^)]*)\)([^{;]*?(?:\{ .*?\n?.*? \}\s*)*)\n\s*\{\n(.*?)\n\s*\}\n(?=\n|\Z|\})", text, re.S):
        yield found.groups()


def read(root):
    for path in sorted((root / "crates").glob("*/src/**/*.rt")):
        yield path.relative_to(root), path.read_text()


def lines_with(root, pattern):
    for path, text in read(root):
        for number, line in enumerate(text.splitlines(), 1):
            if re.search(pattern, line) and not line.lstrip().startswith("//"):
                yield f"{path}:{number}: {line.strip()}"


def own_enums(root):
    for path, text in read(root):
        for name, body in re.findall(r"enum (\w+)[^{]*\{(.*?)\n\}", text, re.S):
            variants = set(re.findall(r"^\s+(\w+)", body, re.M))
            if variants & WORDS_OF_NONE:
                yield f"{path}: enum {name} {sorted(variants)}"


def flags(root):
    yield from lines_with(root, r"^\s+pub (pending|first|hasown): (bool|u64)")


def kind_numbers(root):
    yield from lines_with(root, r"^\s+(0 \| 1|0 => b|b'd' => [0i])")


def tokens(body):
    out = []
    for word in re.findall(r"[A-Za-z_]\w*|\d[\w.]*|\S", body):
        out.append(word if word in KEYWORDS or not re.match(r"\w", word) else "0" if word[0].isdigit() else "v")
    return out


def twins(root):
    known = []
    for path, text in read(root):
        for name, parameters, _, body in functions(text):
            known.append((f"{path}: {name}", tokens(body)))
    for index, (name, body) in enumerate(known):
        for other, its in known[index + 1:]:
            if min(len(body), len(its)) < 14 or abs(len(body) - len(its)) > 0.2 * max(len(body), len(its)):
                continue
            if difflib.SequenceMatcher(None, body, its, autojunk=False).ratio() >= 0.9:
                yield f"{name} ~ {other}"


def counted_loops(root):
    for path, text in read(root):
        lines = text.splitlines()
        for number, line in enumerate(lines, 1):
            if re.search(r"^\s*while ", line):
                indent = len(line) - len(line.lstrip())
                body = []
                for later in lines[number:]:
                    if later.strip() == "}" and len(later) - len(later.lstrip()) == indent:
                        break
                    body.append(later)
                if re.search(r"\+= 1;|-= 1;|ObjectIndex\(i \+ 1\)", "\n".join(body)):
                    yield f"{path}:{number}: {line.strip()}"


def by_hand(root):
    names = "total_order|round_ties_even|is_alike|swap|reverse|heap_sort|smaller_of|larger_of|number|float_of|signed|wide|as_usize|both|nothing|trimmed_length|kind_of|letter_of|is_letter|put_number|put_digit"
    yield from lines_with(root, rf"fn ({names}|\w+_of)\(.*(answer|b: u8|a: f64, b: f64|x: f64|x: u32|low: u8|number: u16|a: bool|values: &mut|s: &\[u8\]\)|kind: u8\)|bits: u64|reading)|fn nothing\(\)|x != x")


def shared_facts(root):
    facts = {}
    for path, text in read(root):
        for name, _, contract, _ in functions(text):
            for fact in set(re.findall(r"requires(?: \w+)? \{ \(*([A-Z]\w*|[\w.]+ ≤ \w+)", contract)):
                facts.setdefault(fact, []).append(f"{path.parts[1]}::{name}")
    for fact, where in sorted(facts.items()):
        if len(where) > 2:
            yield f"{fact}: {', '.join(where)}"


def together(root):
    for path, text in read(root):
        for name, parameters, *_ in functions(text):
            if all(re.search(rf"\b{word}: &", parameters) for word in ["kind", "start", "delta"]):
                yield f"{path}: {name} takes a chart's lists"
            if re.search(r"limit: u16", parameters):
                yield f"{path}: {name} takes a bounded limit"
            if re.search(r"table: &\[f64\]", parameters):
                yield f"{path}: {name} takes the table"
            if re.search(r"spare: usize", parameters):
                yield f"{path}: {name} takes the spare places"
            if re.search(r"streak: &\[u16\]", parameters):
                yield f"{path}: {name} takes the columns of the letters"


def offsets(root):
    for path, text in read(root):
        for name, parameters, *_ in functions(text):
            if re.search(r"\b(w|out|s): &(mut )?\[(u16|u8)\]", parameters) and re.search(r"\b(at|to|from|m|n): usize", parameters):
                yield f"{path}: {name}({' '.join(parameters.split())})"


def switches(root):
    yield from lines_with(root, r"if (h\.call|call|k) == |match asked|both\(call ==")


def old_proofs(root):
    for path in sorted((root / "crates").glob("*/proofs/**/Proof.antt")):
        yield str(path.relative_to(root))


POINTS = [
    ("1 own enums of the shape of Option or Result", own_enums),
    ("1 codes for refusals, calls, stages and none", lambda root: lines_with(root, CODES)),
    ("1 numbered constants", lambda root: lines_with(root, r"^pub const [A-Z]+: u8 = \d;")),
    ("1 kinds and letters by number", kind_numbers),
    ("1 flags with a value beside", flags),
    ("2 pairs of functions that are the same but for names, types and numbers", twins),
    ("3 loops that count by hand", counted_loops),
    ("4 order, equality, conversion, printing by hand", by_hand),
    ("5 facts in three contracts or more", shared_facts),
    ("5 parameters that travel together", together),
    ("6 a slice with an offset or a length beside", offsets),
    ("7 switches on what to run", switches),
    ("8 proofs of the older form", old_proofs),
]


def main():
    words = [word for word in sys.argv[1:] if word != "-q"]
    root = pathlib.Path(words[0]) if words else pathlib.Path(__file__).resolve().parent.parent
    for title, places in POINTS:
        found = list(places(root))
        print(f"{len(found):4} {title}")
        if "-q" not in sys.argv:
            for place in found:
                print(f"       {place}")


main()
