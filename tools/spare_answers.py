#!/usr/bin/env python3
"""Takes explicit answers out of a crate's proofs that the check finds alone: `tools/spare_answers.py CRATE_FOLDER`.

It takes all of them out, runs `rt check`, puts back those whose goals the check then asks for, and goes on until the
crate is proved. What it leaves wants `rt tidy`, and an empty Answers.antt is to be removed by hand."""
import pathlib
import re
import subprocess
import sys

ANSWER = re.compile(r"pub (\S+) : goal\.\S+$")
ASKED = re.compile(r"note: `(\S+)` of (proofs/\S+Answers\.antt) must prove")
OPEN = re.compile(r"note: src/.*\(`(\S+)`\)")
JUDGED = re.compile(r"fn ([^:]+)::(\S+): (not proved|proved)")


def blocks(text):
    """The file in pieces, each with the name of the answer that it is, or with none. A comment goes with what follows."""
    pieces, lines, name = [], [], None
    for line in text.rstrip("\n").split("\n"):
        begins = line and not line[0].isspace() and not line.startswith("unfolding") and line.split()[0] != name
        if begins and not (lines and lines[-1].startswith("--")):
            pieces.append((name, lines))
            lines, name = [], None
        lines.append(line)
        found = ANSWER.match(line)
        name = found.group(1) if found else name
    return [piece for piece in pieces + [(name, lines)] if piece[1]]


def write(files, kept):
    for path, pieces in files.items():
        lines = [line for name, piece in pieces if name is None or (path, name) in kept for line in piece]
        path.write_text("\n".join(lines).rstrip("\n") + "\n")


def asked_in(output, answers):
    """The answers that the check asks for: by its notes on a proof file, or on a function that it then calls not proved.
    A goal of several clauses is asked for clause by clause."""
    asked, goals = ASKED.findall(output), []
    for line in output.splitlines():
        note, judged = OPEN.match(line), JUDGED.match(line)
        if note:
            goals.append(note.group(1))
        if judged and judged.group(3) == "not proved":
            asked += [(goal, f"proofs/{judged.group(2).replace('::', '/')}/Answers.antt") for goal in goals]
        goals = [] if judged else goals
    wanted = {(path, goal.split("-clause-")[0]) for goal, path in asked} | {(path, goal) for goal, path in asked}
    return {(path, name) for path, name in answers if any(str(path).endswith(file) and name == goal for file, goal in wanted)}


def check(crate):
    run = subprocess.run(["rt", "check"], cwd=crate, capture_output=True, text=True)
    return run.returncode == 0, run.stdout + run.stderr


def main():
    crate = pathlib.Path(sys.argv[1])
    files = {path: blocks(path.read_text()) for path in sorted(crate.glob("proofs/**/Answers.antt"))}
    answers = {(path, name) for path, pieces in files.items() for name, _ in pieces if name}
    kept, proved = set(), False
    while not proved:
        write(files, kept)
        proved, output = check(crate)
        back = asked_in(output, answers) - kept
        kept |= back
        if not proved and not back:
            write(files, answers)
            sys.exit("the check asks for none of the answers that are out, so all are back")
    print(f"{len(answers)} answers, {len(kept)} of them needed")


if __name__ == "__main__":
    main()
