#!/usr/bin/env python3
"""Makes the table of docs/CHECKS.md from what an older kit's `rt ci` printed: seconds to prove each crate, and for its must-fail edits.

That kit is rattle-kit-5b-plain logic 097e4c862dff5811; today's `rt ci` prints no times.

usage: ./test.sh | tee log; tools/check_times.py < log > docs/CHECKS.md
"""
import re
import sys

PROVED = re.compile(r"^rt: (\w+) proved \((\d+) s\)")
REFUSED = re.compile(r"^rt: must-fail (\w+)/\w+: refused.* (\d+) s\)")

HEAD = """# Check times

Every time here is of an older kit, `rattle-kit-5b-plain logic 097e4c862dff5811`; today's `rt ci` prints no times.

Made by `tools/check_times.py` from one run of the gate on two cores, two checks at a time. A must-fail edit checks its whole
crate again, so a crate with several edits is kept small.

| crate | check, s | edits | their checks, s |
|---|---|---|---|"""


def main():
    proved, edits = {}, {}
    for line in sys.stdin:
        if match := PROVED.match(line):
            proved.setdefault(match[1], int(match[2]))
        if match := REFUSED.match(line):
            edits.setdefault(match[1], []).append(int(match[2]))
    if not proved:
        sys.exit("no crate is proved in this log")
    print(HEAD)
    for crate, seconds in proved.items():
        each = edits.get(crate, [])
        print(f"| `{crate}` | {seconds} | {len(each) or '-'} | {sum(each) or '-'} |")
    of_edits = [seconds for each in edits.values() for seconds in each]
    print(f"| all | {sum(proved.values())} | {len(of_edits)} | {sum(of_edits)} |")


main()
