#!/usr/bin/env bash
# Tests everything: each proof, must-fail edit and program, by `rt ci`, then the host tests over the static libraries.
# The last line is rt's verdict, which is printed only once all else has passed.
set -euo pipefail
cd "$(dirname "$0")"

if [ "$(rt version)" != "$(cat KIT)" ]; then
    echo "this tree was last proved with the kit $(cat KIT); here is $(rt version)"
fi
(cd tests/repository && cargo test --release --offline --quiet)

# all that rt says but its last line, the verdict, which waits for what follows
log=$(mktemp)
trap 'rm -f "$log"' EXIT
passed=true
rt ci | tee "$log" | sed -u '$d' || passed=false
verdict=$(tail -n 1 "$log")
if [ "$passed" = false ]; then
    echo "$verdict"
    exit 1
fi
# An edit that can't be tried fails nothing in rt ci, which only counts it, in the line `rt: ok`. Here it fails: it shows nothing.
if ! grep -q '^rt: ok' "$log" || grep -qE '^rt: ok.*, [1-9][0-9]* bad' "$log"; then
    echo "rt ci told of must-fail edits that can't be tried, or had no line 'rt: ok'"
    exit 1
fi

# what the archives are made of is proved by now; one after the other, since they share the crates below
for archive in dresserduck test_host; do
    (cd "crates/$archive" && rt lib)
done

(cd tests/numeric && cargo test --release --offline --quiet)
tests/numeric/table.sh
(cd tests/grouping && cargo test --release --offline --quiet)
tests/grouping/memory.sh
tests/host/run.sh
(cd bindings/rust && cargo test --release --offline --quiet)
tests/examples/run.sh
tests/original/run.sh compare 7 500000
(cd tests/letters && cargo test --release --offline --quiet)
tests/letters/run.sh
tests/replay/run.sh
tools/picture.py --check
tools/figures.py --check

echo "$verdict"
