#!/usr/bin/env bash
# The two examples on one chart print the same, which is what expected.txt has; a bad chart is refused.
set -eu
root=$(cd "$(dirname "$0")/../.." && pwd)
here="$root/tests/examples"
. "$root/tests/archive.sh"

made=$(mktemp -d)
trap 'rm -rf "$made"' EXIT
gcc -std=c99 -Wall -Wextra -Wpedantic -Werror -I "$root/include" "$root/examples/marks.c" "$archive" -o "$made/marks"
rust() { (cd "$root/bindings/rust" && cargo run --release --offline --quiet --example marks -- "$@"); }

"$made/marks" 2.5 < "$here/chart.txt" | diff "$here/expected.txt" -
rust 2.5 < "$here/chart.txt" | diff "$here/expected.txt" -

said() {
    if ! grep -qF "$1" "$2"; then
        echo "an example should have said $1; it said:" >&2
        cat "$2" >&2
        exit 1
    fi
}

# refused CHART C_TEXT RUST_TEXT: neither takes the chart, and each says so
refused() {
    if printf %b "$1" | "$made/marks" 2.5 > "$made/c" 2>&1 || printf %b "$1" | rust 2.5 > "$made/rust" 2>&1; then
        echo "an example took a bad chart" >&2
        exit 1
    fi
    said "$2" "$made/c"
    said "$3" "$made/rust"
}
refused 'x 0 100 1\n' "refused 4 at 0" "Object 0 of the chart, counted from 0, is neither a Center, a Rim nor a NonHit."
refused 'd 0 100 1\nk 100 nan 1\n' "refused 6 at 1" "Object 1 of the chart, counted from 0, has a delta"
refused 'd 0 100 1\nk 100\n' "an object is no letter and three numbers" "object 1 is no letter and three numbers"
refused "$(yes 'd 0 100 1' | head -n 16385)" "refused 1 at 0" "The chart has more than 16,384 objects."
echo "examples: ok"
