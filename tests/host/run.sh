#!/usr/bin/env bash
# Looks at what libdresserduck.a needs from outside, compiles and runs the C programs as C99 and as C++17 against it, then runs the Rust tests.
set -eu
root=$(cd "$(dirname "$0")/../.." && pwd)
. "$root/tests/archive.sh"

made=$(mktemp -d)
trap 'rm -rf "$made"' EXIT
# a host without a C library brings this one function: the compiler makes calls of it where zeros are written
needed=$(nm -u "$archive" | awk '$1 == "U" { print $2 }' | sort -u)
if [ "$needed" != memset ]; then
    printf 'libdresserduck.a needs from outside:\n%s\nwhere memset alone may be\n' "$needed" >&2
    exit 1
fi

strict=(-Wall -Wextra -Wpedantic -Werror -I "$root/include")

# valgrind finds a read or write outside a block of the heap, in the library too
watched=()
if command -v valgrind > /dev/null; then
    watched=(valgrind --quiet --error-exitcode=9 --leak-check=full)
else
    echo "no valgrind here: the C programs run without it"
fi

for program in "$root"/tests/host/c/*.c; do
    gcc -std=c99 "${strict[@]}" "$program" "$archive" -o "$made/as_c"
    "${watched[@]}" "$made/as_c"
    if command -v g++ > /dev/null; then
        g++ -std=c++17 "${strict[@]}" -O2 -DNDEBUG -x c++ "$program" -x none "$archive" -o "$made/as_cpp"
        "$made/as_cpp"
    else
        echo "no g++ here: the header is not tried as C++"
    fi
done

cd "$root/tests/host"
cargo test --release --offline --quiet
