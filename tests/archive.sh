# Sets `archive` to libdresserduck.a of `rt lib` in crates/dresserduck, or of the folder DRESSERDUCK_STATICLIB, which it exports as a full
# path for the Rust packages. run.sh of tests/host and of tests/examples read this file; `root` is the repository.
archive="${DRESSERDUCK_STATICLIB:-$root/crates/dresserduck/out}/libdresserduck.a"
if [ ! -f "$archive" ]; then
    echo "$archive is missing: run \`rt lib\` in crates/dresserduck first" >&2
    exit 1
fi
DRESSERDUCK_STATICLIB=$(cd "$(dirname "$archive")" && pwd)
export DRESSERDUCK_STATICLIB
archive="$DRESSERDUCK_STATICLIB/libdresserduck.a"
