#!/usr/bin/env bash
# The definition's table and the source's constant are what the maker computes from 120 digits, where Python is there.
set -eu
cd "$(dirname "$0")/../.."

if ! command -v python3 > /dev/null; then
    echo "no Python here: the table is not computed anew"
    exit 0
fi
diff <(python3 tools/logistic_table.py --spec | grep -o '0x[0-9a-f]*') <(grep -o '0x[0-9a-f]*' crates/numeric/specs/Logistic.antt)
diff <(python3 tools/logistic_table.py --source | grep -oE '^ *[0-9][0-9.e-]*,' | tr -d ' ') \
    <(grep -oE '^ *[0-9][0-9.e-]*,' crates/numeric/src/logistic.rt | tr -d ' ')
echo "table: ok"
