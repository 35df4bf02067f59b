#!/usr/bin/env bash
# Runs a program of this package where the original is there: the folder DRESSERDUCK_ORACLE, or ../shared/oracle beside the repository.
#
# usage: run.sh compare SEED OBJECTS    draws charts from the seed and compares every bit of every answer and lent place
#        run.sh bench                   prints how many times as fast as the original the library is
set -eu
here=$(cd "$(dirname "$0")" && pwd)
oracle=${DRESSERDUCK_ORACLE:-$here/../../../shared/oracle}

if [ ! -f "$oracle/Cargo.toml" ]; then
    echo "no original in $oracle: nothing is compared"
    exit 0
fi
ln -sfn "$(cd "$oracle" && pwd)" "$here/oracle"

program=$1
shift
cd "$here"
cargo run --release --offline --quiet --bin "$program" -- "$@"
