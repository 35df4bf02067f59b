#!/usr/bin/env bash
# The replay sees a changed byte: the built program is run on the stored files, then on copies in which one bit is turned over or the end
# is missing, and must print each time which case differs, and nothing else than that.
set -eu
root=$(cd "$(dirname "$0")/../.." && pwd)
stored="$root/crates/replay"

program="$stored/out/replay"
if [ ! -x "$program" ]; then
    echo "$program is missing: run \`rt ci\`, or \`rt run\` in crates/replay, first" >&2
    exit 1
fi

made=$(mktemp -d)
trap 'rm -rf "$made"' EXIT
cp "$program" "$stored"/data/* "$made"

count=0

# cases FILE: for each case its call, its number among those of the call, where its body begins, and how many bytes the body has
cases() {
    od -An -v -w1 -tu1 "$stored/data/$1" | awk '
        { at = NR - 1 - start }
        at < 8 { head[at] = $1 }
        at == 7 { size = head[4] + 256 * head[5] + 65536 * head[6] }
        at >= 7 && at == 7 + size {
            print head[0], numbers[head[0]]++ + 0, start + 8, size
            start = NR
        }'
}
for file in build encode colour rhythm; do
    cases "$file" > "$made/$file.cases"
done

# prints NAME [SED]: what the program prints now is what its file `stdout` has, changed by the sed script
prints() {
    sed "${2:-}" "$stored/stdout" > "$made/expected"
    if ! (cd "$made" && ./replay > printed 2> said) || ! cmp "$made/expected" "$made/printed" >&2; then
        echo "replay, $1: it should have printed" >&2
        cat "$made/expected" >&2
        echo "and printed" >&2
        cat "$made/printed" >&2
        exit 1
    fi
    count=$((count + 1))
}

# differ CALL COUNT FIRST: the sed script by which so many cases of the call differ
differ() {
    printf '%s' "s/^\($1: .*\) 0 differ\$/\1 $2 differ\nfirst that differs: case $3/;"
}

# turn FILE CALL CASE PLACE: turns over the lowest bit of a byte of the case's body; a place below 0 counts from the end
turn() {
    read -r _ _ body size < <(grep "^$2 $3 " "$made/$1.cases")
    at=$((body + ($4 < 0 ? size : 0) + $4))
    byte=$(od -An -tu1 -j "$at" -N 1 "$made/$1")
    printf "\\x$(printf %02x $((byte ^ 1)))" | dd of="$made/$1" bs=1 seek="$at" conv=notrunc status=none
}

# turned NAME FILE CALL CASE PLACE SED: with this one bit turned over the program prints what the script makes of `stdout`
turned() {
    turn "$2" "$3" "$4" "$5"
    prints "$1" "$6"
    turn "$2" "$3" "$4" "$5"
}

# ends NAME FILE BYTES SED: the same, with so many bytes of the file's end missing
ends() {
    truncate -s "-$3" "$made/$2"
    prints "$1" "$4"
    cp "$stored/data/$2" "$made/$2"
}

prints 'the stored files'

# build: raw objects (2), rate (8), raw kinds, raw times, built kinds, starts, deltas, ratios; case 3 has no raw objects, case 40 has 7 at
# the rate 1.0, and the last but one has 16,386
turned 'the number of raw objects' build 6 0 0 "$(differ build 1 0)"
turned 'a rate, to one that is refused' build 6 3 9 "$(differ build 1 3)"
turned 'a rate' build 6 40 2 "$(differ build 1 40)"
turned 'the second raw kind, which is not read' build 6 40 11 ''
turned 'the third raw kind' build 6 40 12 "$(differ build 1 40)"
turned 'the first raw time, which is not read' build 6 40 17 ''
turned 'the second raw time' build 6 40 25 "$(differ build 1 40)"
turned 'a built kind' build 6 40 77 "$(differ build 1 40)"
turned 'a built start' build 6 40 78 "$(differ build 1 40)"
turned 'a built delta' build 6 40 118 "$(differ build 1 40)"
turned 'a built ratio' build 6 128 -8 "$(differ build 1 128)"

# encode: the number of hit patterns (2 bytes), kinds, five columns, intervals; case 4 is dd, the last has 16,384 objects
turned 'the number of hit patterns of a chart without objects' encode 1 0 0 "$(differ encode 1 0)"
turned 'a kind' encode 1 4 3 "$(differ encode 1 4)$(differ turns 1 4)"
turned 'a streak' encode 1 4 4 "$(differ encode 1 4)"
turned 'an interval' encode 1 10763 -1 "$(differ encode 1 10763)"
turn encode 1 10000 2
turned 'two cases' encode 1 9841 0 "$(differ encode 2 9841)$(differ turns 1 10000)"
turn encode 1 10000 2

# turns: previous, next (2 each); case 4 is of dd, case 5 of dk; in the last the last object has a previous note above 255 and no next
turned 'a previous note' encode 7 5 2 "$(differ turns 1 5)"
turned 'a previous note that is missing' encode 7 4 0 "$(differ turns 1 4)"
turned 'the high byte of a previous note' encode 7 10763 32767 "$(differ turns 1 10763)"
turned 'a next note' encode 7 5 4 "$(differ turns 1 5)"
turned 'a next note that is missing' encode 7 10763 -1 "$(differ turns 1 10763)"
turned 'the width of turns' encode 7 0 -7 "$(differ turns 1 0)"
turned 'the call of turns' encode 7 0 -8 's/10764 cases, 276742/2 cases, 0/; s/10764/0/;'"$(differ encode 1 1)"

# colour: distinct ratios (2), kinds, places in the table, values, the table; the last is ddddk, with one stretch.
# What a colour case stores its stretches and lessons fill again, so they differ too.
last_colour="$(differ colour 1 1010)$(differ stretch 1 5209)"
turned 'a kind of a colour case' colour 2 1010 3 "$last_colour"
turned 'a colour value' colour 2 1010 24 "$last_colour"
turned 'a ratio' colour 2 904 -1 "$(differ colour 1 904)$(differ stretch 6 5098)$(differ lesson 1 904)"

# stretch: both ends (2, 2), mean (8), tenths (4)
turned 'an end of a stretch' colour 3 5209 0 "$(differ stretch 1 5209)"
turned 'a mean' colour 3 0 4 "$(differ stretch 1 0)"
turned 'tenths' colour 3 5209 12 "$(differ stretch 1 5209)"

# lesson: pairs (2), offsets, lengths (2 each), means (8 each), tenths (8 each); case 0 has no pairs, case 12 the offsets 0, 2, 3 and the
# lengths 2, 1, 1
turned 'the number of pairs of a lesson without any' colour 8 0 0 "$(differ lesson 1 0)"
turned 'the number of pairs' colour 8 12 0 "$(differ lesson 1 12)"
turned 'an offset' colour 8 12 2 "$(differ lesson 1 12)"
turned 'an offset, to the one behind it' colour 8 12 4 "$(differ lesson 1 12)"
turned 'a length' colour 8 12 8 "$(differ lesson 1 12)"
turned 'a mean of a lesson' colour 8 12 14 "$(differ lesson 1 12)"
turned 'tenths of a lesson' colour 8 12 38 "$(differ lesson 1 12)"
turned 'the highest byte of tenths' colour 8 904 -1 "$(differ lesson 1 904)"
turned 'the width of a lesson' colour 8 0 -9 "$(differ lesson 1 0)"
turned 'the call of a lesson' colour 8 0 -10 's/1011 cases, 168748/2 cases, 0/; s/5210/0/; s/lesson: 905/lesson: 0/;'"$(differ colour 1 1)"

# rhythm: both counts (2, 2), kinds, starts, deltas, groups, pattern groups; case 42 has the deltas 102, 102, 150, 75, 75 and two records
turned 'the last delta' rhythm 4 42 88 "$(differ rhythm 1 42)$(differ record 1 39)"
turned 'the number of groups' rhythm 4 0 0 "$(differ rhythm 1 0)"
turned 'the number of pattern groups' rhythm 4 42 2 "$(differ rhythm 1 42)"
turned 'a pattern group' rhythm 4 464 -2 "$(differ rhythm 1 464)"

# record: group, first note, note count, pattern group, own or not (2 each), window, own, ratio, interval, penalty, pattern ratio (8 each)
turned 'a first note' rhythm 5 0 2 "$(differ record 1 0)"
turned 'a penalty' rhythm 5 3672 42 "$(differ record 1 3672)"
turned 'a pattern ratio' rhythm 5 38 50 "$(differ record 1 38)"

# a case that can't be read counts as one of build, encode, colour or rhythm that differs
ends 'a built chart without its last byte' build 1 's/35223/18840/;'"$(differ build 1 129)"
ends 'turns without their last byte' encode 1 's/10764 cases, 276742/10765 cases, 276742/; s/turns: 10764/turns: 10763/;'"$(differ encode 1 10764)"
ends 'a file without its last turns' encode 65544 's/turns: 10764/turns: 10763/'
ends 'a chart without its last byte' encode 65545 's/276742/260358/; s/turns: 10764/turns: 10763/;'"$(differ encode 1 10763)"
ends 'a stretch without its last byte' colour 1 's/1011/1012/; s/5210/5209/;'"$(differ colour 1 1011)"
# behind the last lesson, of 650 bytes, stand 106 charts of 5 objects with a stretch each
without='s/1011 cases, 168748/905 cases, 168218/; s/5210/5104/; s/lesson: 905/lesson: 904/;'
ends 'a lesson without its last byte' colour 9753 "$without"'s/colour: 905/colour: 906/;'"$(differ colour 1 905)"
ends 'a file that ends before its last lesson' colour 10402 "$without"
ends 'a head without its last byte' rhythm 59 's/465/466/; s/3673/3672/;'"$(differ rhythm 1 465)"
ends 'a file without its last case' rhythm 66 's/3673/3672/'

rm "$made/encode"
prints 'a file that is not there' 's/^encode: .*/encode: 0 cases, 0 objects, 0 differ/; s/^turns: .*/turns: 0 cases, 0 differ/'

echo "replay: $count runs ok"
