#!/usr/bin/env bash
# Runs the letters program end to end on each input below, and compares all that it prints with what it should.
set -eu
here=$(cd "$(dirname "$0")" && pwd)

program=$(dirname "$(dirname "$here")")/crates/letters/out/letters
if [ ! -x "$program" ]; then
    echo "$program is missing: run \`rt ci\`, or \`rt run\` in crates/letters, first" >&2
    exit 1
fi

made=$(mktemp -d)
trap 'rm -rf "$made"' EXIT

count=0

# failed NAME: says so and ends the run
failed() {
    echo "letters: failed on $1" >&2
    exit 1
}

# prints NAME: the program, fed from the standard input and with a stack of 4 MiB, prints what $made/expected has
prints() {
    if ! (ulimit -s 4096 && exec "$program") > "$made/printed" || ! cmp "$made/expected" "$made/printed" >&2; then
        failed "$1"
    fi
    count=$((count + 1))
}

# expect NAME INPUT OUTPUT, with \n for a line feed
expect() {
    printf %b "$2" > "$made/input"
    printf %b "$3" > "$made/expected"
    prints "$1" < "$made/input"
}

# in_pieces NAME OUTPUT PIECE..: the input comes piece by piece, and is read to its end
in_pieces() {
    name=$1
    printf %b "$2" > "$made/expected"
    shift 2
    prints "$name" < <(for piece; do printf %b "$piece"; sleep 0.1; done)
}

# means TEXT LETTERS: both print the same
means() {
    printf %s "$1" > "$made/input"
    printf %s "$2" > "$made/letters"
    "$program" < "$made/letters" > "$made/expected" || failed "$2"
    # no refusal, then: the first hit pattern is like none before it
    [ "$(head -c 3 "$made/expected")" = '17 ' ] || failed "$2"
    prints "$1" < "$made/input"
}

# repeated COUNT TEXT: the text so many times
repeated() {
    yes "$2" | head -n "$1" | tr -d '\n'
}

# N letters in no order, d and k more often than n
letters() {
    awk -v n="$1" 'BEGIN { x = 1; for (i = 0; i < n; i++) { x = (x * 75 + 74) % 65537; printf "%s", substr("dddkkkn", x % 7 + 1, 1) } }'
}

text=$(letters 1024)
# what these print, by the scope's text alone: expected.py makes it
lines="$(cat "$here/expected.txt")\n"
if command -v python3 > /dev/null; then
    printf %s "$text" | python3 "$here/expected.py" | cmp - "$here/expected.txt" >&2
else
    echo "no Python here: expected.txt is not made anew"
fi

expect "the scope's example" 'dkkddk\n' '17 d\n17 kk,dd\n2 k\n'
expect "the guide's chart" 'dkdkkdkknkkddkdkkdkk\n' '17 d,k,d\n17 kk|d|kk\n17 nkk\n17 dd\n4 k,d\n4 kk|d|kk\n'
expect 'a letter and no line feed' 'd' '17 d\n'
expect 'a first byte that is no letter' 'xdk\n' 'no 12 0\n'
expect 'a later byte that is no letter' 'dkndKx\n' 'no 12 4\n'
expect '1,024 letters' "$text" "$lines"
expect '1,024 letters and a line feed' "$text\n" "$lines"
expect '1,025 letters' "${text}d" 'no 13 1024\n'
expect '1,025 letters and a line feed' "${text}d\n" 'no 13 1024\n'
expect '1,025 bytes, the first no letter' "x$text" 'no 12 0\n'
expect '1,024 letters and two line feeds' "$text\n\n" 'no 12 1024\n'
expect '1,024 letters, the last with a count of one digit' "${text}2" 'no 13 1024\n'
expect '1,024 letters, the last with a count of two digits' "${text}10" 'no 13 1025\n'
expect '1,024 letters, the last with half a count' "${text}1" 'no 12 1025\n'
# hit patterns of two letters: the longest output that we know of
expect '1,024 letters, 2,818 bytes of output' "$(repeated 128 dkddkdkk)" "17 d,k\n17 dd\n2 k,d\n2 kk\n$(repeated 127 '2 d,k\n2 dd\n2 k,d\n2 kk\n')"
expect 'nothing' '' ''
expect 'one line feed' '\n' ''
expect 'two line feeds' '\n\n' 'no 12 0\n'
expect 'a letter and two line feeds' 'd\n\n' 'no 12 1\n'

# refused texts: each with its number and place
while read -r input number place; do
    expect "$input" "$input" "no $number $place\n"
done << 'ROWS'
) 12 0
2d 12 0
dk) 12 2
(dk 12 3
d0 12 1
d05 12 1
d1 12 2
d1d 12 2
d1( 12 2
d100 12 3
d234 12 3
() 12 1
(d 12 2
~) 12 1
~2 12 1
~() 12 2
~d~ 12 3
(d99)11 13 6
(d99)99x 13 6
(d99)9x 12 6
(d99d99)6x 13 8
(d99d99)60 13 9
((d32)32)1 12 10
((((((((((((((((( 14 16
((((((((((((((((x 12 16
ROWS

# good texts: each with the letters that it stands for
while read -r shorthand letters; do
    means "$shorthand" "$letters"
done << 'ROWS'
~dk kk
~dd kd
~~d d
~nk nk
~(dk)2 kdkd
~d2 kk
~(dkn)2 kdnkdn
d~(d2k2)k dkkddk
(dk)2kdk2nk2d2kdk2dk2 dkdkkdkknkkddkdkkdkk
~(d~k)2k kkkkk
~(d~(kn)2~~d)d kknknkd
k3n12d kkknnnnnnnnnnnnd
((dk)2n)3 dkdkndkdkndkdkn
(dk)8~(ddk)2 dkdkdkdkdkdkdkdkkkdkkd
((((((((((((((((d)))))))))))))))) d
ROWS
means '(d99)10' "$(repeated 990 d)"
means '((dk)8~(ddk)8)25k24' "$(repeated 25 "$(repeated 8 dk)$(repeated 8 kkd)")$(repeated 24 k)"

# as many bytes, and as many objects, as there may be: each of the letters, exchanged three times
largest=$(printf %s "$text" | tr dk kd | sed 's/./~~~&/g')
expect '4,096 bytes' "$largest" "$lines"
expect '4,096 bytes and a line feed' "$largest\n" "$lines"
expect '4,096 bytes and two line feeds' "$largest\n\n" 'long\n'
expect '4,096 bytes, none a letter' "$(repeated 4096 x)" 'no 12 0\n'
expect '4,097 bytes' "${largest}d" 'long\n'
expect '4,097 bytes and a line feed' "${largest}d\n" 'long\n'
expect '4,097 bytes, the first no letter' "x$largest" 'long\n'
expect '4,097 line feeds' "$(repeated 4097 '\n')" 'no 12 0\n'
expect '4,098 line feeds' "$(repeated 4098 '\n')" 'long\n'
expect '100,000 letters' "$(letters 100000)" 'long\n'

# as deep as there may be
tildes=$(repeated 4095 '~')
expect '4,095 tildes and a letter' "${tildes}d" '17 k\n'
expect '4,096 tildes' "$tildes~" 'no 12 4096\n'
expect '16 brackets, 250 tildes before each' "$(repeated 16 "$(repeated 250 '~')(")~d$(repeated 16 ')')" '17 k\n'
expect '4,096 brackets' "$(repeated 4096 '(')" 'no 14 16\n'

in_pieces 'an input in three pieces' '17 d\n17 kk,dd\n2 k\n' dkk dd 'k\n'
in_pieces 'a count in two pieces' "17 $(repeated 11 d,k,)d,k\n" '(dk)1' '2\n'
in_pieces '4,096 bytes, and then one' 'long\n' "$largest" d

echo "letters: $count inputs ok"
