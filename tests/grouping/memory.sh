#!/usr/bin/env bash
# The normaliser has no list but the one that it is lent. A promise speaks of lent slices and not of what a function keeps to itself, so this
# looks at the proved code of `normal_of` and of all that it calls, in the kit's libraries too: no local is an array, and besides the library's sort and
# reversal, which are in place, one function alone writes to memory. Of the library's functions that are called these two alone are lent a slice to change.
set -euo pipefail
cd "$(dirname "$0")/../.."

# what an earlier build left may be of other files
(cd crates/grouping_normalizer && rt lib)

# so that an array would be seen: the table of numeric is one, which is borrowed, and the library's stable sort has some of its own
if ! grep -q '^"numeric::logistic::LogisticTable::new" array' <<< "$(tests/grouping/functions.py numeric)"; then
    echo "functions.py does not show the array of numeric's table" >&2
    exit 1
fi
if ! grep -q '^"core::slice::sort::short::.*array' <<< "$(tests/grouping/functions.py core)"; then
    echo "functions.py does not show the arrays of the library's stable sort" >&2
    exit 1
fi

all=$(tests/grouping/functions.py grouping_normalizer)
if ! grep -q '^"grouping_normalizer::normal_of"' <<< "$all"; then
    echo "functions.py does not show normal_of" >&2
    exit 1
fi
if grep ' array' <<< "$all"; then
    echo "these, which the normaliser calls, have an array" >&2
    exit 1
fi
if grep ' unknown' <<< "$all"; then
    echo "these, which the normaliser calls, are not looked into" >&2
    exit 1
fi
wanted='"core::cmp::numbers::BoolOrd::cmp" library
"core::f64::is_nan" library
"core::f64::is_sign_negative" library
"core::f64::is_sign_positive" library
"core::iter::base::Iterator::any" library
"core::iter::base::Iterator::count" library
"core::iter::base::Iterator::take_while" library
"core::iter::slices::IterIterator::next" library
"core::iter::slices::IterIterator::size_hint" library
"core::iter::slices::slice+T::iter" library
"core::slice::edits::slice+T::reverse" library
"core::slice::ordered::slice+T::is_sorted_by" library
"core::slice::reads::slice+T::split_at" library
"core::slice::slice+T::is_empty" library
"core::slice::sort::slice+T::sort_unstable_by" library
"grouping_normalizer::distinct_values" writes'
found=$(grep ' library\| writes' <<< "$all" | sort)
if [ "$found" != "$wanted" ]; then
    printf 'functions of the normaliser with a store, and of the library:\n%s\nwhere there should be\n%s\n' "$found" "$wanted" >&2
    exit 1
fi
echo "the normaliser's memory: ok"
