//! Refusals 2, 3, 17, 9 and 11 on both sides of each limit: counts, offsets that rise or don't, and stretches about
//! the chart's end and about 2^64, where a sum of 64 bits wraps.

use std::collections::BTreeSet;

use host_tests::chart::Chart;
use host_tests::check_colour::check_values;
use host_tests::lesson::{
    answered, answered_by, answered_with, exact_sizes, refused, refused_with, Marked,
};
use host_tests::plain_lesson::Pair;
use host_tests::samples::repeated;
use host_tests::LARGEST_CHART;

use crate::side_by_side;

/// Offsets and lengths of another number, and no memory for the pairs, which is told behind.
#[test]
fn offsets_and_lengths_of_two_numbers_are_refused_2() {
    for n in [0, 1, 9, 80] {
        let chart = Chart::of_size(n);
        for offsets in [0, 1, 2, 31, 32, 33, 64] {
            for lengths in [0, 1, 2, 31, 32, 33, 64, 65_536 + offsets] {
                if lengths == offsets {
                    continue;
                }
                let mut marked = Marked::new(&chart, &side_by_side(offsets, 1));
                marked.length = vec![1; lengths];
                refused(&marked, 2, 0);
                refused_with(&marked, [0; 5], 2, 0);
            }
        }
    }
}

/// The means or the tenths lack one place, or have none, whatever the other slice has.
#[test]
fn slices_with_too_few_places_for_the_pairs_are_refused_3() {
    for n in [80, LARGEST_CHART] {
        let chart = repeated("dkk", n);
        for count in [1, 2, 31, 32] {
            let marked = Marked::new(&chart, &side_by_side(count, 2));
            for (mean, tenths) in [
                (count - 1, n),
                (n, count - 1),
                (0, count),
                (count, 0),
                (0, 0),
            ] {
                let [value, _, _, work, scratch] = exact_sizes(n, count);
                refused_with(&marked, [value, mean, tenths, work, scratch], 3, 0);
            }
            let told = answered_with(&marked, exact_sizes(n, count));
            assert!(told.is_ok(), "{count} of {chart}");
        }
    }
    // counted on the offsets: too many pairs are told behind
    let marked = Marked::new(&Chart::of_size(80), &side_by_side(33, 2));
    for (mean, tenths) in [(32, 33), (33, 32)] {
        refused_with(&marked, [80, mean, tenths, 640, 80], 3, 0);
    }
}

/// Some are few enough to arithmetic of 8 or 16 bits.
#[test]
fn more_than_32_pairs_are_refused_17() {
    let chart = repeated("dkk", 400);
    assert!(answered(&Marked::new(&chart, &side_by_side(32, 1))).is_ok());
    for count in [33, 34, 64, 255, 256, 257, 288, 65_536, 65_537, 65_568] {
        refused(&Marked::new(&chart, &side_by_side(count, 1)), 17, 0);
    }
}

/// Each place of a lesson in turn; some are below the one before only as numbers of 64 bits.
#[test]
fn offsets_that_do_not_rise_are_refused_17() {
    let chart = repeated("dkk", 70);
    for count in [2, 3, 31, 32] {
        let pairs: Vec<Pair> = (0..count).map(|pair| (2 * pair + 1, 2)).collect();
        let good = Marked::new(&chart, &pairs);
        assert!(answered(&good).is_ok());
        for at in 1..count as usize {
            let before = good.offset[at - 1];
            for offset in [before, before - 1, 0] {
                let mut marked = good.clone();
                marked.offset[at] = offset;
                refused(&marked, 17, 0);
            }
            for offset in [before + 2, before + 3, 1 << 32, 1 << 63, u64::MAX] {
                let mut marked = good.clone();
                marked.offset[at - 1] = offset;
                refused(&marked, 17, 0);
            }
        }
    }
}

/// Offsets rise as numbers of 64 bits without a sign: no 17, and the first pair past the chart is named.
#[test]
fn offsets_beyond_the_chart_may_rise() {
    let chart = repeated("dkk", 70);
    for far in [70, 1 << 31, 1 << 32, (1 << 63) - 1, 1 << 63, u64::MAX - 1] {
        for pairs in [
            [(3, 1), (far, 1), (far + 1, 1)],
            [(69, 1), (far, 0), (u64::MAX, 9)],
        ] {
            let got = answered(&Marked::new(&chart, &pairs));
            assert_eq!(got.err(), Some((9, 1)), "{pairs:?}");
        }
    }
}

/// Numbers about 0, about n, about powers of 2 at which a number of fewer bits wraps, and about 2^64.
fn edges(n: u64) -> BTreeSet<u64> {
    let powers = [1 << 16, 1 << 31, 1 << 32, (1 << 32) + n, 1 << 63];
    let around = |x: u64| [x.wrapping_sub(2), x.wrapping_sub(1), x, x.wrapping_add(1)];
    let mut all: BTreeSet<u64> = powers.into_iter().flat_map(around).collect();
    all.extend([0, 2, n, n + 1].into_iter().flat_map(around));
    all
}

/// Those, and what makes the sum with the offset one of them, as it wraps.
fn lengths(n: u64, offset: u64) -> BTreeSet<u64> {
    let mut all = edges(n);
    all.extend(edges(n).iter().map(|end| end.wrapping_sub(offset)));
    all
}

/// How many lessons are accepted and how many refused by 9, of those that have an edge for an offset; the plain
/// version, whose sums are of 128 bits, says which.
fn count(chart: &Chart, before: &[Pair]) -> [usize; 2] {
    let n = chart.size() as u64;
    let (values, least) = (check_values(chart), before.len() as u64);
    let mut counts = [0, 0];
    for offset in edges(n).into_iter().filter(|&offset| offset >= least) {
        for length in lengths(n, offset) {
            let pairs = [before, &[(offset, length)]].concat();
            let told = answered_by(&Marked::new(chart, &pairs), &values);
            assert!(told.is_ok() || told == Err((9, least)), "{told:?}");
            counts[usize::from(told.is_err())] += 1;
        }
    }
    counts
}

/// Each as the one pair, and as the third behind two that are good.
#[test]
fn sums_are_exact() {
    // every stretch of the charts of one object and of two
    for (n, every) in [(0, 0), (1, 1), (2, 3)] {
        let [good, outside] = count(&repeated("dk", n), &[]);
        assert!(good == every && outside > 700, "{n}: {good}, {outside}");
    }
    for n in [9, 300] {
        let chart = repeated("dkk", n);
        for before in [&[][..], &[(0, 2), (1, n as u64 - 1)]] {
            let [good, outside] = count(&chart, before);
            println!("{n} objects: {good} accepted, {outside} outside");
            assert!(good > 10 && outside > 700, "{n}: {good}, {outside}");
        }
    }
}

/// The largest chart's end.
#[test]
fn the_largest_stretches_are_accepted() {
    let n = LARGEST_CHART as u64;
    let chart = repeated("dkk", LARGEST_CHART);
    let values = check_values(&chart);
    for offset in [0, 1, 2, n / 2, n - 2, n - 1] {
        let left = n - offset;
        for (length, refusal) in [
            (left, None),
            (left + 1, Some((9, 0))),
            (left + 65_536, Some((9, 0))),
            (left + (1 << 32), Some((9, 0))),
            (u64::MAX, Some((9, 0))),
        ] {
            let marked = Marked::new(&chart, &[(offset, length)]);
            let told = answered_by(&marked, &values);
            assert_eq!(told.err(), refusal, "{length} from {offset}");
        }
    }
}

/// A NonHit first, inside and last, alone and in a row; with the next note in it, the stretch has one.
#[test]
fn stretches_without_a_note_are_refused_11() {
    let chart = Chart::of_text("nndnnnkn");
    for (silent, with_note) in [
        ((0, 1), (0, 3)),
        ((0, 2), (0, 3)),
        ((1, 1), (1, 2)),
        ((3, 1), (2, 2)),
        ((3, 3), (3, 4)),
        ((4, 2), (2, 4)),
        ((7, 1), (6, 2)),
    ] {
        refused(&Marked::new(&chart, &[silent]), 11, 0);
        let told = answered(&Marked::new(&chart, &[with_note]));
        assert!(told.is_ok(), "{with_note:?}: {told:?}");
    }
    let silent = Chart::of_kinds(vec![2; LARGEST_CHART]);
    let n = LARGEST_CHART as u64;
    refused(&Marked::new(&silent, &[(0, n)]), 11, 0);
    refused(&Marked::new(&silent, &[(0, n + 1)]), 9, 0);
    refused(&Marked::new(&silent, &[(n - 1, 1), (n, 1)]), 11, 0);
}
