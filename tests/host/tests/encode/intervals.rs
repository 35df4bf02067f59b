//! Intervals that follow from how a chart is built, with no other encoder asked.

use host_tests::chart::Chart;
use host_tests::lent::{exact_sizes, Lent};
use host_tests::samples::rounds;
use host_tests::{encode, Encoded};

/// The like of each hit pattern stands `period` hit patterns before, which 16 and above do not reach.
#[test]
fn intervals_of_cycles() {
    for period in 3..=24_u64 {
        let chart = Chart::of_kinds(rounds(period as usize));
        let mut lent = Lent::new(exact_sizes(chart.size()), chart.size());
        let got = encode(&chart, &mut lent);
        let want = Encoded {
            refusal: 0,
            place: 0,
            hit_patterns: 2 * period,
        };
        assert_eq!(got, want, "{chart}");
        let again = if period <= 15 { period as u8 } else { 17 };
        let half = chart.size() / 2;
        let should = [vec![17; half], vec![again; half]].concat();
        assert_eq!(lent.interval.lent(), should, "period {period}: {chart}");
    }
}

/// The nearest match counts, though farther ones match too: a third round gives the same intervals as the second.
#[test]
fn nearest_match_counts() {
    let chart = Chart::of_text("d kk ddd k dd kkk d kk ddd");
    let mut lent = Lent::new(exact_sizes(chart.size()), chart.size());
    let got = encode(&chart, &mut lent);
    assert_eq!((got.refusal, got.hit_patterns), (0, 9), "{chart}");
    let should = [vec![17; 6], vec![3; 12]].concat();
    assert_eq!(lent.interval.lent(), should, "{chart}");
}
