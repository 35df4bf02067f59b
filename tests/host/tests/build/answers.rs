//! Charts that are built: sizes from none to the largest, drawn samples, and what the other calls say to them.

use std::collections::BTreeSet;

use crate::{builds, good, refuses};
use host_tests::build::{build, Memory, Raw};
use host_tests::chart::Chart;
use host_tests::check;
use host_tests::check_rhythm::exact;
use host_tests::colour::{self, colour, stretch};
use host_tests::plain_build::{self, quotients};
use host_tests::rhythm::{record, rhythm};
use host_tests::samples::{raw_chart, Xorshift};
use host_tests::turns;
use host_tests::LARGEST_RAW_CHART;

#[test]
fn kinds_starts_and_deltas_by_hand() {
    let mut raw = Raw::of_times(&[-9.0, 30.0, 60.0, 150.0, 120.0], 1.5);
    raw.kind = vec![2, 2, 1, 0, 2];
    let mut memory = Memory::of_sizes([3; 4]);
    let got = build(&raw, &mut memory);
    assert_eq!((got.refusal, got.place, got.objects), (0, 0, 3));
    assert_eq!(memory.kind.lent(), [1, 0, 2]);
    assert_eq!(memory.start.lent(), [40.0, 100.0, 80.0]);
    assert_eq!(memory.delta.lent(), [20.0, 60.0, -20.0]);
    assert_eq!(memory.ratio.lent(), [1.0, 3.0, 1.0 / 3.0]);
}

/// Rounded once the quotient would be 108.4, and the starts lie 108.39999999999999 apart.
#[test]
fn a_difference_is_rounded_before_it_is_divided() {
    let raw = Raw::of_times(&[0.0, 0.0, 33.3, 195.9], 1.5);
    let mut memory = Memory::of_sizes([2; 4]);
    assert_eq!(build(&raw, &mut memory).refusal, 0);
    assert_eq!(memory.delta.lent()[1], 108.40000000000002);
    let start = memory.start.lent();
    assert_eq!(start[1] - start[0], 108.39999999999999);
}

#[test]
fn sizes_from_none_to_the_largest() {
    for m in [0, 1, 2, 3, 4, LARGEST_RAW_CHART - 1, LARGEST_RAW_CHART] {
        let raw = good(m);
        assert_eq!(plain_build::refusal(&raw), None, "{m}");
        builds(&raw);
    }
    // 65,536 and two more are 0 and 2 to a u16
    for m in [LARGEST_RAW_CHART + 1, 32_768, 65_536, 65_538] {
        refuses(&good(m), 1, 0);
    }
}

/// How often the samples had something to say.
#[derive(Debug, Default)]
struct Counts {
    accepted: usize,
    refusals: BTreeSet<u64>,
    falling: usize,
    not_finite: usize,
    ties: usize,
    huge: usize,
}

impl Counts {
    fn count(&mut self, chart: &Chart) {
        self.accepted += 1;
        self.falling += chart.delta.iter().filter(|&&x| x < 0.0).count();
        for q in quotients(&chart.delta) {
            self.not_finite += usize::from(!q.is_finite());
            self.ties += usize::from([1.125, 1.375, 1.75, 2.5].contains(&q));
            let size = q.abs();
            self.huge += usize::from(2f64.powi(51) <= size && size <= 2f64.powi(60));
        }
    }
}

#[test]
fn samples_are_built_as_the_plain_version_builds_them() {
    let mut random = Xorshift::new(0xB111D);
    let mut counts = Counts::default();
    for _ in 0..4_000 {
        let m = random.below(120);
        let raw = raw_chart(&mut random, m);
        match plain_build::refusal(&raw) {
            Some((refusal, place)) => {
                counts.refusals.insert(refusal);
                refuses(&raw, refusal, place);
            }
            None => {
                counts.count(&plain_build::chart(&raw));
                builds(&raw);
            }
        }
    }
    let enough = counts.accepted > 3_000
        && counts.refusals == BTreeSet::from([4, 5, 6, 10])
        && counts.falling > 10_000
        && counts.not_finite > 1_000
        && counts.ties > 1_000
        && counts.huge > 1_000;
    assert!(enough, "{counts:?}");
}

/// Encode and turns accept; the refusals of colour, stretch, rhythm and record, each on the whole chart or its first group.
fn refusals_of_others(chart: &Chart) -> [u64; 4] {
    let n = chart.size();
    let mut values = colour::Memory::of_sizes([n, 8 * n, n]);
    let mut groups = exact(n);
    check::accepted(chart);
    turns::accepted(chart);
    [
        colour(chart, &mut values).refusal,
        stretch(chart, 0, n, &mut values).refusal,
        rhythm(chart, &mut groups).refusal,
        record(chart, 0, 50.0, &mut groups).refusal,
    ]
}

#[test]
fn every_other_call_accepts_a_built_chart() {
    let mut random = Xorshift::new(0xACCE97);
    let mut built = 0;
    for round in 0..600 {
        let m = [random.below(90), LARGEST_RAW_CHART][usize::from(round == 0)];
        let raw = raw_chart(&mut random, m);
        let n = raw.built_size();
        let mut memory = Memory::of_sizes([n; 4]);
        if build(&raw, &mut memory).refusal != 0 {
            continue;
        }
        built += 1;
        let chart = Chart {
            kind: memory.kind.lent().to_vec(),
            start: memory.start.lent().to_vec(),
            delta: memory.delta.lent().to_vec(),
            ratio: memory.ratio.lent().to_vec(),
            ..Chart::default()
        };
        // an empty chart has no stretch, and one without notes no mean and no group
        let noted = chart.kind.iter().any(|&kind| kind < 2);
        let (stretch, record) = match (n, noted) {
            (0, _) => (9, 9),
            (_, false) => (11, 9),
            (_, true) => (0, 0),
        };
        assert_eq!(
            refusals_of_others(&chart),
            [0, stretch, 0, record],
            "{chart}"
        );
    }
    assert!(built > 500, "{built} charts were built");
}
