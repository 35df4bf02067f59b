//! The plain encoder compared with the library, on all short charts and on many long ones.

use host_tests::chart::Chart;
use host_tests::check::{accepted, accepted_with};
use host_tests::lent::exact_sizes;
use host_tests::plain::{self, Answers};
use host_tests::samples::{biased_chart, repeated, scatter, strings, Xorshift};
use host_tests::LARGEST_CHART;

#[test]
fn every_chart_up_to_seven_objects() {
    let mut tried = 0;
    for kinds in (0..=7).flat_map(strings) {
        accepted(&Chart::of_kinds(kinds));
        tried += 1;
    }
    assert_eq!(tried, 3_280, "1 + 3 + .. + 3^7 charts");
}

/// How often each interval was given, object by object.
fn count_intervals(counts: &mut [usize; 256], answers: &Answers) {
    for &interval in &answers.interval {
        counts[usize::from(interval)] += 1;
    }
}

/// What the random charts must hold to be worth trying: coupled runs, long streaks, and notes that go on a NonHit's streak.
#[derive(Default, Debug)]
struct Seen {
    coupled: usize,
    long: usize,
    carried: usize,
}

impl Seen {
    fn count(&mut self, chart: &Chart, answers: &Answers) {
        let [streak, _, _, pattern_place, _] = &answers.numbers;
        self.coupled += usize::from(pattern_place.iter().any(|&place| place >= 3));
        let long = |i: usize| streak.get(i + 50) == Some(&streak[i]);
        self.long += usize::from((0..chart.size()).any(long));
        let carried = |i: usize| chart.kind[i - 1] == 2 && streak[i] == streak[i - 1];
        self.carried += usize::from((1..chart.size()).any(carried));
    }
}

#[test]
fn random_charts() {
    let mut random = Xorshift::new(41);
    let mut counts = [0; 256];
    let mut seen = Seen::default();
    for _ in 0..20_000 {
        let n = random.between(1, 400);
        let mut chart = biased_chart(&mut random, n);
        scatter(&mut random, &mut chart);
        let sizes = exact_sizes(n).map(|count| count + random.below(4));
        let answers = plain::encode(&chart.kind, chart.settings.search_limit);
        accepted_with(&chart, sizes, &answers);
        count_intervals(&mut counts, &answers);
        seen.count(&chart, &answers);
    }
    for interval in (1..=15).chain([17]) {
        assert!(counts[interval] > 500, "interval {interval} in {counts:?}");
    }
    let given: usize = (1..=15).chain([17]).map(|interval| counts[interval]).sum();
    assert_eq!(
        given,
        counts.iter().sum(),
        "0, 16 or above 17 in {counts:?}"
    );
    let often = [seen.coupled, seen.long, seen.carried];
    assert!(often.iter().all(|&charts| charts > 5_000), "{seen:?}");
}

#[test]
fn random_largest_charts() {
    let mut random = Xorshift::new(42);
    for _ in 0..60 {
        let n = random.pick(&[LARGEST_CHART, LARGEST_CHART - 1]);
        let mut chart = biased_chart(&mut random, n);
        scatter(&mut random, &mut chart);
        accepted(&chart);
    }
}

#[test]
fn repeated_largest_charts() {
    let texts = [
        "d", "k", "n", "dn", "nd", "dkk", "dkkddk", "dkknn", "dnk", "ddkdkk", "dkdnkddd",
    ];
    for text in texts {
        accepted(&repeated(text, LARGEST_CHART));
    }
}

/// A streak for each object, so that numbers and places are as large as they get.
#[test]
fn largest_numbers() {
    let answers = accepted(&repeated("dk", LARGEST_CHART));
    let last = answers.numbers.map(|column| column[LARGEST_CHART - 1]);
    assert_eq!(last, [16_383, 16_383, 0, 0, 0], "dk over and over");
}
