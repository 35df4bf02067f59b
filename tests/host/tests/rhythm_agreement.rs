//! Two charts with a common tail have the same rhythm groups from the rhythm landmarks of the scope on: demand 3 through the call
//! rhythm, under one margin.

use host_tests::check_rhythm::exact;
use host_tests::faults::TINY;
use host_tests::pairs::{random_pair, Pair};
use host_tests::plain_rhythm;
use host_tests::rhythm::rhythm;
use host_tests::samples::Xorshift;

use dresserduck::Settings;

/// Each margin, and how many pairs are asked under it.
const MARGINS: [(f64, usize); 6] = [
    (Settings::DEFAULT.margin, 3_000),
    (0.0, 700),
    (-0.0, 700),
    (TINY, 700),
    (8.5, 700),
    (50.0, 700),
];

/// The notes of the tail, by their distance from its first object.
fn tail_notes(pair: &Pair) -> Vec<usize> {
    let chart = &pair.charts[0];
    let before = chart.size() - pair.tail;
    (0..pair.tail)
        .filter(|&i| chart.kind[before + i] < 2)
        .collect()
}

/// The notes whose delta is within the margin of that of the note before, and not of that of the note after.
fn landmarks(pair: &Pair, notes: &[usize]) -> Vec<usize> {
    let chart = &pair.charts[0];
    let before = chart.size() - pair.tail;
    let near = |a: usize, b: usize| {
        let [a, b] = [a, b].map(|note| chart.delta[before + note]);
        plain_rhythm::near(a, b, chart.settings.margin)
    };
    let found = notes
        .windows(3)
        .filter(|three| near(three[0], three[1]) && !near(three[1], three[2]));
    found.map(|three| three[1]).collect()
}

/// The groups whose first note stands at or after `from` in the tail, each by its objects' distances from the tail's first.
fn groups_from(pair: &Pair, chart: usize, from: usize) -> Vec<Vec<usize>> {
    let chart = &pair.charts[chart];
    let (n, before) = (chart.size(), chart.size() - pair.tail);
    let mut memory = exact(n);
    let got = rhythm(chart, &mut memory);
    assert_eq!((got.refusal, got.place), (0, 0), "{chart}");
    let members = |number: u64| {
        let of = |&i: &usize| u64::from(memory.numbers[0].lent()[i]) == number;
        (0..n).filter(of).collect::<Vec<usize>>()
    };
    let late = (0..got.groups)
        .map(members)
        .filter(|objects| objects[0] >= before + from);
    late.map(|objects| objects.into_iter().map(|i| i - before).collect())
        .collect()
}

/// How often the pairs had something to say.
#[derive(Debug, Default)]
struct Counts {
    landmarks: usize,
    // pairs whose groups differ before
    differ: usize,
    non_hits: usize,
}

fn check_pair(pair: &Pair, counts: &mut Counts) {
    let notes = tail_notes(pair);
    let marks = landmarks(pair, &notes);
    counts.non_hits += usize::from(notes.len() < pair.tail);
    counts.differ += usize::from(groups_from(pair, 0, 0) != groups_from(pair, 1, 0));
    for &from in marks.iter().take(3) {
        let [a, b] = [0, 1].map(|chart| groups_from(pair, chart, from));
        assert_eq!(a, b, "from {from} in {pair}");
        counts.landmarks += 1;
    }
}

#[test]
fn charts_agree_from_rhythm_landmarks_on() {
    let mut random = Xorshift::new(0x4217);
    for (margin, pairs) in MARGINS {
        let settings = Settings::DEFAULT.with_margin(margin);
        let mut counts = Counts::default();
        for _ in 0..pairs {
            let pair = random_pair(&mut random, settings);
            check_pair(&pair, &mut counts);
        }
        println!("{margin:e}: {counts:?}");
        let enough =
            counts.landmarks > pairs && 10 * counts.differ > pairs && 3 * counts.non_hits > pairs;
        assert!(enough, "under margin {margin:e}: {counts:?}");
    }
}
