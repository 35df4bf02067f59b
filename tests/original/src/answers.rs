//! One chart, all calls: every bit of every answer and of every lent place.

use std::ops::AddAssign;

use host_tests::chart::Chart;
use host_tests::lent::{exact_four, exact_sizes, Lent, TwoNumbers};
use host_tests::samples::{known_about, Xorshift};
use host_tests::{colour, encode, plain_colour, plain_tenths, rhythm, taps, turns, Encoded};

use crate::lessons::compare_lesson;
use crate::original::Original;

#[track_caller]
fn compare_encode(chart: &Chart, original: &Original, spare: usize) {
    let answers = original.encoding();
    let sizes = exact_sizes(chart.size()).map(|size| size + spare);
    let mut lent = Lent::new(sizes, chart.size());
    let mut want = lent.clone();
    want.fill(&answers);
    let done = Encoded {
        refusal: 0,
        place: 0,
        hit_patterns: answers.hit_patterns,
    };
    assert_eq!(encode(chart, &mut lent), done, "encode of {chart}");
    let faults = lent.differences(&want);
    assert!(faults.is_empty(), "{faults:?} after encode of {chart}");
}

/// With so many places more than needed in each slice.
fn lent_with(chart: &Chart, spare: usize) -> TwoNumbers {
    let n = chart.size();
    TwoNumbers::of_sizes(exact_four(n).map(|size| size + spare), n)
}

#[track_caller]
fn compare_turns(chart: &Chart, original: &Original, spare: usize) {
    let lent = lent_with(chart, spare);
    let mut memory = lent.clone();
    let got = turns::turns(chart, &mut memory);
    assert_eq!((got.refusal, got.place), (0, 0), "turns of {chart}");
    let filled = lent.filled(&columns(&original.chart.turns()));
    assert_eq!(memory.bits(), filled.bits(), "turns of {chart}");
}

#[track_caller]
fn compare_colour(chart: &Chart, original: &Original, spare: usize) -> Vec<f64> {
    let (n, values) = (chart.size(), original.chart.colour());
    let lent = colour::Memory::of_sizes([n + spare, 8 * n + spare, n + spare]);
    let mut memory = lent.clone();
    let got = colour::colour(chart, &mut memory);
    assert_eq!((got.refusal, got.place), (0, 0), "colour of {chart}");
    let want = lent.filled(&values);
    assert_eq!(memory.bits(), want.bits(), "colour of {chart}");
    values
}

/// The mean is that of the notes, by the original's values, and its tenths are the nearest: the original has neither. The result is
/// whether there is a note.
#[track_caller]
fn compare_stretch(chart: &Chart, values: &[f64], a: usize, b: usize) -> bool {
    let n = chart.size();
    let lent = colour::Memory::of_sizes([n, 8 * n, n]);
    let (want, left) = match plain_colour::mean(&chart.kind[a..b], &values[a..b]) {
        Some(mean) => {
            let tenths = plain_tenths::tenths(mean);
            ((0, 0, mean.to_bits(), tenths), lent.filled(values))
        }
        None => ((11, 0, 0, 0), lent.clone()),
    };
    let mut memory = lent;
    let got = colour::stretch(chart, a, b, &mut memory);
    let got = (got.refusal, got.place, got.mean.to_bits(), got.tenths);
    assert_eq!(got, want, "stretch {a}..{b} of {chart}");
    assert_eq!(memory.bits(), left.bits(), "stretch {a}..{b} of {chart}");
    got.0 == 0
}

/// The first number of every object, and the second.
fn columns(rows: &[[usize; 2]]) -> [Vec<u16>; 2] {
    [0, 1].map(|k| rows.iter().map(|row| row[k] as u16).collect())
}

#[track_caller]
fn compare_rhythm(chart: &Chart, original: &Original, spare: usize) {
    let lent = lent_with(chart, spare);
    let mut memory = lent.clone();
    let want = rhythm::Grouped {
        refusal: 0,
        place: 0,
        groups: original.rhythm.groups.len() as u64,
        pattern_groups: original.rhythm.patterns.len() as u64,
    };
    let got = rhythm::rhythm(chart, &mut memory);
    assert_eq!(got, want, "rhythm of {chart}");
    let filled = lent.filled(&columns(&original.rhythm.rows));
    assert_eq!(memory.bits(), filled.bits(), "rhythm of {chart}");
}

/// The call is told ranges about the deltas, and answers as the plain version does: where it gives groups, they are the original's.
/// The result is whether it does.
#[track_caller]
fn compare_taps(chart: &Chart, original: &Original, random: &mut Xorshift) -> bool {
    let known = known_about(random, chart);
    let Some(groups) = taps::accepted(&known).groups else {
        return false;
    };
    let [group, _] = columns(&original.rhythm.rows);
    assert_eq!(groups.of_object, group, "taps of {known}, {chart}");
    assert_eq!(
        groups.count,
        original.rhythm.groups.len() as u64,
        "taps of {known}, {chart}"
    );
    true
}

#[track_caller]
fn compare_record(chart: &Chart, original: &Original, group: usize, window: f64) {
    let n = chart.size();
    let lent = TwoNumbers::of_sizes([0, 0, 8 * n, n], n);
    let mut memory = lent.clone();
    let got = rhythm::record(chart, group, window, &mut memory);
    let want = original.record(group, window);
    assert_eq!(got, want, "record {group} at {window:?} of {chart}");
    let cleared = lent.cleared(n);
    assert_eq!(memory.bits(), cleared.bits(), "record {group} of {chart}");
}

/// What was asked.
#[derive(Default)]
pub struct Asked {
    /// how many objects all calls together were asked about
    pub objects: usize,
    /// how many stretches had no note
    pub noteless: usize,
    /// how many charts of ranges had their groups given
    pub grouped: usize,
    /// how many pairs all lessons together had
    pub pairs: usize,
    /// how many lessons had a pair without a note
    pub noteless_lessons: usize,
}

impl AddAssign for Asked {
    fn add_assign(&mut self, other: Asked) {
        self.objects += other.objects;
        self.noteless += other.noteless;
        self.grouped += other.grouped;
        self.pairs += other.pairs;
        self.noteless_lessons += other.noteless_lessons;
    }
}

/// A difference panics.
pub fn compare(chart: &Chart, original: &Original, random: &mut Xorshift) -> Asked {
    let (n, spare) = (chart.size(), random.below(8));
    compare_encode(chart, original, spare);
    compare_turns(chart, original, spare);
    let values = compare_colour(chart, original, spare);
    compare_rhythm(chart, original, spare);
    let grouped = usize::from(compare_taps(chart, original, random));
    let lesson = compare_lesson(chart, &values, random);
    let (mut calls, mut noteless) = (5 + lesson.calls, 0);
    if n > 0 {
        let a = random.below(n);
        let b = a + 1 + random.below(n - a);
        let noted = compare_stretch(chart, &values, a, b);
        noteless += usize::from(!noted);
        calls += 1;
    }
    let groups = original.rhythm.groups.len();
    for round in 0..groups.min(6) {
        let group = match round {
            0 => groups - 1,
            _ => random.below(groups),
        };
        let window = random.pick(&[1.0, 19.5, 35.0, 80.0, 333.25, 1000.0]);
        compare_record(chart, original, group, window);
        calls += 1;
    }
    Asked {
        objects: calls * n,
        noteless,
        grouped,
        pairs: lesson.pairs,
        noteless_lessons: usize::from(lesson.noteless),
    }
}
