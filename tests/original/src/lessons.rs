//! Lessons of a chart: each answer and lent place by the original's values, and each pair beside what stretch answers of it alone.

use std::collections::BTreeSet;

use host_tests::chart::Chart;
use host_tests::colour::{self, stretch};
use host_tests::lesson::{answered_by, Marked};
use host_tests::plain_lesson::{Pair, Refused, Told};
use host_tests::samples::Xorshift;

/// A few pairs, or up to as many as there may be, whose stretches of n objects overlap or not.
fn drawn(random: &mut Xorshift, n: usize) -> Vec<Pair> {
    let most = random.pick(&[0, 1, 2, 3, 5, 8, 32]).min(n);
    let offsets: BTreeSet<usize> = (0..most).map(|_| random.below(n)).collect();
    let longest = random.pick(&[1, 4, 40, n]);
    let pair = |offset| {
        (
            offset as u64,
            random.between(1, longest.min(n - offset)) as u64,
        )
    };
    offsets.into_iter().map(pair).collect()
}

/// What one pair is told: the bits of its mean, and the tenths.
type PairTold = (u64, i64);

fn pair_told(mean: f64, tenths: i64) -> PairTold {
    (mean.to_bits(), tenths)
}

fn by_pair(told: &Told) -> Vec<PairTold> {
    let both = told.mean.iter().zip(&told.tenths);
    both.map(|(&mean, &tenths)| pair_told(mean, tenths))
        .collect()
}

/// By stretch, which is asked about one pair after another, up to the first that it refuses.
fn one_by_one(chart: &Chart, pairs: &[Pair]) -> Result<Vec<PairTold>, Refused> {
    let n = chart.size();
    let mut memory = colour::Memory::of_sizes([n, 8 * n, n]);
    let told = |(number, &(offset, length)): (u64, &Pair)| {
        let (a, b) = (offset as usize, (offset + length) as usize);
        let got = stretch(chart, a, b, &mut memory);
        match got.refusal {
            0 => Ok(pair_told(got.mean, got.tenths)),
            refusal => Err((refusal, number)),
        }
    };
    (0..).zip(pairs).map(told).collect()
}

/// What was asked of one lesson.
pub struct AskedLesson {
    pub pairs: usize,
    /// how many calls there were
    pub calls: usize,
    /// whether a pair has no note
    pub noteless: bool,
}

/// A difference panics. The original has neither means nor tenths: they are worked out of its values.
#[track_caller]
pub fn compare_lesson(chart: &Chart, values: &[f64], random: &mut Xorshift) -> AskedLesson {
    let pairs = drawn(random, chart.size());
    let told = answered_by(&Marked::new(chart, &pairs), values).map(|told| by_pair(&told));
    assert_eq!(told, one_by_one(chart, &pairs), "{pairs:?} of {chart}");
    let alone = match &told {
        Ok(told) => told.len(),
        Err((_, last)) => *last as usize + 1,
    };
    AskedLesson {
        pairs: pairs.len(),
        // lesson in two sizes of memory
        calls: 2 + alone,
        noteless: told.is_err(),
    }
}
