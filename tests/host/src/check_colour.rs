//! Calls of colour and stretch with known memory, and a look at everything that they may have written.

use std::sync::LazyLock;

use crate::chart::Chart;
use crate::colour::{colour, stretch, Coloured, Memory};
use crate::{plain_colour, plain_tenths};

/// The table T by the definition's own list of bit patterns.
static TABLE: LazyLock<Vec<f64>> = LazyLock::new(|| {
    let spec = include_str!("../../../crates/numeric/specs/Logistic.antt");
    let pattern = |word: &str| u64::from_str_radix(word.strip_prefix("0x")?, 16).ok();
    let words = spec.split_whitespace().filter_map(pattern);
    let values: Vec<f64> = words.map(f64::from_bits).collect();
    assert_eq!(values.len(), 264, "the definition's list");
    values
});

/// As much memory as n objects need.
pub fn exact(n: usize) -> Memory {
    Memory::of_sizes([n, 8 * n, n])
}

/// Some more.
pub fn roomy(n: usize) -> Memory {
    Memory::of_sizes([n + 3, 8 * n + 5, n + 2])
}

pub const DONE: Coloured = Coloured {
    refusal: 0,
    place: 0,
};

/// The chart is accepted, with exactly enough memory and with some to spare, and has the colour values of the plain version.
#[track_caller]
pub fn check_values(chart: &Chart) -> Vec<f64> {
    let table = |n: usize| TABLE.get(n).copied().unwrap_or(0.0);
    let values = plain_colour::values(chart, &table);
    let n = values.len();
    for lent in [exact(n), roomy(n)] {
        let mut memory = lent.clone();
        assert_eq!(colour(chart, &mut memory), DONE, "{chart}");
        assert_eq!(memory.bits(), lent.filled(&values).bits(), "{chart}");
    }
    values
}

/// Checks the stretch from a to b, whose colour values are known, and gives its mean, if it has one.
#[track_caller]
pub fn check_stretch(chart: &Chart, values: &[f64], a: usize, b: usize) -> Option<f64> {
    let mean = plain_colour::mean(&chart.kind[a..b], &values[a..b]);
    let lent = roomy(values.len());
    let Some(mean) = mean else {
        refused(chart, Some((a, b)), lent, 11, 0);
        return None;
    };
    let mut memory = lent.clone();
    let got = stretch(chart, a, b, &mut memory);
    assert_eq!((got.refusal, got.place), (0, 0), "{a}..{b} of {chart}");
    assert_eq!(got.mean.to_bits(), mean.to_bits(), "{a}..{b} of {chart}");
    let tenths = plain_tenths::tenths(mean);
    assert_eq!(got.tenths, tenths, "{a}..{b} of {chart}");
    assert_eq!(memory.bits(), lent.filled(values).bits(), "{chart}");
    Some(mean)
}

/// colour, or stretch with these bounds, is refused, and all memory is as it was lent.
#[track_caller]
pub fn refused(
    chart: &Chart,
    bounds: Option<(usize, usize)>,
    memory: Memory,
    refusal: u64,
    place: u64,
) {
    let mut after = memory.clone();
    let got = match bounds {
        None => {
            let got = colour(chart, &mut after);
            (got.refusal, got.place)
        }
        Some((a, b)) => {
            let got = stretch(chart, a, b, &mut after);
            assert_eq!(
                (got.mean.to_bits(), got.tenths),
                (0, 0),
                "{a}..{b} of {chart}"
            );
            (got.refusal, got.place)
        }
    };
    assert_eq!(got, (refusal, place), "{bounds:?} of {chart}");
    assert_eq!(after.bits(), memory.bits(), "{bounds:?} of {chart}");
}
