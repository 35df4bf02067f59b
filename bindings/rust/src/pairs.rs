//! A lesson's stretches as the library takes them.

use std::ops::Range;

use crate::result::{Stretch, MOST_PAIRS};

/// One more than a lesson may have: more than that are refused as this many are, before any is looked at.
const PLACES: usize = MOST_PAIRS + 1;

/// What is asked of each stretch, and room for what is answered.
pub(crate) struct Pairs {
    pub(crate) count: usize,
    pub(crate) offset: [u64; PLACES],
    pub(crate) length: [u64; PLACES],
    pub(crate) mean: [f64; PLACES],
    pub(crate) tenths: [i64; PLACES],
}

impl Pairs {
    /// A range that runs backwards is as empty as one that ends where it starts.
    pub(crate) fn of(stretches: &[Range<usize>]) -> Self {
        let mut pairs = Pairs {
            count: stretches.len().min(PLACES),
            offset: [0; PLACES],
            length: [0; PLACES],
            mean: [0.0; PLACES],
            tenths: [0; PLACES],
        };
        for (pair, stretch) in stretches.iter().take(PLACES).enumerate() {
            pairs.offset[pair] = stretch.start as u64;
            pairs.length[pair] = stretch.end.saturating_sub(stretch.start) as u64;
        }
        pairs
    }

    /// What was answered of each.
    pub(crate) fn told(&self) -> impl Iterator<Item = Stretch> + '_ {
        let both = self.mean.iter().zip(&self.tenths).take(self.count);
        both.map(|(&mean, &tenths)| Stretch { mean, tenths })
    }
}
