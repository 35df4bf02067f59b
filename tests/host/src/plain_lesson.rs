//! The words for a lesson, pair by pair. It knows nothing of the library.

use std::ops::Range;

use crate::plain_colour::mean;
use crate::plain_tenths::tenths;

const MOST_PAIRS: usize = 32;

/// A stretch as it is marked: its first object, and how many it has.
pub type Pair = (u64, u64);

/// What is told of each pair.
#[derive(Clone, Debug, Default, PartialEq)]
pub struct Told {
    pub mean: Vec<f64>,
    pub tenths: Vec<i64>,
}

/// The number of a refusal, and its place.
pub type Refused = (u64, u64);

/// Its objects, if it has some and all are among the n; the sum is an exact one.
pub fn objects((offset, length): Pair, n: usize) -> Option<Range<usize>> {
    let end = u128::from(offset) + u128::from(length);
    let inside = length > 0 && end <= n as u128;
    inside.then_some(offset as usize..end as usize)
}

/// What is told of the lesson on a chart of these kinds, whose colour values are known, or the first refusal behind
/// those of the chart.
pub fn lesson(kinds: &[u8], values: &[f64], pairs: &[Pair]) -> Result<Told, Refused> {
    let rise = pairs.windows(2).all(|two| two[0].0 < two[1].0);
    if pairs.len() > MOST_PAIRS || !rise {
        return Err((17, 0));
    }
    let mut told = Told::default();
    for (number, &pair) in (0..).zip(pairs) {
        let objects = objects(pair, kinds.len()).ok_or((9, number))?;
        let mean = mean(&kinds[objects.clone()], &values[objects]).ok_or((11, number))?;
        told.mean.push(mean);
        told.tenths.push(tenths(mean));
    }
    Ok(told)
}
