//! What build means, word by word. It knows nothing of the library.

use crate::build::Raw;
use crate::chart::Chart;

/// In the order in which they are tried.
pub const COMMON_RATIOS: [f64; 9] = [
    1.0,
    2.0,
    1.0 / 2.0,
    3.0,
    1.0 / 3.0,
    3.0 / 2.0,
    2.0 / 3.0,
    5.0 / 4.0,
    4.0 / 5.0,
];

/// Keeps the best so far, and takes a ratio that lies nearer to the quotient.
fn nearest(quotient: f64) -> f64 {
    let mut best = COMMON_RATIOS[0];
    for ratio in COMMON_RATIOS {
        if (ratio - quotient).abs() < (best - quotient).abs() {
            best = ratio;
        }
    }
    best
}

/// Each delta over the one before.
pub fn quotients(deltas: &[f64]) -> Vec<f64> {
    deltas.windows(2).map(|pair| pair[1] / pair[0]).collect()
}

/// The chart that is built of as many times as kinds, good or bad.
pub fn chart(raw: &Raw) -> Chart {
    let later = raw.time.iter().skip(2);
    let steps = raw.time.windows(2).skip(1);
    let delta: Vec<f64> = steps.map(|pair| (pair[1] - pair[0]) / raw.rate).collect();
    let first = delta.iter().take(1).map(|_| 1.0);
    let others = quotients(&delta).into_iter().map(nearest);
    Chart {
        kind: raw.kind.iter().skip(2).copied().collect(),
        start: later.map(|time| time / raw.rate).collect(),
        ratio: first.chain(others).collect(),
        delta,
        ..Chart::default()
    }
}

fn is_time(x: f64) -> bool {
    x.abs() <= 16_777_216.0
}

/// Refusal and place where the slices have the lengths that they should have; none for what is accepted.
pub fn refusal(raw: &Raw) -> Option<(u64, usize)> {
    if !(0.25..=4.0).contains(&raw.rate) {
        return Some((10, 0));
    }
    let chart = chart(raw);
    let number = |i: usize| {
        let faults = [
            (4, chart.kind[i] > 2),
            (5, !is_time(chart.start[i])),
            (6, !is_time(chart.delta[i])),
        ];
        let first = faults.into_iter().find(|(_, applies)| *applies);
        first.map(|(number, _)| (number, i))
    };
    (0..chart.size()).find_map(number)
}
