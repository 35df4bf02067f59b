//! Sets of the four settings, and charts on which each number of a set decides something.

use crate::chart::Chart;
use crate::eight::Asked;
use crate::faults::{BOUND, TINY};
use crate::samples::{biased_chart, ranges_above, rounds, Xorshift};
use dresserduck::Settings;

const FIVE: f64 = Settings::DEFAULT.margin;

/// What is drawn: the bounds, the default and what lies beside it, and some more.
pub const MARGINS: [f64; 8] = [
    0.0,
    -0.0,
    TINY,
    FIVE.next_down(),
    FIVE,
    FIVE.next_up(),
    8.5,
    50.0,
];
pub const LIMITS: [u64; 7] = [2, 3, 15, 16, 17, 63, 64];
pub const THRESHOLDS: [f64; 6] = [0.0, -0.0, 0.05, 0.1, 0.5, 1.0];
pub const TOLERANCES: [f64; 5] = [0.0, -0.0, 0.01, 0.2, 1.0];

/// One of each.
pub fn drawn_settings(random: &mut Xorshift) -> Settings {
    Settings {
        margin: random.pick(&MARGINS),
        search_limit: random.pick(&LIMITS),
        threshold: random.pick(&THRESHOLDS),
        tolerance: random.pick(&TOLERANCES),
    }
}

/// Steps of the margin, a bit more, less, and of what is near under some other margin.
fn steps(margin: f64) -> [f64; 12] {
    let beyond = margin.next_up();
    let half = margin / 2.0;
    [
        0.0, -0.0, margin, -margin, beyond, -beyond, half, -half, 5.0, -5.0, 6.0, 8.5,
    ]
}

/// Hit patterns that come again about as far back as is looked, or a chart of `biased_chart`.
fn kinds(random: &mut Xorshift, search_limit: u64) -> Vec<u8> {
    let limit = search_limit as usize;
    let n = random.below(90);
    match random.below(12) {
        0 => rounds(random.between(limit.saturating_sub(2).max(3), limit + 1)),
        1 => rounds(random.between(3, 40)),
        _ => biased_chart(random, n).kind,
    }
}

/// Runs of one delta, whose quotient with that of the run before is about 1 and the threshold, or which is about as far from it as the
/// margin; the first of a run comes late.
fn runs(random: &mut Xorshift, settings: Settings, n: usize) -> Vec<f64> {
    let Settings {
        margin, threshold, ..
    } = settings;
    let (mut deltas, mut own) = (Vec::new(), 100.0_f64);
    while deltas.len() < n {
        let factors = [1.0, 1.0 + threshold, 1.0 - threshold, 1.07, 0.93, 1.3, 0.6];
        own = match random.below(3) {
            0 => own + random.pick(&steps(margin)),
            1 => own * random.pick(&factors),
            _ => random.pick(&[100.0, 100.0, 110.0, 90.0, 150.0]),
        };
        own = own.clamp(20.0, 2_000.0);
        deltas.push(own + random.pick(&[200.0, 300.0]));
        deltas.extend(vec![own; random.between(0, 5)]);
    }
    deltas.truncate(n);
    deltas
}

/// Each the one before and a step, from 100, from far away or from either zero; or runs.
fn deltas(random: &mut Xorshift, settings: Settings, n: usize) -> Vec<f64> {
    let style = random.below(4);
    if style > 1 {
        return runs(random, settings, n);
    }
    let steps = steps(settings.margin);
    let origins = [[100.0, 100.0, 16_777_100.0], [0.0, 0.0, -0.0]][style];
    let mut last = origins[0];
    let mut next = |_| {
        last = match random.below(8) {
            0 => random.pick(&origins),
            _ => last + random.pick(&steps),
        };
        last.clamp(-BOUND, BOUND)
    };
    (0..n).map(&mut next).collect()
}

/// Starts that rise by the deltas, or by steps; from zero again where that is too far.
fn starts(random: &mut Xorshift, margin: f64, deltas: &[f64]) -> Vec<f64> {
    let (style, steps) = (random.below(3), steps(margin));
    let mut now = 0.0;
    let mut next = |delta: &f64| {
        now += match style {
            0 => random.pick(&steps),
            _ => *delta,
        };
        if now.abs() > BOUND {
            now = 0.0;
        }
        now
    };
    deltas.iter().map(&mut next).collect()
}

/// Each the one two before, or that one by about 1 and the tolerance.
fn ratios(random: &mut Xorshift, tolerance: f64, n: usize) -> Vec<f64> {
    let least = 2f64.powi(-24);
    let [more, less] = [1.0 + tolerance, 1.0 - tolerance];
    let factors = [
        1.0,
        more,
        more.next_up(),
        less,
        less.next_down(),
        1.005,
        0.99,
        1.1,
    ];
    let mut ratios: Vec<f64> = Vec::new();
    for i in 0..n {
        let ratio = match (i, random.below(6)) {
            (0 | 1, _) | (_, 0) => random.pick(&[1.0, 0.5, 2.0]),
            _ => ratios[i - 2] * random.pick(&factors),
        };
        ratios.push(ratio.clamp(least, 1.0 / least));
    }
    ratios
}

/// A chart to be asked under this set, on which its numbers decide.
pub fn drawn_chart(random: &mut Xorshift, settings: Settings) -> Asked {
    let mut chart = Chart::of_kinds(kinds(random, settings.search_limit)).under(settings);
    let n = chart.size();
    chart.delta = deltas(random, settings, n);
    chart.start = starts(random, settings.margin, &chart.delta);
    chart.ratio = ratios(random, settings.tolerance, n);
    let a = random.below(n.max(1));
    let b = random.between(a, n);
    Asked {
        chart: ranges_above(random, &chart),
        bounds: (a, b),
        window: random.pick(&[1.0, 35.5, 80.0, 1000.0]),
    }
}
