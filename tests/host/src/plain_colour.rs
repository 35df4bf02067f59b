//! The scope's words for colour and stretch. It knows nothing of the library.

use crate::chart::Chart;
use crate::plain;

fn penalty(idx: usize, ratio: &[f64], tolerance: f64) -> f64 {
    if idx < 2 {
        return 1.0;
    }
    let (c, p) = (ratio[idx], ratio[idx - 2]);
    if (1.0 - c / p).abs() <= tolerance {
        return 1.0 - c / 2.0 * 0.8;
    }
    if idx < 4 {
        return 1.0;
    }
    1.0 - p / 2.0 * 0.8
}

/// The colour values, with `table` for T.
pub fn values(chart: &Chart, table: &dyn Fn(usize) -> f64) -> Vec<f64> {
    let answers = plain::encode(&chart.kind, chart.settings.search_limit);
    let [streak, streak_place, pattern, pattern_place, hit] = &answers.numbers;
    let first = |numbers: &[u16], i: usize| i == 0 || numbers[i] != numbers[i - 1];
    let value = |i: usize| {
        let whole = 2.0 * (1.0 - table(usize::from(answers.interval[i])));
        let alt = table(usize::from(pattern_place[i])) * whole;
        let mono = table(usize::from(streak_place[i])) * alt * 0.5;
        let mut sum = 0.0;
        for (is_first, part) in [
            (first(streak, i), mono),
            (first(pattern, i), alt),
            (first(hit, i), whole),
        ] {
            if is_first {
                sum += part;
            }
        }
        sum * penalty(i, &chart.ratio, chart.settings.tolerance)
    };
    (0..chart.kind.len()).map(value).collect()
}

/// The mean of the notes' values, summed from left to right; none where there is no note.
pub fn mean(kind: &[u8], values: &[f64]) -> Option<f64> {
    let (mut sum, mut notes) = (0.0, 0);
    for (&kind, value) in kind.iter().zip(values) {
        if kind < 2 {
            sum += value;
            notes += 1;
        }
    }
    (notes > 0).then(|| sum / f64::from(notes))
}
