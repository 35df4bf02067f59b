//! The scope's words for rhythm and record, with lists of lists. It knows nothing of the library.

use crate::chart::Chart;
use crate::plain_normalizer::normal;
use crate::rhythm::Recorded;

/// What a NonHit has for a group.
pub const NO_GROUP: u16 = 65_535;

pub fn near(a: f64, b: f64, margin: f64) -> bool {
    (a - b).abs() <= margin
}

/// Where each group ends, one place after its last value.
fn group_ends(values: &[f64], margin: f64) -> Vec<usize> {
    let last = values.len().saturating_sub(1);
    let mut ends = Vec::new();
    let mut at = 0;
    while at < values.len() {
        let mut i = at + 1;
        while i < last && near(values[i], values[i + 1], margin) {
            i += 1;
        }
        let taken = if i < last {
            values[i + 1] > values[i] + margin
        } else {
            i == last && values.len() > 2 && near(values[i], values[i - 1], margin)
        };
        at = i + usize::from(taken);
        ends.push(at);
    }
    ends
}

fn parted<T: Copy>(ends: &[usize], items: &[T]) -> Vec<Vec<T>> {
    let starts = std::iter::once(&0).chain(ends);
    starts
        .zip(ends)
        .map(|(&from, &to)| items[from..to].to_vec())
        .collect()
}

fn own_intervals(groups: &[Vec<f64>], margin: f64) -> Vec<Option<f64>> {
    let mut owns: Vec<Option<f64>> = Vec::new();
    for deltas in groups {
        let previous = owns.last().copied().flatten();
        let second = deltas.get(1);
        let whole = second.map(|&x| normal(deltas, margin, x).round_ties_even());
        let snapped = |own: f64| previous.filter(|&p| near(own, p, margin)).unwrap_or(own);
        owns.push(whole.map(snapped));
    }
    owns
}

fn intervals(starts: &[f64], margin: f64) -> Vec<f64> {
    let step = |pair: &[f64]| match near(pair[1], pair[0], margin) {
        true => 0.0,
        false => pair[1] - pair[0],
    };
    let first = starts.first().map(|_| f64::INFINITY);
    first
        .into_iter()
        .chain(starts.windows(2).map(step))
        .collect()
}

fn walk(owns: &[Option<f64>], group: usize, count: usize, threshold: f64) -> f64 {
    let back = owns[..=group].iter().rev().take(count);
    let found: Vec<f64> = back.copied().flatten().collect();
    if found.len() < count {
        return 1.0;
    }
    let pairs = (0..count).flat_map(|i| (i + 1..count).map(move |j| (i, j)));
    let similar = |(i, j): (usize, usize)| (1.0 - found[i] / found[j]).abs() <= threshold;
    if pairs.into_iter().any(similar) {
        0.8
    } else {
        1.0
    }
}

/// A NaN as the scope has it.
fn bits(x: f64) -> u64 {
    if x.is_nan() {
        0x7FF8_0000_0000_0000
    } else {
        x.to_bits()
    }
}

/// The groups and pattern groups of a chart.
pub struct Groups {
    /// the objects of each group
    pub objects: Vec<Vec<usize>>,
    owns: Vec<Option<f64>>,
    intervals: Vec<f64>,
    /// the intervals of each pattern group
    pub patterns: Vec<Vec<f64>>,
    /// the pattern group of each group
    pattern_of: Vec<usize>,
    starts: Vec<f64>,
    threshold: f64,
}

impl Groups {
    pub fn of(chart: &Chart) -> Self {
        let margin = chart.settings.margin;
        let notes = chart.notes();
        let deltas: Vec<f64> = notes.iter().map(|&i| chart.delta[i]).collect();
        let ends = group_ends(&deltas, margin);
        let objects = parted(&ends, &notes);
        let first_starts: Vec<f64> = objects.iter().map(|g| chart.start[g[0]]).collect();
        let intervals = intervals(&first_starts, margin);
        let patterns = parted(&group_ends(&intervals, margin), &intervals);
        let numbered = patterns.iter().enumerate();
        let pattern_of = numbered.flat_map(|(p, groups)| vec![p; groups.len()]);
        Groups {
            owns: own_intervals(&parted(&ends, &deltas), margin),
            pattern_of: pattern_of.collect(),
            objects,
            intervals,
            patterns,
            starts: chart.start.clone(),
            threshold: chart.settings.threshold,
        }
    }

    /// Each object's group and pattern group.
    pub fn numbers(&self) -> [Vec<u16>; 2] {
        let mut numbers = [(); 2].map(|()| vec![NO_GROUP; self.starts.len()]);
        for (g, objects) in self.objects.iter().enumerate() {
            for &i in objects {
                numbers[0][i] = g as u16;
                numbers[1][i] = self.pattern_of[g] as u16;
            }
        }
        numbers
    }

    fn pattern_ratio(&self, pattern: usize) -> f64 {
        let interval = |p: usize| *self.patterns[p].get(1).unwrap_or(&self.patterns[p][0]);
        match pattern {
            0 => 1.0,
            _ => interval(pattern) / interval(pattern - 1),
        }
    }

    fn penalty(&self, group: usize, window: f64) -> f64 {
        let objects = &self.objects[group];
        let walked = |count| walk(&self.owns, group, count, self.threshold);
        let long = walked(3);
        let short = match objects.len() {
            0..=5 => walked(4),
            _ => 1.0,
        };
        let duration = self.starts[objects[objects.len() - 1]] - self.starts[objects[0]];
        long.min(short) * (1.0 - duration * 2.0 / window).max(0.5)
    }

    pub fn record(&self, group: usize, window: f64) -> Recorded {
        let own = self.owns[group];
        let previous = group.checked_sub(1).and_then(|before| self.owns[before]);
        let ratio = own.zip(previous).map_or(1.0, |(own, before)| own / before);
        let pattern = self.pattern_of[group];
        Recorded {
            refusal: 0,
            place: 0,
            first_note: self.objects[group][0] as u64,
            note_count: self.objects[group].len() as u64,
            has_own: u64::from(own.is_some()),
            own_bits: own.map_or(0, bits),
            ratio_bits: bits(ratio),
            interval_bits: bits(self.intervals[group]),
            penalty_bits: bits(self.penalty(group, window)),
            pattern_group: pattern as u64,
            pattern_ratio_bits: bits(self.pattern_ratio(pattern)),
        }
    }
}
