//! All eight calls on one chart: what each answers, which is what its plain version does, or that each refuses.

use crate::chart::Chart;
use crate::lent::{exact_four, exact_sizes};
use crate::lesson::{self, some_pairs, Marked};
use crate::plain::Answers;
use crate::plain_rhythm::Groups;
use crate::plain_turns::Turns;
use crate::rhythm::Recorded;
use crate::taps::{self, TapChart};
use crate::{check, check_colour, check_rhythm, turns};

/// A chart, for taps with a range about each delta, and what stretch and record are asked.
pub struct Asked {
    pub chart: TapChart,
    pub bounds: (usize, usize),
    pub window: f64,
}

/// The calls, as their answers stand in `Told`.
pub const CALLS: [&str; 8] = [
    "encode", "turns", "colour", "stretch", "lesson", "rhythm", "taps", "record",
];

/// What the calls answered, floats by their bits.
#[derive(Debug, PartialEq)]
pub struct Told {
    pub encoded: Answers,
    turns: Turns,
    values: Vec<u64>,
    mean: Option<u64>,
    means: Vec<u64>,
    groups: [Vec<u16>; 2],
    pairs: Vec<u8>,
    sure_groups: Option<Vec<u16>>,
    records: Vec<Recorded>,
}

impl Told {
    /// Which calls answered something else.
    pub fn unlike(&self, other: &Told) -> [bool; 8] {
        [
            self.encoded != other.encoded,
            self.turns != other.turns,
            self.values != other.values,
            self.mean != other.mean,
            self.means != other.means,
            self.groups != other.groups,
            (&self.pairs, &self.sure_groups) != (&other.pairs, &other.sure_groups),
            self.records != other.records,
        ]
    }
}

/// Eight groups at most, throughout the chart.
#[track_caller]
fn records(chart: &Chart, groups: &Groups, window: f64) -> Vec<Recorded> {
    let count = groups.objects.len();
    let some = (0..count).step_by(count / 8 + 1);
    some.map(|group| check_rhythm::check_record(chart, groups, group, window))
        .collect()
}

/// The means of a lesson of some stretches, as long as the bounds are apart.
#[track_caller]
fn means(asked: &Asked, values: &[f64]) -> Vec<u64> {
    let (chart, (a, b)) = (&asked.chart.low, asked.bounds);
    let marked = Marked::new(chart, &some_pairs(chart, b - a));
    let told = lesson::answered_by(&marked, values).expect("each has a note");
    told.mean.iter().map(|x| x.to_bits()).collect()
}

/// Every call accepts, and answers with every bit and lent place as its plain version does; stretch refuses where there is no note,
/// and isn't asked where the bounds hold no object.
#[track_caller]
pub fn accepted(asked: &Asked) -> Told {
    let chart = &asked.chart.low;
    let encoded = check::accepted(chart);
    let turns = turns::accepted(chart);
    let values = check_colour::check_values(chart);
    let (a, b) = asked.bounds;
    let mean = match a < b {
        true => check_colour::check_stretch(chart, &values, a, b),
        false => None,
    };
    let means = means(asked, &values);
    let groups = Groups::of(chart);
    check_rhythm::check_rhythm(chart, &groups);
    let sure = taps::accepted(&asked.chart);
    Told {
        encoded,
        turns,
        values: values.iter().map(|x| x.to_bits()).collect(),
        mean: mean.map(f64::to_bits),
        means,
        groups: groups.numbers(),
        pairs: sure.pair,
        sure_groups: sure.groups.map(|groups| groups.of_object),
        records: records(chart, &groups, asked.window),
    }
}

/// Every call refuses with this number and the place 0, and all that it is lent is as it was; also where there is no such stretch, no
/// such lesson, no such group and no such window.
#[track_caller]
pub fn refused(chart: &TapChart, refusal: u64) {
    let (low, n) = (&chart.low, chart.size());
    check::refused(low, exact_sizes(n), refusal, 0);
    turns::refused(low, exact_four(n), refusal, 0);
    for bounds in [None, Some((0, n)), Some((1, 0))] {
        check_colour::refused(low, bounds, check_colour::roomy(n), refusal, 0);
    }
    for pairs in [&[][..], &[(0, n as u64)], &[(1, 0)], &[(0, 1); 33]] {
        lesson::refused(&Marked::new(low, pairs), refusal, 0);
    }
    for of in [None, Some((0, 50.0)), Some((n, f64::NAN))] {
        check_rhythm::refused(low, of, check_rhythm::roomy(n), refusal, 0);
    }
    taps::refused(chart, refusal, 0);
}
