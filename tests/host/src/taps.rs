//! The call taps over a chart of ranges and lent memory.

use std::fmt;

use crate::chart::Chart;
use crate::lent::{Room, Work};
use crate::plain_taps::{self, Told};
use crate::samples::Xorshift;
use dresserduck::{calls, Settings};

pub use crate::lent::{exact_four as exact_sizes, roomy_four as roomy_sizes, FourSizes as Sizes};
pub use dresserduck::calls::Tapped;

/// A chart with a range for each delta: the chart's deltas are the lowest.
#[derive(Clone)]
pub struct TapChart {
    pub low: Chart,
    pub highest: Vec<f64>,
}

/// The lowest and the highest that a delta may be.
pub type Range = [f64; 2];

impl TapChart {
    /// The chart, of which each delta is known.
    pub fn exact(chart: &Chart) -> Self {
        TapChart {
            low: chart.clone(),
            highest: chart.delta.clone(),
        }
    }

    /// Notes with these ranges.
    pub fn of_ranges(ranges: &[Range]) -> Self {
        let mut low = Chart::of_kinds(vec![0; ranges.len()]);
        low.delta = ranges.iter().map(|range| range[0]).collect();
        TapChart {
            low,
            highest: ranges.iter().map(|range| range[1]).collect(),
        }
    }

    /// A good chart of n objects with room in each range.
    pub fn of_size(n: usize) -> Self {
        let low = Chart::of_size(n);
        let highest = low.delta.iter().map(|delta| delta + 2.0).collect();
        TapChart { low, highest }
    }

    /// The same, asked under these settings.
    pub fn under(&self, settings: Settings) -> Self {
        TapChart {
            low: self.low.under(settings),
            highest: self.highest.clone(),
        }
    }

    /// As the call takes it.
    pub fn lent(&self) -> dresserduck::TapChart<'_> {
        let low = &self.low;
        dresserduck::TapChart::new(&low.kind, &low.start, &low.delta, &self.highest, &low.ratio)
    }

    /// How many objects, counted on the kinds.
    pub fn size(&self) -> usize {
        self.low.size()
    }

    pub fn range(&self, object: usize) -> Range {
        [self.low.delta[object], self.highest[object]]
    }

    /// One of the charts that it may be: each delta is an end of its range, beside one, or anywhere in it.
    pub fn choice(&self, random: &mut Xorshift) -> Chart {
        let mut chart = self.low.clone();
        for (object, delta) in chart.delta.iter_mut().enumerate() {
            let [low, high] = self.range(object);
            let part = random.below(1 << 20) as f64 / (1 << 20) as f64;
            let drawn = [low, high, low.next_up(), low + (high - low) * part];
            *delta = random.pick(&drawn).clamp(low, high);
        }
        chart
    }
}

/// The chart of the lowest deltas, and the first few of the highest that are other ones.
impl fmt::Display for TapChart {
    fn fmt(&self, out: &mut fmt::Formatter) -> fmt::Result {
        write!(
            out,
            "of {} highest deltas, and the lowest in {}",
            self.highest.len(),
            self.low
        )?;
        let both = self.low.delta.iter().zip(&self.highest).enumerate();
        let wide = both.filter(|(_, (low, high))| low.to_bits() != high.to_bits());
        for (object, (low, high)) in wide.take(40) {
            write!(out, "\n  object {object}: {low:e} to {high:e}")?;
        }
        Ok(())
    }
}

/// The four slices that are lent; their counts stand in the order in which they do here.
#[derive(Clone)]
pub struct Memory {
    pub pair: Room<u8>,
    pub group: Room<u16>,
    working: Work,
}

impl Memory {
    /// Slices of these counts, with guards for what they lack for n objects.
    pub fn of_sizes([pair, group, work, scratch]: Sizes, n: usize) -> Self {
        Memory {
            pair: Room::new(0, pair, n),
            group: Room::new(1, group, n),
            working: Work::new([work, scratch], n),
        }
    }

    /// What every place holds.
    pub fn bits(&self) -> [Vec<u64>; 4] {
        let [work, scratch] = self.working.bits();
        [self.pair.bits(), self.group.bits(), work, scratch]
    }

    /// The memory after an accepted call: the groups are as they were where they are open.
    fn filled(&self, told: &Told) -> Self {
        let mut after = self.clone();
        after.pair.put(&told.pair);
        if let Some(groups) = &told.groups {
            after.group.put(&groups.of_object);
        }
        after.working.clear(told.pair.len());
        after
    }
}

pub fn taps(chart: &TapChart, memory: &mut Memory) -> Tapped {
    let Memory {
        pair,
        group,
        working,
    } = memory;
    calls::taps(
        &chart.lent(),
        chart.low.settings,
        pair.lend(),
        group.lend(),
        working.work.lend(),
        working.scratch.lend(),
    )
}

/// Calls with sentinels in memory of these sizes; the answer and every place must be as `want` and `told` say.
#[track_caller]
fn called(chart: &TapChart, sizes: Sizes, want: Tapped, told: Option<&Told>) {
    let lent = Memory::of_sizes(sizes, chart.size());
    let mut memory = lent.clone();
    let got = taps(chart, &mut memory);
    assert_eq!(got, want, "{sizes:?} lent for the chart {chart}");
    let after = told.map_or(lent.clone(), |told| lent.filled(told));
    let names = ["pair", "group", "work", "scratch"];
    for ((name, got), want) in names.iter().zip(memory.bits()).zip(after.bits()) {
        assert_eq!(got, want, "{name} of {sizes:?} lent for the chart {chart}");
    }
}

/// The call is accepted in memory of these sizes and tells this; places past it, and guards, are as they were.
#[track_caller]
pub fn accepted_with(chart: &TapChart, sizes: Sizes, told: &Told) {
    let groups = told.groups.as_ref();
    let want = Tapped {
        open: u64::from(groups.is_none()),
        groups: groups.map_or(0, |groups| groups.count),
        ..Tapped::default()
    };
    called(chart, sizes, want, Some(told));
}

/// The call is accepted, with exactly enough memory and with some to spare, and tells what the plain version does.
#[track_caller]
pub fn accepted(chart: &TapChart) -> Told {
    let told = plain_taps::told(chart);
    for sizes in [exact_sizes(chart.size()), roomy_sizes(chart.size())] {
        accepted_with(chart, sizes, &told);
    }
    told
}

/// The call is refused with this number and place in memory of these sizes, and every place is as it was.
#[track_caller]
pub fn refused_with(chart: &TapChart, sizes: Sizes, refusal: u64, place: usize) {
    let want = Tapped {
        refusal,
        place: place as u64,
        ..Tapped::default()
    };
    called(chart, sizes, want, None);
}

/// The same refusal with exactly enough memory and with some to spare.
#[track_caller]
pub fn refused(chart: &TapChart, refusal: u64, place: usize) {
    for sizes in [exact_sizes(chart.size()), roomy_sizes(chart.size())] {
        refused_with(chart, sizes, refusal, place);
    }
}
