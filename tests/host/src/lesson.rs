//! The call lesson with known memory, and a look at everything that it may have written.

use crate::chart::Chart;
use crate::check_colour::check_values;
use crate::lent::{Room, Work};
use crate::plain_lesson::{self, Pair, Refused, Told};
use dresserduck::calls;

pub use dresserduck::calls::Lessoned;

/// The pairs as the host lends them, and a chart to mark them on.
#[derive(Clone)]
pub struct Marked {
    pub chart: Chart,
    pub offset: Vec<u64>,
    pub length: Vec<u64>,
}

impl Marked {
    pub fn new(chart: &Chart, pairs: &[Pair]) -> Self {
        let (offset, length) = pairs.iter().copied().unzip();
        Marked {
            chart: chart.clone(),
            offset,
            length,
        }
    }

    /// How many pairs, counted on the offsets.
    pub fn count(&self) -> usize {
        self.offset.len()
    }
}

/// A stretch at every so many-th note, eight at most, of so many objects or up to the end.
pub fn some_pairs(chart: &Chart, length: usize) -> Vec<Pair> {
    let (n, notes) = (chart.size(), chart.notes());
    let step = notes.len() / 8 + 1;
    let pair = |&first: &usize| (first as u64, length.clamp(1, n - first) as u64);
    notes.iter().step_by(step).map(pair).collect()
}

/// The counts of the five slices that are lent: value, mean, tenths, work, scratch.
pub type Sizes = [usize; 5];

/// Their names.
const SLICES: [&str; 5] = ["value", "mean", "tenths", "work", "scratch"];

/// The fewest places for n objects and so many pairs.
pub fn exact_sizes(n: usize, pairs: usize) -> Sizes {
    [n, pairs, pairs, 8 * n, n]
}

/// Some more.
pub fn roomy_sizes(n: usize, pairs: usize) -> Sizes {
    [n + 3, pairs + 1, pairs + 4, 8 * n + 5, n + 2]
}

/// The five slices.
#[derive(Clone)]
pub struct Memory {
    pub value: Room<f64>,
    pub mean: Room<f64>,
    pub tenths: Room<i64>,
    working: Work,
}

impl Memory {
    /// Slices of these counts, with guards for what they lack for n objects and so many pairs.
    pub fn of_sizes([value, mean, tenths, work, scratch]: Sizes, n: usize, pairs: usize) -> Self {
        Memory {
            value: Room::new(0, value, n),
            mean: Room::new(1, mean, pairs),
            tenths: Room::new(2, tenths, pairs),
            working: Work::new([work, scratch], n),
        }
    }

    /// Five empty slices that point at no memory.
    pub fn dangling() -> Self {
        Memory {
            value: Room::dangling(),
            mean: Room::dangling(),
            tenths: Room::dangling(),
            working: Work::dangling(),
        }
    }

    /// What every place holds.
    pub fn bits(&self) -> [Vec<u64>; 5] {
        let [work, scratch] = self.working.bits();
        let tenths = self.tenths.bits();
        [self.value.bits(), self.mean.bits(), tenths, work, scratch]
    }

    /// The memory after an accepted call.
    fn filled(&self, values: &[f64], told: &Told) -> Self {
        let mut after = self.clone();
        after.value.put(values);
        after.mean.put(&told.mean);
        after.tenths.put(&told.tenths);
        after.working.clear(values.len());
        after
    }
}

pub fn lesson(marked: &Marked, memory: &mut Memory) -> Lessoned {
    calls::lesson(
        &marked.chart.lent(),
        marked.chart.settings,
        &marked.offset,
        &marked.length,
        memory.value.lend(),
        memory.mean.lend(),
        memory.tenths.lend(),
        memory.working.work.lend(),
        memory.working.scratch.lend(),
    )
}

/// Calls with sentinels in memory of these sizes; the answer must be `want`, and every place as `after` makes it.
#[track_caller]
fn called(marked: &Marked, sizes: Sizes, want: Lessoned, after: impl Fn(&Memory) -> Memory) {
    let Marked {
        chart,
        offset,
        length,
    } = marked;
    let lent = Memory::of_sizes(sizes, chart.size(), marked.count());
    let mut memory = lent.clone();
    let got = lesson(marked, &mut memory);
    let shown = || format!("{offset:?} and {length:?} in {sizes:?} lent for {chart}");
    assert_eq!(got, want, "{}", shown());
    let both = memory.bits().into_iter().zip(after(&lent).bits());
    for (slice, (got, want)) in SLICES.iter().zip(both) {
        assert_eq!(got, want, "{slice} for {}", shown());
    }
}

/// The lesson is refused with this number and place in memory of these sizes, and every place is as it was.
#[track_caller]
pub fn refused_with(marked: &Marked, sizes: Sizes, refusal: u64, place: usize) {
    let place = place as u64;
    called(marked, sizes, Lessoned { refusal, place }, Memory::clone);
}

/// The same with exactly enough memory and with some to spare.
#[track_caller]
pub fn refused(marked: &Marked, refusal: u64, place: usize) {
    for sizes in both_sizes(marked) {
        refused_with(marked, sizes, refusal, place);
    }
}

fn both_sizes(marked: &Marked) -> [Sizes; 2] {
    let (n, pairs) = (marked.chart.size(), marked.count());
    [exact_sizes(n, pairs), roomy_sizes(n, pairs)]
}

/// The lesson on a good chart with these colour values is answered, or refused, as by the plain version, in memory of
/// these sizes.
#[track_caller]
fn answered_in(marked: &Marked, values: &[f64], sizes: Sizes) -> Result<Told, Refused> {
    let (offsets, lengths) = (marked.offset.iter(), marked.length.iter());
    let pairs: Vec<Pair> = offsets.copied().zip(lengths.copied()).collect();
    let told = plain_lesson::lesson(&marked.chart.kind, values, &pairs);
    match &told {
        Ok(told) => called(marked, sizes, Lessoned::default(), |lent| {
            lent.filled(values, told)
        }),
        Err((refusal, place)) => refused_with(marked, sizes, *refusal, *place as usize),
    }
    told
}

/// The same; the values are those of the call colour.
#[track_caller]
pub fn answered_with(marked: &Marked, sizes: Sizes) -> Result<Told, Refused> {
    answered_in(marked, &check_values(&marked.chart), sizes)
}

/// The same with exactly enough memory and with some to spare.
#[track_caller]
pub fn answered(marked: &Marked) -> Result<Told, Refused> {
    answered_by(marked, &check_values(&marked.chart))
}

/// The same where the values are known.
#[track_caller]
pub fn answered_by(marked: &Marked, values: &[f64]) -> Result<Told, Refused> {
    let [exact, roomy] = both_sizes(marked);
    let told = answered_in(marked, values, exact);
    assert_eq!(answered_in(marked, values, roomy), told);
    told
}
