//! The call build over raw objects and lent memory.

use std::fmt;

use crate::chart::Chart;
use crate::lent::Room;
use dresserduck::{calls, RawChart};

pub use dresserduck::calls::Built;

/// Raw objects as a host lends them, the two lists of one length where they are good ones, and the clock rate.
#[derive(Clone)]
pub struct Raw {
    pub kind: Vec<u8>,
    pub time: Vec<f64>,
    pub rate: f64,
}

impl Raw {
    /// Centers at these times.
    pub fn of_times(time: &[f64], rate: f64) -> Self {
        Raw {
            kind: vec![0; time.len()],
            time: time.to_vec(),
            rate,
        }
    }

    /// As the call takes it.
    pub fn lent(&self) -> RawChart<'_> {
        RawChart::new(&self.kind, &self.time, self.rate)
    }

    /// How many objects are built of it, counted on the kinds.
    pub fn built_size(&self) -> usize {
        self.kind.len().saturating_sub(2)
    }
}

/// The rate, the lengths, and the first few raw objects; bits beside each time, since there are many NaNs.
impl fmt::Display for Raw {
    fn fmt(&self, out: &mut fmt::Formatter) -> fmt::Result {
        let lengths = (self.kind.len(), self.time.len());
        write!(out, "raw objects {lengths:?} at rate {:?}", self.rate)?;
        for (i, (kind, time)) in self.kind.iter().zip(&self.time).enumerate().take(40) {
            let bits = time.to_bits();
            write!(out, "\n  raw object {i}: {kind} at {time:e} ({bits:016x})")?;
        }
        Ok(())
    }
}

/// The four slices that are lent, all of them answers.
#[derive(Clone)]
pub struct Memory {
    pub kind: Room<u8>,
    pub start: Room<f64>,
    pub delta: Room<f64>,
    pub ratio: Room<f64>,
}

impl Memory {
    /// Slices of these counts: kinds, starts, deltas, ratios. What one lacks of the longest follows it as guard.
    pub fn of_sizes(sizes: [usize; 4]) -> Self {
        let longest = sizes.into_iter().fold(0, usize::max);
        let floats = |slice: usize| Room::new(slice, sizes[slice], longest);
        Memory {
            kind: Room::new(0, sizes[0], longest),
            start: floats(1),
            delta: floats(2),
            ratio: floats(3),
        }
    }

    /// What every place holds.
    pub fn bits(&self) -> [Vec<u64>; 4] {
        let [start, delta, ratio] = [&self.start, &self.delta, &self.ratio].map(|room| room.bits());
        [self.kind.bits(), start, delta, ratio]
    }

    /// The memory after an accepted call.
    pub fn filled(&self, chart: &Chart) -> Self {
        let mut after = self.clone();
        after.kind.put(&chart.kind);
        after.start.put(&chart.start);
        after.delta.put(&chart.delta);
        after.ratio.put(&chart.ratio);
        after
    }
}

pub fn build(raw: &Raw, memory: &mut Memory) -> Built {
    calls::build(
        &raw.lent(),
        memory.kind.lend(),
        memory.start.lend(),
        memory.delta.lend(),
        memory.ratio.lend(),
    )
}

/// The call is accepted in memory of these sizes and builds this chart; places past it, and guards, are as they were.
#[track_caller]
pub fn accepted(raw: &Raw, sizes: [usize; 4], chart: &Chart) {
    let lent = Memory::of_sizes(sizes);
    let mut memory = lent.clone();
    let want = Built {
        refusal: 0,
        place: 0,
        objects: chart.size() as u64,
    };
    assert_eq!(build(raw, &mut memory), want, "{sizes:?} lent for {raw}");
    let after = lent.filled(chart);
    assert_eq!(memory.bits(), after.bits(), "{sizes:?} lent for {raw}");
}

/// The call is refused with this number and place in memory of these sizes, and every place is as it was.
#[track_caller]
pub fn refused(raw: &Raw, sizes: [usize; 4], refusal: u64, place: usize) {
    let lent = Memory::of_sizes(sizes);
    let mut memory = lent.clone();
    let want = Built {
        refusal,
        place: place as u64,
        objects: 0,
    };
    assert_eq!(build(raw, &mut memory), want, "{sizes:?} lent for {raw}");
    assert_eq!(memory.bits(), lent.bits(), "{sizes:?} lent for {raw}");
}
