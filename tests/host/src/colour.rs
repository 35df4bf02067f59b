//! The calls colour and stretch over a chart and lent memory.

use crate::chart::Chart;
use crate::lent::{Room, Work};
use dresserduck::calls;

pub use dresserduck::calls::{Coloured, Stretched};

/// The three slices that are lent.
#[derive(Clone)]
pub struct Memory {
    pub value: Room<f64>,
    working: Work,
}

impl Memory {
    /// Slices of these counts: values, work, scratch.
    pub fn of_sizes([value, work, scratch]: [usize; 3]) -> Self {
        Memory {
            value: Room::new(0, value, 0),
            working: Work::new([work, scratch], 0),
        }
    }

    /// What every place holds.
    pub fn bits(&self) -> [Vec<u64>; 3] {
        let [work, scratch] = self.working.bits();
        [self.value.bits(), work, scratch]
    }

    /// The memory after an accepted call.
    pub fn filled(&self, values: &[f64]) -> Self {
        let mut after = self.clone();
        after.value.put(values);
        after.working.clear(values.len());
        after
    }
}

pub fn colour(chart: &Chart, memory: &mut Memory) -> Coloured {
    let Memory { value, working } = memory;
    calls::colour(
        &chart.lent(),
        chart.settings,
        value.lend(),
        working.work.lend(),
        working.scratch.lend(),
    )
}

pub fn stretch(chart: &Chart, a: usize, b: usize, memory: &mut Memory) -> Stretched {
    let Memory { value, working } = memory;
    calls::stretch(
        &chart.lent(),
        chart.settings,
        a,
        b,
        value.lend(),
        working.work.lend(),
        working.scratch.lend(),
    )
}
