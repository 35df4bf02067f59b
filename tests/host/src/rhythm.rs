//! The calls rhythm and record over a chart and lent memory.

use crate::chart::Chart;
use crate::lent::{TwoNumbers, Work};
use dresserduck::calls;

pub use dresserduck::calls::{Grouped, Recorded};

pub fn rhythm(chart: &Chart, memory: &mut TwoNumbers) -> Grouped {
    let [group, pattern] = &mut memory.numbers;
    calls::rhythm(
        &chart.lent(),
        chart.settings,
        group.lend(),
        pattern.lend(),
        memory.working.work.lend(),
        memory.working.scratch.lend(),
    )
}

/// It is lent the last two slices alone.
pub fn record(chart: &Chart, group: usize, window: f64, memory: &mut TwoNumbers) -> Recorded {
    let Work { work, scratch } = &mut memory.working;
    calls::record(
        &chart.lent(),
        chart.settings,
        group,
        window,
        work.lend(),
        scratch.lend(),
    )
}
