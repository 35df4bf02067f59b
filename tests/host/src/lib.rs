//! The exports of libdresserduck.a over a chart and lent memory whose every place is known, and the scope's words beside them.

pub mod build;
pub mod chart;
pub mod check;
pub mod check_colour;
pub mod check_rhythm;
pub mod colour;
pub mod eight;
pub mod faults;
pub mod heard;
pub mod landmark;
pub mod lent;
pub mod lesson;
pub mod order;
pub mod pairs;
pub mod plain;
pub mod plain_build;
pub mod plain_colour;
pub mod plain_lesson;
#[path = "../../plain_normalizer.rs"]
pub mod plain_normalizer;
pub mod plain_rhythm;
pub mod plain_taps;
#[path = "../../plain_tenths.rs"]
pub mod plain_tenths;
pub mod plain_turns;
pub mod rhythm;
pub mod samples;
pub mod sets;
pub mod taps;
pub mod turns;
#[path = "../../xorshift.rs"]
mod xorshift;

pub use dresserduck::calls::Encoded;
pub use dresserduck::{LARGEST_CHART, LARGEST_RAW_CHART};

use chart::Chart;
use dresserduck::calls;
use lent::Lent;

/// One call of encode.
pub fn encode(chart: &Chart, lent: &mut Lent) -> Encoded {
    let [streak, streak_place, pattern, pattern_place, hit] = &mut lent.numbers;
    calls::encode(
        &chart.lent(),
        chart.settings,
        streak.lend(),
        streak_place.lend(),
        pattern.lend(),
        pattern_place.lend(),
        hit.lend(),
        lent.interval.lend(),
        lent.working.work.lend(),
        lent.working.scratch.lend(),
    )
}
