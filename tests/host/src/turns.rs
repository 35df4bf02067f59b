//! The call turns with known memory, and a look at everything that it may have written.

use crate::chart::Chart;
use crate::lent::{exact_four, roomy_four, FourSizes, TwoNumbers};
use crate::plain_turns::{self, Turns};
use dresserduck::calls;

pub use dresserduck::calls::Turned;

pub fn turns(chart: &Chart, memory: &mut TwoNumbers) -> Turned {
    let [previous, next] = &mut memory.numbers;
    calls::turns(
        &chart.lent(),
        chart.settings,
        previous.lend(),
        next.lend(),
        memory.working.work.lend(),
        memory.working.scratch.lend(),
    )
}

/// Calls with sentinels in memory of these sizes; the answer and every place must be as `want` and `told` say.
#[track_caller]
fn called(chart: &Chart, sizes: FourSizes, want: Turned, told: Option<&Turns>) {
    let lent = TwoNumbers::of_sizes(sizes, chart.size());
    let after = told.map_or(lent.clone(), |told| lent.filled(told));
    let mut memory = lent;
    let got = turns(chart, &mut memory);
    assert_eq!(got, want, "{sizes:?} lent for {chart}");
    let slices = ["previous", "next", "work", "scratch"];
    for (slice, (got, want)) in slices.iter().zip(memory.bits().iter().zip(after.bits())) {
        assert_eq!(*got, want, "{slice} of {sizes:?} lent for {chart}");
    }
}

/// The chart is accepted in memory of these sizes and has these turns; places past them, and guards, are as they were.
#[track_caller]
pub fn accepted_with(chart: &Chart, sizes: FourSizes, told: &Turns) {
    called(chart, sizes, Turned::default(), Some(told));
}

/// The chart is accepted, with exactly enough memory and with some to spare, and has the turns of the plain version.
#[track_caller]
pub fn accepted(chart: &Chart) -> Turns {
    let (n, told) = (chart.size(), plain_turns::turns(&chart.kind));
    for sizes in [exact_four(n), roomy_four(n)] {
        accepted_with(chart, sizes, &told);
    }
    told
}

/// The chart is refused with this number and place in memory of these sizes, and every place is as it was.
#[track_caller]
pub fn refused(chart: &Chart, sizes: FourSizes, refusal: u64, place: usize) {
    let place = place as u64;
    called(chart, sizes, Turned { refusal, place }, None);
}
