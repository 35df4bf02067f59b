//! How long works take, by the processor's time.

use std::ffi::c_long;

/// POSIX has a million ticks in a second everywhere.
const NANOSECONDS_PER_TICK: f64 = 1_000.0;

extern "C" {
    /// The processor time of this process, in ticks.
    fn clock() -> c_long;
}

/// One run's time in nanoseconds; it repeats the work so that it takes a while.
fn timed(work: &mut dyn FnMut(), times: u32) -> f64 {
    // SAFETY: the function has no argument, and no condition.
    let now = || unsafe { clock() };
    let start = now();
    (0..times).for_each(|_| work());
    (now() - start) as f64 * NANOSECONDS_PER_TICK / f64::from(times)
}

fn median(mut runs: Vec<f64>) -> f64 {
    runs.sort_by(f64::total_cmp);
    runs[runs.len() / 2]
}

/// The medians of some runs of either, in turn, so that what else the machine does falls on both.
pub fn medians(one: &mut dyn FnMut(), other: &mut dyn FnMut()) -> [f64; 2] {
    let times = |work: &mut dyn FnMut()| {
        let once = timed(work, 1).max(NANOSECONDS_PER_TICK);
        (1e6 / once).clamp(1.0, 10_000.0) as u32
    };
    let counts = [times(one), times(other)];
    let run = |_| [timed(one, counts[0]), timed(other, counts[1])];
    let runs: Vec<[f64; 2]> = (0..21).map(run).collect();
    [0, 1].map(|k| median(runs.iter().map(|pair| pair[k]).collect()))
}
