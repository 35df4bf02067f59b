//! Exports of libtest_host.a as safe functions, the scope's rules beside them, and the values that the tests try.

pub mod plain;
pub mod samples;
pub mod stored;
#[path = "../../plain_normalizer.rs"]
pub mod plain_normalizer;
#[path = "../../xorshift.rs"]
mod xorshift;

/// The most values that may be grouped.
pub const MOST_VALUES: usize = 16_384;

mod host {
    extern "C" {
        pub fn grouping_group_by_interval(
            values: *const f64,
            value_count: usize,
            margin: f64,
            group: *mut u16,
            group_count: usize,
        ) -> usize;
        pub fn grouping_normal_of(deltas: *mut f64, delta_count: usize, margin: f64, x: f64)
            -> f64;
    }
}

/// Writes each value's group number over the front of `group`; the answer is how many groups there are.
pub fn group_by_interval(values: &[f64], margin: f64, group: &mut [u16]) -> usize {
    let (n, room) = (values.len(), group.len());
    assert!(n <= MOST_VALUES && n <= room, "{n} values, {room} places");
    // SAFETY: both pointers and counts are those of slices, the second one borrowed mutably; and there is a place for each value.
    unsafe {
        host::grouping_group_by_interval(
            values.as_ptr(),
            values.len(),
            margin,
            group.as_mut_ptr(),
            group.len(),
        )
    }
}

/// What x counts as among the deltas, which are put in order, the distinct ones in front.
pub fn normal_of(deltas: &mut [f64], margin: f64, x: f64) -> f64 {
    assert!(deltas.iter().all(|x| x.is_finite()), "{deltas:?}");
    // SAFETY: pointer and count are those of a slice that is borrowed mutably, and its values are finite.
    unsafe { host::grouping_normal_of(deltas.as_mut_ptr(), deltas.len(), margin, x) }
}
