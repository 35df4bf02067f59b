//! The call taps: the class of two ranges, at which pairs the grouping looks, the whole answer against a plain version
//! and the call rhythm, and each refusal at its limits and in its order. After a refusal all lent memory is as it was.

mod answers;
mod classes;
mod limits;
mod looked_at;
mod order;

use host_tests::chart::Chart;
use host_tests::check_rhythm::exact;
use host_tests::rhythm::rhythm;
use host_tests::taps::Range;

/// One delta and no other.
fn known(delta: f64) -> Range {
    [delta, delta]
}

/// What the call rhythm answers: how many groups, and each object's.
fn grouped(chart: &Chart) -> (u64, Vec<u16>) {
    let mut memory = exact(chart.size());
    let got = rhythm(chart, &mut memory);
    assert_eq!((got.refusal, got.place), (0, 0), "{chart}");
    (got.groups, memory.numbers[0].lent().to_vec())
}
