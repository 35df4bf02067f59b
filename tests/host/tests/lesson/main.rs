//! The call lesson: each pair's answer against a plain version and the call stretch, each refusal at its limits and
//! in its order. After a refusal all lent memory is as it was.

mod answers;
mod limits;
mod order;

use host_tests::plain_lesson::Pair;

/// So many stretches of one length, a new one at every object from the first on.
fn side_by_side(count: usize, length: u64) -> Vec<Pair> {
    (0..count as u64).map(|offset| (offset, length)).collect()
}
