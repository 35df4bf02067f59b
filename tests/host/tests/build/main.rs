//! The call build: its charts against a plain version, what it reads, each refusal at its limits and in its order. After a refusal
//! all lent memory is as it was.

mod answers;
mod limits;
mod order;
mod pointers;
mod ratios;

use host_tests::build::{accepted, refused, Raw};
use host_tests::plain_build;

/// The fewest places for the objects that are built.
fn exact(raw: &Raw) -> [usize; 4] {
    [raw.built_size(); 4]
}

/// The plain version's chart is built, with exactly enough memory and with some to spare in each slice.
#[track_caller]
fn builds(raw: &Raw) {
    let (n, chart) = (raw.built_size(), plain_build::chart(raw));
    for sizes in [exact(raw), [n + 3, n + 1, n + 4, n + 2]] {
        accepted(raw, sizes, &chart);
    }
}

/// The same refusal with exactly enough memory and with some to spare.
#[track_caller]
fn refuses(raw: &Raw, refusal: u64, place: usize) {
    for sizes in [exact(raw), exact(raw).map(|count| count + 2)] {
        refused(raw, sizes, refusal, place);
    }
}

/// All good: m objects of three kinds, all a little below the largest start, so that a change of sign is a step too far.
fn good(m: usize) -> Raw {
    Raw {
        kind: (0..m).map(|i| [0, 1, 1, 2, 0][i % 5]).collect(),
        time: (0..m)
            .map(|i| 16_777_000.0 + [10.0, 70.0, 100.0][i % 3])
            .collect(),
        rate: 1.0,
    }
}
