//! The exports on a chart by their C names, with pointers and counts that no list of Rust's has.

use std::ptr::{dangling, dangling_mut};

use dresserduck::{calls, Settings};
use host_tests::faults::some_bad_settings;

/// Where a call's slices begin. The chart's lists of floats are one, as what is only read may be shared, and so are
/// the two of the pairs.
struct Places {
    kind: *const u8,
    floats: *const f64,
    pairs: *const u64,
    numbers: [*mut u16; 5],
    bytes: [*mut u8; 2],
    value: *mut f64,
    mean: *mut f64,
    tenths: *mut i64,
    work: *mut u16,
    scratch: *mut f64,
}

impl Places {
    /// Aligned, and where there is no memory.
    fn nowhere() -> Self {
        Places {
            kind: dangling(),
            floats: dangling(),
            pairs: dangling(),
            numbers: [dangling_mut(); 5],
            bytes: [dangling_mut(); 2],
            value: dangling_mut(),
            mean: dangling_mut(),
            tenths: dangling_mut(),
            work: dangling_mut(),
            scratch: dangling_mut(),
        }
    }
}

/// Refusal and place of a call, by where its slices are and their counts: of the kinds, and of each list of floats.
macro_rules! asked {
    (
        $export:ident($at:expr, $kind:expr, [$($list:expr),*], $($argument:expr),*)
        => $(($slice:expr, $count:expr)),*
    ) => {{
        let (at, x) = ($at, $at.floats);
        // SAFETY: a call touches no place that it does not need, and none at all when it is refused for its counts or settings: the memory
        // is there for what it needs, or it is refused. One that did would be stopped by the processor or found out.
        let answer = unsafe {
            calls::$export(at.kind, $kind, $(x, $list,)* $($argument,)* $($slice, $count),*)
        };
        (answer.refusal, answer.place)
    }};
}

/// All eight under the default settings, with these counts of the chart's slices and of answer, work and scratch
/// slices. For taps the count of the deltas is that of the lowest and that of the highest; lesson has no pairs.
fn all_eight(at: &Places, inputs: [usize; 4], lent: [usize; 3]) -> [(u64, u64); 8] {
    all_eight_under(Settings::DEFAULT, at, inputs, lent)
}

fn all_eight_under(
    settings: Settings,
    at: &Places,
    inputs: [usize; 4],
    [n, work, scratch]: [usize; 3],
) -> [(u64, u64); 8] {
    let [kind, start, delta, ratio] = inputs;
    let [a, b, c, d, e] = at.numbers;
    let ([i, p], v, w, s) = (at.bytes, at.value, at.work, at.scratch);
    [
        asked!(dresserduck_encode(at, kind, [start, delta, ratio], settings) =>
            (a, n), (b, n), (c, n), (d, n), (e, n), (i, n), (w, work), (s, scratch)),
        asked!(dresserduck_turns(at, kind, [start, delta, ratio], settings) => (a, n), (b, n), (w, work), (s, scratch)),
        asked!(dresserduck_colour(at, kind, [start, delta, ratio], settings) => (v, n), (w, work), (s, scratch)),
        asked!(dresserduck_stretch(at, kind, [start, delta, ratio], settings, 0, 1) => (v, n), (w, work), (s, scratch)),
        asked!(dresserduck_lesson(at, kind, [start, delta, ratio], settings, at.pairs, 0, at.pairs, 0) =>
            (v, n), (at.mean, 0), (at.tenths, 0), (w, work), (s, scratch)),
        asked!(dresserduck_rhythm(at, kind, [start, delta, ratio], settings) => (a, n), (b, n), (w, work), (s, scratch)),
        asked!(dresserduck_taps(at, kind, [start, delta, delta, ratio], settings) => (p, n), (a, n), (w, work), (s, scratch)),
        asked!(dresserduck_record(at, kind, [start, delta, ratio], settings, 0, 50.0) => (w, work), (s, scratch)),
    ]
}

#[test]
fn a_chart_without_objects_needs_no_memory() {
    let answers = all_eight(&Places::nowhere(), [0; 4], [0; 3]);
    // no stretch and no group is in such a chart
    let [done, none] = [(0, 0), (9, 0)];
    assert_eq!(answers, [done, done, done, none, done, done, done, none]);
}

/// Among them some that are 3 or 0 to arithmetic of 16 or 32 bits.
const TOO_MANY: [usize; 6] = [16_385, 65_539, (1 << 32) + 3, 1 << 32, 1 << 63, usize::MAX];

#[test]
fn counts_beyond_memory_are_refused_by_themselves() {
    let nowhere = Places::nowhere();
    for count in TOO_MANY {
        let refused = all_eight(&nowhere, [count; 4], [count; 3]);
        assert_eq!(refused, [(1, 0); 8], "{count} objects");
        for input in 1..4 {
            let mut inputs = [3; 4];
            inputs[input] = count;
            let refused = all_eight(&nowhere, inputs, [3, 24, 3]);
            assert_eq!(refused, [(2, 0); 8], "{inputs:?}");
        }
    }
}

#[test]
fn work_slices_too_short_are_refused_by_their_counts() {
    for lent in [[3, 23, 3], [3, 24, 2], [3, 0, 3], [3, 24, 0]] {
        let refused = all_eight(&Places::nowhere(), [3; 4], lent);
        assert_eq!(refused, [(3, 0); 8], "{lent:?}");
    }
}

/// No memory is touched for it, neither the chart's nor what is lent; and without objects, too, it is told.
#[test]
fn settings_are_refused_by_themselves() {
    for settings in some_bad_settings() {
        for n in [0, 3, 16_384] {
            let lent = [n, 8 * n, n];
            let refused = all_eight_under(settings, &Places::nowhere(), [n; 4], lent);
            assert_eq!(refused, [(16, 0); 8], "{settings:?}, {n} objects");
        }
    }
}

/// Memory for a chart of three objects, with a place more in each lent slice; the slices of one type lie side by side.
struct Memory {
    kind: [u8; 3],
    ones: [f64; 3],
    pairs: [u64; 1],
    numbers: [[u16; 4]; 5],
    work: [u16; 25],
    bytes: [[u8; 4]; 2],
    floats: [[f64; 4]; 3],
    tenths: [i64; 4],
}

impl Memory {
    fn new() -> Self {
        Memory {
            kind: [0, 1, 1],
            ones: [1.0; 3],
            pairs: [1],
            numbers: [[99; 4]; 5],
            work: [99; 25],
            bytes: [[99; 4]; 2],
            floats: [[99.0; 4]; 3],
            tenths: [99; 4],
        }
    }

    fn places(&mut self) -> Places {
        let [value, mean, scratch] = &mut self.floats;
        Places {
            kind: self.kind.as_ptr(),
            floats: self.ones.as_ptr(),
            pairs: self.pairs.as_ptr(),
            numbers: self.numbers.each_mut().map(|slice| slice.as_mut_ptr()),
            bytes: self.bytes.each_mut().map(|slice| slice.as_mut_ptr()),
            value: value.as_mut_ptr(),
            mean: mean.as_mut_ptr(),
            tenths: self.tenths.as_mut_ptr(),
            work: self.work.as_mut_ptr(),
            scratch: scratch.as_mut_ptr(),
        }
    }
}

/// The low half of a count may be 0: it is long enough, and no place past the needed ones is touched.
#[test]
fn lent_counts_may_be_larger_than_32_bits() {
    for lent in [
        [3, 24, 3],
        [4, 25, 4],
        [1 << 32, 1 << 32, 1 << 32],
        [usize::MAX; 3],
    ] {
        let mut memory = Memory::new();
        let answers = all_eight(&memory.places(), [3; 4], lent);
        assert_eq!(answers, [(0, 0); 8], "{lent:?}");
        let past = memory.numbers.map(|slice| slice[3]);
        assert_eq!((past, memory.work[24]), ([99; 5], 99), "{lent:?}");
        assert_eq!(
            (memory.bytes, memory.work[..24] == [0; 24]),
            ([[17, 17, 17, 99], [0, 0, 255, 99]], true)
        );
        let [value, mean, scratch] = memory.floats;
        assert_eq!((value[3], scratch), (99.0, [0.0, 0.0, 0.0, 99.0]));
        assert_eq!((mean, memory.tenths), ([99.0; 4], [99; 4]), "{lent:?}");
    }
}

#[test]
fn answer_slices_too_short_are_refused() {
    let mut memory = Memory::new();
    let answers = all_eight(&memory.places(), [3; 4], [2, 24, 3]);
    // record has none
    let (short, done) = ((3, 0), (0, 0));
    assert_eq!(
        answers,
        [short, short, short, short, short, short, short, done]
    );
    assert_eq!(memory.numbers, [[99; 4]; 5]);
    assert_eq!((memory.bytes, memory.floats[0]), ([[99; 4]; 2], [99.0; 4]));
}

/// Lesson with exactly enough for the three objects: how many offsets and lengths, and how many places for means and
/// for tenths.
fn marked(at: &Places, [offset, length]: [usize; 2], [mean, tenths]: [usize; 2]) -> (u64, u64) {
    let settings = Settings::DEFAULT;
    asked!(dresserduck_lesson(at, 3, [3, 3, 3], settings, at.pairs, offset, at.pairs, length) =>
        (at.value, 3), (at.mean, mean), (at.tenths, tenths), (at.work, 24), (at.scratch, 3))
}

/// One object from object 1 on: the low half of a count may be 0, and one place is written of each slice.
#[test]
fn counts_of_means_may_be_larger_than_32_bits() {
    for count in [1, 4, 1 << 32, usize::MAX] {
        let mut memory = Memory::new();
        assert_eq!(marked(&memory.places(), [1; 2], [count; 2]), (0, 0));
        let [value, mean, _] = memory.floats;
        assert_eq!(mean, [value[1], 99.0, 99.0, 99.0], "{count}");
        assert_eq!(memory.tenths[1..], [99; 3], "{count}");
        assert_ne!(memory.tenths[0], 99, "{count}");
    }
}

/// A chart in memory, and all else where there is none.
fn chart_alone(memory: &Memory) -> Places {
    Places {
        kind: memory.kind.as_ptr(),
        floats: memory.ones.as_ptr(),
        ..Places::nowhere()
    }
}

/// No pair is read for it, and nothing written. Some of these are 0 or 1 to arithmetic of 16 or 32 bits.
#[test]
fn counts_of_pairs_beyond_memory_are_refused_by_themselves() {
    let good = Memory::new();
    let mut bad = Memory::new();
    bad.kind[2] = 3;
    let [good, bad] = [&good, &bad].map(chart_alone);
    for count in [65_537, 1 << 32, (1 << 32) + 1, 1 << 61, usize::MAX] {
        let pairs = [count; 2];
        assert_eq!(marked(&good, pairs, pairs), (17, 0), "{count}");
        assert_eq!(marked(&bad, pairs, pairs), (4, 2), "{count}");
        for lent in [[count - 1, count], [count, count - 1], [1; 2], [0; 2]] {
            assert_eq!(marked(&bad, pairs, lent), (3, 0), "{count}: {lent:?}");
        }
        for unlike in [[1, count], [count, 1], [0, count], [count, 0]] {
            assert_eq!(marked(&bad, unlike, [0; 2]), (2, 0), "{unlike:?}");
        }
    }
}
