//! The export by its C name, with pointers and counts that no list of Rust's has.

use std::ptr::{dangling, dangling_mut};

use dresserduck::calls::{dresserduck_build, Built};

/// Where the slices begin: kinds, times, built kinds, and starts, deltas and ratios.
#[derive(Clone, Copy)]
struct Places {
    kind: *const u8,
    time: *const f64,
    built_kind: *mut u8,
    floats: [*mut f64; 3],
}

/// Aligned, and where there is no memory.
fn nowhere() -> Places {
    Places {
        kind: dangling(),
        time: dangling(),
        built_kind: dangling_mut(),
        floats: [dangling_mut(); 3],
    }
}

/// The call by its counts: the raw objects', and those of the four lent slices.
fn asked(at: Places, [kinds, times]: [usize; 2], lent: [usize; 4]) -> (u64, u64, u64) {
    let [start, delta, ratio] = at.floats;
    // SAFETY: a call touches no place that it does not need, and none at all when it is refused for its counts: the memory is
    // there for what it needs, or it is refused. One that did would be stopped by the processor or found out.
    let Built {
        refusal,
        place,
        objects,
    } = unsafe {
        dresserduck_build(
            at.kind,
            kinds,
            at.time,
            times,
            1.0,
            at.built_kind,
            lent[0],
            start,
            lent[1],
            delta,
            lent[2],
            ratio,
            lent[3],
        )
    };
    (refusal, place, objects)
}

/// Neither those of the lent slices nor the raw objects: of these no value is read.
#[test]
fn where_no_object_is_built_no_memory_is_needed() {
    for m in [0, 1, 2] {
        assert_eq!(asked(nowhere(), [m; 2], [0; 4]), (0, 0, 0), "{m}");
    }
}

/// Among them some that are 3 or 0 to arithmetic of 16 or 32 bits.
const TOO_MANY: [usize; 6] = [16_387, 65_539, (1 << 32) + 3, 1 << 32, 1 << 63, usize::MAX];

#[test]
fn counts_beyond_memory_are_refused_by_themselves() {
    for count in TOO_MANY {
        let refused = asked(nowhere(), [count; 2], [count; 4]);
        assert_eq!(refused, (1, 0, 0), "{count} raw objects");
        let refused = asked(nowhere(), [3, count], [1; 4]);
        assert_eq!(refused, (2, 0, 0), "{count} times");
        let refused = asked(nowhere(), [0, count], [0; 4]);
        assert_eq!(refused, (2, 0, 0), "{count} times and no kind");
    }
}

#[test]
fn answer_slices_too_short_are_refused_by_their_counts() {
    for short in 0..4 {
        let mut lent = [2; 4];
        lent[short] = 1;
        assert_eq!(asked(nowhere(), [4; 2], lent), (3, 0, 0), "{lent:?}");
    }
}

/// The low half of a count may be 0: it is long enough, and no place past the needed ones is touched.
#[test]
fn lent_counts_may_be_larger_than_32_bits() {
    for count in [2, 3, 1 << 32, usize::MAX] {
        let (kind, time) = ([9, 9, 1, 0], [f64::NAN, 100.0, 200.0, 400.0]);
        let (mut built_kind, mut floats) = ([99; 3], [[99.0; 3]; 3]);
        let places = Places {
            kind: kind.as_ptr(),
            time: time.as_ptr(),
            built_kind: built_kind.as_mut_ptr(),
            floats: floats.each_mut().map(|slice| slice.as_mut_ptr()),
        };
        assert_eq!(asked(places, [4; 2], [count; 4]), (0, 0, 2), "{count}");
        assert_eq!(built_kind, [1, 0, 99], "{count}");
        let [start, delta, ratio] = floats;
        assert_eq!((start, delta), ([200.0, 400.0, 99.0], [100.0, 200.0, 99.0]));
        assert_eq!(ratio, [1.0, 2.0, 99.0], "{count}");
    }
}
