//! The export of libtest_host.a that reads a drill's text, the plain reader beside it, and the texts that the tests try.

pub mod plain;
pub mod samples;
#[path = "../../xorshift.rs"]
mod xorshift;

use plain::{reading, Reading, MOST_OBJECTS};

/// What the library says of an input: 0 and how many objects, 1 if it is too long, or a refusal and its place.
#[repr(C)]
#[derive(Clone, Copy, PartialEq, Eq, Debug)]
struct LettersRead {
    number: u64,
    place: u64,
    objects: u64,
}

mod host {
    use crate::{LettersRead, MOST_OBJECTS};

    extern "C" {
        pub fn letters_read(
            text: *const u8,
            length: usize,
            kinds: *mut [u8; MOST_OBJECTS],
        ) -> LettersRead;
    }
}

/// Reads an input, its line feed included; the objects' kinds are written over the front of `kinds`.
fn read(input: &[u8], kinds: &mut [u8; MOST_OBJECTS]) -> LettersRead {
    // SAFETY: pointer and length are those of a slice, and the kinds are borrowed mutably.
    unsafe { host::letters_read(input.as_ptr(), input.len(), kinds) }
}

/// What stands in `kinds` before a call: no kinds, and not the same everywhere, so that a place written from another shows.
const SENTINELS: [u8; MOST_OBJECTS] = {
    let mut all = [0; MOST_OBJECTS];
    let mut i = 0;
    while i < MOST_OBJECTS {
        all[i] = 100 + (i % 127) as u8;
        i += 1;
    }
    all
};

/// The number, the place and the kinds that the library has for a reading.
fn told(reading: &Reading) -> (u64, u64, &[u8]) {
    match reading {
        Reading::Good(kinds) => (0, 0, kinds),
        Reading::Long => (1, 0, &[]),
        Reading::Refused(number, place) => (*number, *place as u64, &[]),
    }
}

/// The library reads the input so; of `kinds` it writes the objects' places alone, and none where it refuses.
#[track_caller]
pub fn check(input: &[u8], want: &Reading) {
    let mut kinds = SENTINELS;
    let said = read(input, &mut kinds);
    let (number, place, objects) = told(want);
    let want = LettersRead {
        number,
        place,
        objects: objects.len() as u64,
    };
    let shown = || String::from_utf8_lossy(input);
    assert_eq!(said, want, "{:?}", shown());
    let (front, rest) = kinds.split_at(objects.len());
    assert_eq!(front, objects, "kinds of {:?}", shown());
    assert_eq!(rest, &SENTINELS[objects.len()..], "after {:?}", shown());
}

/// What the input is, by the library and the plain reader alike.
#[track_caller]
pub fn agreed(input: &[u8]) -> Reading {
    let want = reading(input);
    check(input, &want);
    want
}
