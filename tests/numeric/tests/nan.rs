//! canonical and bits: every NaN becomes the one with the bits 7FF8000000000000, all else keeps its bits.
//! The proof knows one NaN only, so that its bits are right on the machine is tested here.

use numeric_tests::samples::{neighbours, Xorshift, SPECIAL};
use numeric_tests::{bits, canonical, CANONICAL_NAN};

const INFINITY_BITS: u64 = 0x7FF0_0000_0000_0000;
const QUIET_BIT: u64 = 1 << 51;
const SIGN_BIT: u64 = 1 << 63;

fn check(pattern: u64) {
    let x = f64::from_bits(pattern);
    let want = if x.is_nan() { CANONICAL_NAN } else { pattern };
    assert_eq!(canonical(x).to_bits(), want, "canonical of {pattern:016x}");
    assert_eq!(bits(x), want, "bits of {pattern:016x}");
}

/// Quiet and signalling, with both signs; the payload is not 0 and leaves the quiet bit free.
fn check_nans(payload: u64) {
    assert!(payload > 0 && payload < QUIET_BIT, "payload {payload:x}");
    for quiet in [0, QUIET_BIT] {
        for sign in [0, SIGN_BIT] {
            let pattern = sign | INFINITY_BITS | quiet | payload;
            assert!(f64::from_bits(pattern).is_nan(), "{pattern:016x} is no NaN");
            check(pattern);
        }
    }
}

#[test]
fn nans_of_random_payloads() {
    let mut random = Xorshift::new(31);
    for size in 1..=51 {
        for _ in 0..5_000 {
            check_nans(random.of_size(size));
        }
    }
}

#[test]
fn nans_of_single_bits() {
    for place in 0..51 {
        check_nans(1 << place);
        check_nans((QUIET_BIT - 1) ^ (1 << place));
    }
    check_nans(QUIET_BIT - 1);
    // the quiet bit alone: the canonical NaN itself, and its negation
    check(CANONICAL_NAN);
    check(CANONICAL_NAN | SIGN_BIT);
}

#[test]
fn nans_that_operations_make() {
    let zero = std::hint::black_box(0.0_f64);
    let infinity = std::hint::black_box(f64::INFINITY);
    let quotients = [zero / zero, infinity / infinity];
    for nan in quotients.into_iter().chain([infinity - infinity]) {
        assert!(nan.is_nan(), "{nan:?} is no NaN");
        check(nan.to_bits());
        check((-nan).to_bits());
    }
}

#[test]
fn random_bits() {
    let mut random = Xorshift::new(32);
    for _ in 0..1_000_000 {
        check(random.bits());
    }
}

#[test]
fn numbers_keep_their_bits() {
    for x in SPECIAL {
        for y in neighbours(x) {
            check(y.to_bits());
        }
    }
    let mut random = Xorshift::new(33);
    for field in 0..=2046 {
        for _ in 0..100 {
            check(random.with_field(field).to_bits());
        }
    }
}
