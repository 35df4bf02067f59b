//! round_ties_even against Rust's f64::round_ties_even, bit for bit.

use numeric_tests::round_ties_even;
use numeric_tests::samples::{neighbours, Xorshift, SPECIAL};

fn check(x: f64) {
    let got = round_ties_even(x);
    if x.is_nan() {
        assert!(got.is_nan(), "{x:?} ({:016x}) gives {got:?}", x.to_bits());
        return;
    }
    let want = x.round_ties_even();
    assert_eq!(
        got.to_bits(),
        want.to_bits(),
        "{x:?} ({:016x}) gives {got:?} instead of {want:?}",
        x.to_bits()
    );
}

fn check_neighbours(x: f64) {
    for y in neighbours(x) {
        check(y);
    }
}

/// Answers written out, so that not all rests on Rust's function.
#[test]
fn known_values() {
    let known = [
        (0.5, 0.0),
        (0.5_f64.next_up(), 1.0),
        (0.5_f64.next_down(), 0.0),
        (1.5, 2.0),
        (2.5, 2.0),
        (3.5, 4.0),
        (0.7, 1.0),
        (2_251_799_813_685_248.5, 2_251_799_813_685_248.0),
        (2_251_799_813_685_249.5, 2_251_799_813_685_250.0),
        (4_503_599_627_370_495.5, 4_503_599_627_370_496.0),
    ];
    for (x, want) in known {
        assert_eq!(round_ties_even(x), want, "{x:?}");
        assert_eq!(round_ties_even(-x).to_bits(), (-want).to_bits(), "{:?}", -x);
    }
}

#[test]
fn special_values() {
    for x in SPECIAL {
        check_neighbours(x);
    }
    check(f64::NAN);
    check(-f64::NAN);
}

#[test]
fn random_bits() {
    let mut random = Xorshift::new(1);
    for _ in 0..1_000_000 {
        check(random.any());
    }
}

/// Most random patterns are whole numbers or far below a half; these exponents have both parts.
#[test]
fn whole_and_fractional_parts() {
    let mut random = Xorshift::new(2);
    for field in 1020..=1076 {
        for _ in 0..10_000 {
            check(random.with_field(field));
        }
    }
}

/// k + 0.5 for k of 0 to 52 binary digits: the largest k that leaves room for the half.
#[test]
fn halves_and_their_neighbours() {
    let mut random = Xorshift::new(3);
    for size in 0..=52 {
        for _ in 0..10_000 {
            let k = random.of_size(size);
            let half = k as f64 + 0.5;
            assert_eq!(half.fract(), 0.5, "{k} + 0.5 is no half");
            check_neighbours(half);
        }
    }
}

/// From 2^52 on every f64 is whole, from 2^53 on every one is even; the method adds 2^52.
#[test]
fn around_the_last_fractions() {
    for power in [51, 52, 53, 54] {
        let centre = (1_u64 << power) as f64;
        for step in 0..10_000 {
            check_neighbours(f64::from_bits(centre.to_bits() + step));
            check_neighbours(f64::from_bits(centre.to_bits() - step));
        }
    }
}

#[test]
fn subnormals() {
    let mut random = Xorshift::new(4);
    for _ in 0..100_000 {
        check(random.with_field(0));
    }
    for size in 0..=52 {
        check_neighbours(f64::from_bits(random.of_size(size)));
    }
}
