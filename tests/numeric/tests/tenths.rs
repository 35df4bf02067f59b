//! tenths against 128-bit integers: the whole number nearest to 10 x, an exact half to the even one, with nothing else rounded.

use std::thread;

use numeric_tests::samples::{neighbours, Xorshift};
use numeric_tests::{plain_tenths, tenths, TENTHS_LIMIT};

/// Checks x, and says whether a rounded product would have given another answer.
fn check(x: f64) -> bool {
    let want = plain_tenths::tenths(x);
    assert_eq!(tenths(x), want, "tenths({x:?}), bits {:016x}", x.to_bits());
    (x * 10.0).round_ties_even() as i64 != want
}

fn check_signs(x: f64) {
    check(x);
    check(-x);
}

#[test]
fn known_values() {
    let known = [
        (0.0, 0),
        // exact halves
        (0.25, 2),
        (0.75, 8),
        (1.25, 12),
        (1.75, 18),
        (2.25, 22),
        // those that a rounded product puts on a half
        (0.05, 1),
        (0.15, 1),
        (0.35, 3),
        (0.45, 5),
        // below 1/16 ten times x may still be above a half
        (0.06, 1),
        (0.05_f64.next_down(), 0),
        (0.031_25, 0),
        (0.1, 1),
        (0.3, 3),
        (0.5, 5),
        (0.95, 9),
        (f64::from_bits(1), 0),
        (f64::MIN_POSITIVE, 0),
        // the last half
        (2_251_799_813_685_248.0 - 0.25, 22_517_998_136_852_478),
        (9_007_199_254_740_991.0, 90_071_992_547_409_910),
    ];
    for (x, want) in known {
        for (x, want) in [(x, want), (-x, -want)] {
            assert_eq!(tenths(x), want, "tenths({x:?})");
            assert_eq!(plain_tenths::tenths(x), want, "the plain version at {x:?}");
        }
    }
}

/// No mean is larger in size: 5 * (2^24 + 1).
const LARGEST_MEAN: u64 = 5 * ((1 << 24) + 1);

/// Every k / 4 that a mean can be, for odd k, where 10 k / 4 lies half-way between whole numbers; and the f64s beside it.
#[test]
fn every_half_in_reach() {
    let last = 4 * LARGEST_MEAN;
    let parts = [1..last / 2, last / 2 + 1..last];
    thread::scope(|scope| {
        for part in parts {
            assert_eq!(part.start % 2, 1, "the first k is even");
            scope.spawn(move || part.step_by(2).for_each(check_half));
        }
    });
}

fn check_half(k: u64) {
    let x = k as f64 / 4.0;
    let below = (5 * k as i64 - 1) / 2;
    let even = below + below % 2;
    for (x, want) in [(x, even), (x.next_down(), below), (x.next_up(), below + 1)] {
        assert_eq!((tenths(x), tenths(-x)), (want, -want), "tenths({x:?})");
    }
}

/// Every exponent below 2^53, so every shift; 1075 is the field of the values from 2^52 on.
#[test]
fn every_exponent() {
    let mut random = Xorshift::new(21);
    for field in 0..=1075 {
        for _ in 0..500 {
            check_signs(random.with_field(field));
        }
    }
}

/// The exponents of the values from 2^-8 to 2^53, where the answer is not always 0.
#[test]
fn usual_sizes() {
    let mut random = Xorshift::new(22);
    for field in 1015..=1075 {
        for _ in 0..20_000 {
            check_signs(random.with_field(field));
        }
    }
}

/// Odd multiples of 1/20, half-way between two tenths, and the f64s beside them. Rounded products go wrong here, and must do so in
/// some of the samples.
#[test]
fn halves_of_a_tenth() {
    let mut random = Xorshift::new(23);
    let mut misrounded = 0_u32;
    for size in 1..=53 {
        for _ in 0..5_000 {
            let half = (random.of_size(size) | 1) as f64 / 20.0;
            for x in neighbours(half) {
                misrounded += u32::from(check(x));
            }
        }
    }
    println!("a rounded product is wrong in {misrounded} samples");
    assert!(misrounded > 0, "a rounded product is right in all samples");
}

#[test]
fn subnormals() {
    let mut random = Xorshift::new(24);
    for _ in 0..100_000 {
        check_signs(random.with_field(0));
    }
    for size in 0..=52 {
        check_signs(f64::from_bits(random.of_size(size)));
    }
}

/// The last values below 2^53, and those around 2^52, below which they have a fractional part.
#[test]
fn around_the_last_fractions() {
    for step in 1..=100_000 {
        check_signs(f64::from_bits(TENTHS_LIMIT.to_bits() - step));
    }
    let centre = TENTHS_LIMIT / 2.0;
    for step in 0..10_000 {
        for x in neighbours(f64::from_bits(centre.to_bits() - step)) {
            check(x);
        }
    }
}
