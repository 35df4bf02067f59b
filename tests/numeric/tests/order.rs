//! total_order and near against Rust's own operations.

use numeric_tests::samples::{neighbours, Xorshift, SPECIAL};
use numeric_tests::{near, total_order};

fn check_order(a: f64, b: f64) {
    let want = a.total_cmp(&b).is_le();
    assert_eq!(total_order(a, b), want, "total_order({a:?}, {b:?})");
}

fn check_near(a: f64, b: f64, margin: f64) -> bool {
    let want = (a - b).abs() <= margin;
    assert_eq!(near(a, b, margin), want, "near({a:?}, {b:?}, {margin:?})");
    want
}

#[test]
fn order_of_special_values() {
    for a in SPECIAL {
        for b in SPECIAL {
            check_order(a, b);
        }
    }
    assert!(total_order(-0.0, 0.0), "-0.0 comes before 0.0");
    assert!(!total_order(0.0, -0.0), "0.0 comes after -0.0");
}

#[test]
fn order_of_random_values() {
    let mut random = Xorshift::new(11);
    for _ in 0..500_000 {
        let (a, b) = (random.number(), random.number());
        check_order(a, b);
        check_order(b, a);
        check_order(a, a);
    }
}

/// A value with itself, its neighbours and their negations, both ways round.
#[test]
fn order_of_neighbours() {
    let mut random = Xorshift::new(12);
    for i in 0..100_000 {
        let field = i % 2047;
        let a = random.with_field(field);
        for b in neighbours(a) {
            check_order(a, b);
            check_order(b, a);
        }
    }
}

#[test]
fn order_leaves_nan_out() {
    for x in SPECIAL.into_iter().chain([f64::NAN]) {
        for nan in [f64::NAN, -f64::NAN] {
            assert!(!total_order(x, nan), "total_order({x:?}, {nan:?})");
            assert!(!total_order(nan, x), "total_order({nan:?}, {x:?})");
        }
    }
}

/// The difference is rounded before it is compared: 8.3 - 3.3 is above 5.0, though 3.3 + 5.0 is 8.3.
#[test]
fn near_at_the_known_margin() {
    let known = [
        (8.3, 3.3, false),
        (8.0, 3.0, true),
        (8.0_f64.next_up(), 3.0, false),
        (-2.5, 2.5, true),
        // the exact distance is above 5.0, the rounded one is 5.0
        (5.0, -f64::MIN_POSITIVE, true),
    ];
    for (a, b, want) in known {
        assert_eq!(near(a, b, 5.0), want, "near({a:?}, {b:?}, 5.0)");
        assert_eq!(near(b, a, 5.0), want, "near({b:?}, {a:?}, 5.0)");
    }
}

#[test]
fn near_of_special_values() {
    let values = SPECIAL.into_iter().chain([f64::NAN, 5.0, -5.0]);
    for a in values.clone() {
        for b in values.clone() {
            for margin in values.clone() {
                check_near(a, b, margin);
            }
        }
    }
    let infinity = f64::INFINITY;
    assert!(!near(infinity, infinity, infinity), "inf - inf is a NaN");
    assert!(near(infinity, 0.0, infinity), "inf is at most inf");
}

#[test]
fn near_of_random_values() {
    let mut random = Xorshift::new(13);
    for _ in 0..500_000 {
        check_near(random.any(), random.any(), random.any());
    }
}

/// b lies a margin away from a, or one f64 nearer or farther. Each answer must come up often.
#[test]
fn near_beside_the_margin() {
    let mut random = Xorshift::new(14);
    let mut counts = [0_u32; 2];
    for i in 0..200_000 {
        let a = random.with_field(1014 + i % 20);
        let margin = if i % 2 == 0 {
            5.0
        } else {
            random.with_field(1014 + i % 18).abs()
        };
        for end in [a + margin, a - margin] {
            for b in [end, end.next_up(), end.next_down()] {
                counts[usize::from(check_near(a, b, margin))] += 1;
            }
        }
    }
    let often = counts.iter().all(|&count| count > 300_000);
    assert!(often, "false and true: {counts:?}");
}
