//! Which common ratio a quotient of deltas gets: the nearest, the first of two as near, and 1 where the distances tell nothing.

use host_tests::build::{build, Memory, Raw};
use host_tests::plain_build::COMMON_RATIOS;

/// The ratio of the second object, by the two deltas: a step up to zero and one from there, so that no difference is rounded.
#[track_caller]
fn ratio_of(before: f64, delta: f64) -> f64 {
    let raw = Raw::of_times(&[f64::NAN, -before, 0.0, delta], 1.0);
    let mut memory = Memory::of_sizes([2; 4]);
    assert_eq!(build(&raw, &mut memory).refusal, 0, "{raw}");
    assert_eq!(memory.delta.lent(), [before, delta]);
    assert_eq!(memory.ratio.lent()[0], 1.0, "the first object's");
    memory.ratio.lent()[1]
}

/// The same for a quotient that is a whole number of eighths.
#[track_caller]
fn ratio_at(quotient: f64) -> f64 {
    assert_eq!(64.0 * quotient / 64.0, quotient);
    ratio_of(64.0, 64.0 * quotient)
}

/// `quotient` times a delta of 2^-36, which is within the limits up to 2^60.
#[track_caller]
fn far_ratio(quotient: f64) -> f64 {
    let before = 2f64.powi(-36);
    let delta = quotient * before;
    assert_eq!(delta / before, quotient);
    ratio_of(before, delta)
}

#[test]
fn common_quotients_get_themselves() {
    for (ratio, (before, delta)) in COMMON_RATIOS.into_iter().zip([
        (60.0, 60.0),
        (60.0, 120.0),
        (60.0, 30.0),
        (60.0, 180.0),
        (60.0, 20.0),
        (60.0, 90.0),
        (60.0, 40.0),
        (60.0, 75.0),
        (60.0, 48.0),
    ]) {
        assert_eq!(ratio_of(before, delta), ratio, "{before}, {delta}");
        // a hundredth off
        assert_eq!(ratio_of(before, 1.01 * delta), ratio, "{before}, {delta}");
        assert_eq!(
            ratio_of(-before, 0.99 * -delta),
            ratio,
            "-{before}, -{delta}"
        );
    }
}

/// Halfway between two, the one that is tried first; on either side of it the nearer one.
#[test]
fn ties_get_the_ratio_that_is_tried_first() {
    for (quotient, first, below, above) in [
        (1.75, 2.0, 1.5, 2.0),
        (2.5, 2.0, 2.0, 3.0),
        (1.375, 1.5, 1.25, 1.5),
        (1.125, 1.0, 1.0, 1.25),
    ] {
        assert_eq!(ratio_at(quotient), first, "{quotient}");
        let near = [-1.0, 1.0].map(|step| ratio_of(64.0, 64.0 * quotient + step));
        assert_eq!(near, [below, above], "{quotient}");
    }
}

/// The raw steps are ties of 1.75; at rate 1.5 the deltas are rounded, and their quotient lies past it or short of it.
#[test]
fn a_quotient_is_that_of_the_rounded_deltas() {
    for (rate, before, ratio) in [(1.0, 40.0, 2.0), (1.5, 40.0, 1.5), (1.5, 8.0, 2.0)] {
        let raw = Raw::of_times(&[0.0, -before, 0.0, 1.75 * before], rate);
        let mut memory = Memory::of_sizes([2; 4]);
        assert_eq!(build(&raw, &mut memory).refusal, 0);
        assert_eq!(memory.ratio.lent(), [1.0, ratio], "{before} at {rate}");
    }
}

#[test]
fn small_and_negative_quotients() {
    assert_eq!(ratio_of(100.0, 0.0), 1.0 / 3.0);
    assert_eq!(ratio_of(100.0, 1.0), 1.0 / 3.0);
    assert_eq!(ratio_of(100.0, -100.0), 1.0 / 3.0);
    assert_eq!(ratio_of(-100.0, -200.0), 2.0);
    assert_eq!(ratio_of(100.0, 1e6), 3.0);
}

/// So far away that the distances round to a few values, or to one.
#[test]
fn far_quotients_go_by_rounded_distances() {
    let power = |exponent: i32| 2f64.powi(exponent);
    assert_eq!(far_ratio(power(54) + 4.0), 2.0);
    assert_eq!(far_ratio(power(56)), 1.0);
    assert_eq!(far_ratio(power(60)), 1.0);
    assert_eq!(far_ratio(-power(51)), 0.5);
    assert_eq!(far_ratio(-power(53)), 1.0);
    assert_eq!(far_ratio(-(power(53) + 2.0)), 0.5);
    assert_eq!(far_ratio(-power(60)), 1.0);
    assert_eq!(far_ratio(power(50)), 3.0);
}

/// 0/0 and x/0, of both signs, and a quotient that overflows.
#[test]
fn quotients_that_are_not_finite_get_1() {
    for (before, delta) in [
        (0.0, 0.0),
        (0.0, 100.0),
        (0.0, -100.0),
        (f64::from_bits(1), 16_777_216.0),
        (f64::from_bits(1), -16_777_216.0),
    ] {
        assert!(!(delta / before).is_finite());
        assert_eq!(ratio_of(before, delta), 1.0, "{before:e}, {delta}");
    }
}
