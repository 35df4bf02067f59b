//! Refusals 4, 5, 6 and 10 at their limits, refusals 2 and 3 by every slice, and the values that are not read.

use crate::{builds, exact, good, refuses};
use host_tests::build::{accepted, refused, Raw};
use host_tests::plain_build;
use host_tests::LARGEST_RAW_CHART;

/// The largest start and the largest delta that are accepted.
const BOUND: f64 = 16_777_216.0;

/// At sizes that build none, one, some and the most objects.
#[test]
fn times_of_another_length_are_refused_2() {
    for m in [0, 1, 2, 3, 9, LARGEST_RAW_CHART] {
        for length in [m + 1, m.saturating_sub(1), 0, m + 2]
            .into_iter()
            .filter(|&x| x != m)
        {
            let mut raw = good(m);
            raw.time.resize(length, 0.0);
            refuses(&raw, 2, 0);
        }
    }
}

#[test]
fn answer_slices_too_short_are_refused_3() {
    for m in [3, 4, 11, LARGEST_RAW_CHART] {
        let raw = good(m);
        for slice in 0..4 {
            for count in [raw.built_size() - 1, 0] {
                let mut sizes = exact(&raw);
                sizes[slice] = count;
                refused(&raw, sizes, 3, 0);
                // room in the others does not help
                let mut roomy = exact(&raw).map(|count| count + 2);
                roomy[slice] = count;
                refused(&raw, roomy, 3, 0);
            }
            let mut longer = exact(&raw);
            longer[slice] += 1;
            accepted(&raw, longer, &plain_build::chart(&raw));
        }
    }
}

/// Also where no object is built.
#[test]
fn rates_from_a_quarter_to_four_are_accepted_and_no_others() {
    for m in [0, 1, 2, 3, 9] {
        let at = |rate: f64| Raw {
            rate,
            time: vec![100.0; m],
            ..good(m)
        };
        for rate in [0.25, 0.25f64.next_up(), 1.0, 4.0f64.next_down(), 4.0] {
            builds(&at(rate));
        }
        for rate in [
            0.25f64.next_down(),
            4.0f64.next_up(),
            0.0,
            -0.0,
            -1.0,
            f64::from_bits(1),
            f64::MAX,
            f64::INFINITY,
            f64::NEG_INFINITY,
            f64::NAN,
            -f64::NAN,
        ] {
            refuses(&at(rate), 10, 0);
        }
    }
}

#[test]
fn kinds_above_2_are_refused_4() {
    for kind in 0..=255 {
        for object in 0..5 {
            let mut raw = good(7);
            raw.kind[object + 2] = kind;
            match kind {
                0..=2 => builds(&raw),
                _ => refuses(&raw, 4, object),
            }
        }
    }
}

/// A time at the bound of each rate, and the next f64 past it. All lie close together, so no delta is large.
#[test]
fn starts_past_their_bound_are_refused_5() {
    for (rate, bound) in [(0.25, 4_194_304.0f64), (1.0, BOUND), (4.0, 67_108_864.0)] {
        for sign in [1.0, -1.0] {
            let mut raw = Raw::of_times(&[sign * bound; 9], rate);
            builds(&raw);
            for far in [bound.next_up(), bound + 1.0, f64::MAX, f64::INFINITY] {
                for object in 0..7 {
                    let place = object + 2;
                    raw.time[place] = sign * far;
                    refuses(&raw, 5, object);
                    raw.time[place] = sign * bound;
                }
            }
        }
    }
}

/// Of a NaN the start is refused first, whichever NaN it is.
#[test]
fn times_that_are_no_numbers_are_refused_5() {
    for bits in [0x7FF8_0000_0000_0000, 0x7FF0_0000_0000_0001, u64::MAX] {
        for object in 0..5 {
            let mut raw = good(7);
            raw.time[object + 2] = f64::from_bits(bits);
            refuses(&raw, 5, object);
        }
    }
}

/// The bound of a step by the rate. Each start is half as far, so it is accepted.
#[test]
fn deltas_past_their_bound_are_refused_6() {
    refuses(&Raw::of_times(&[0.0, -BOUND, BOUND], 1.0), 6, 0);
    refuses(&Raw::of_times(&[0.0, -BOUND, -BOUND, BOUND], 1.0), 6, 1);
    for (rate, bound) in [(0.25, 4_194_304.0f64), (1.0, BOUND), (4.0, 67_108_864.0)] {
        for half in [bound / 2.0, -bound / 2.0] {
            builds(&Raw::of_times(&[0.0, half, half, -half, -half], rate));
            // a difference that is rounded to the bound, and the next f64 past that
            let [rounded, far] = [1.0, 2.0].map(|digits| half * (1.0 + digits * f64::EPSILON));
            builds(&Raw::of_times(&[0.0, half, half, -rounded], rate));
            refuses(&Raw::of_times(&[0.0, half, half, -far], rate), 6, 1);
        }
    }
}

/// A step that is too far, and the object that it leads to.
#[test]
fn every_delta_is_looked_at() {
    for object in 0..30 {
        let mut raw = good(32);
        raw.time[..object + 2]
            .iter_mut()
            .for_each(|time| *time = -*time);
        refuses(&raw, 6, object);
    }
}

#[test]
fn the_first_two_kinds_and_the_first_time_are_not_read() {
    for m in [1, 2, 3, 9] {
        let raw = good(m);
        let want = plain_build::chart(&raw);
        for kind in [2, 3, 255] {
            for time in [f64::NAN, -f64::NAN, f64::INFINITY, f64::MIN, BOUND + 1.0] {
                let mut other = raw.clone();
                other.kind.iter_mut().take(2).for_each(|x| *x = kind);
                other.time[0] = time;
                accepted(&other, exact(&raw), &want);
            }
        }
    }
    // where no object is built the second is not read either
    for time in [f64::NAN, f64::INFINITY, f64::MAX] {
        builds(&Raw {
            kind: vec![9; 2],
            ..Raw::of_times(&[time; 2], 4.0)
        });
    }
}

/// Only the first delta reads it: too far, not finite, and so far that the division by the rate overflows.
#[test]
fn a_bad_second_time_is_refused_6_at_0() {
    for rate in [0.25, 1.0, 4.0] {
        for time in [
            f64::NAN,
            f64::INFINITY,
            f64::NEG_INFINITY,
            f64::MAX,
            f64::MIN,
            5.0 * BOUND,
            -5.0 * BOUND,
        ] {
            let raw = Raw::of_times(&[0.0, time, 100.0, 200.0], rate);
            refuses(&raw, 6, 0);
        }
    }
    let second = |time: f64| Raw::of_times(&[0.0, time, 0.0, 100.0], 1.0);
    builds(&second(BOUND));
    builds(&second(-BOUND));
    refuses(&second(BOUND.next_up()), 6, 0);
    refuses(&second(-BOUND.next_up()), 6, 0);
}
