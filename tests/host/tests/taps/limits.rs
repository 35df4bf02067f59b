//! Refusals 1 to 3 by every slice, and 4 to 7 and 15 on both sides of each limit, in objects first, inside and last, of
//! which one is a NonHit.

use host_tests::faults::{bad_times, bad_values, good_times, good_values, Value, BOUND, TINY};
use host_tests::taps::{
    accepted, accepted_with, exact_sizes, refused, refused_with, Range, TapChart,
};
use host_tests::{plain_taps, LARGEST_CHART};

/// The object is given this range.
fn with_range(n: usize, object: usize, [low, high]: Range) -> TapChart {
    let mut chart = TapChart::of_size(n);
    chart.low.delta[object] = low;
    chart.highest[object] = high;
    chart
}

/// The one object; then a note first, the NonHit of `of_size`, which is the sixth, and a note last.
const OBJECTS: [(usize, usize); 4] = [(1, 0), (9, 0), (9, 5), (9, 8)];

#[test]
fn charts_of_too_many_objects_are_refused_1() {
    accepted(&TapChart::of_size(LARGEST_CHART));
    // 65,536 is 0 to a u16
    for n in [LARGEST_CHART + 1, 32_768, 65_536, 65_537] {
        refused(&TapChart::of_size(n), 1, 0);
    }
}

/// The slices beside the kinds.
fn lists(chart: &mut TapChart) -> [&mut Vec<f64>; 4] {
    let TapChart { low, highest } = chart;
    [&mut low.start, &mut low.delta, highest, &mut low.ratio]
}

#[test]
fn slices_of_another_length_are_refused_2() {
    for n in [0, 1, 9, LARGEST_CHART] {
        for which in 0..4 {
            for length in [0, n.saturating_sub(1), n + 1, n + 2] {
                let mut chart = TapChart::of_size(n);
                lists(&mut chart)[which].resize(length, 1.0);
                match length == n {
                    true => drop(accepted(&chart)),
                    false => refused(&chart, 2, 0),
                }
            }
        }
        // the lowest and the highest of one length, which is not that of the rest
        let mut chart = TapChart::of_size(n);
        lists(&mut chart)[1..3]
            .iter_mut()
            .for_each(|list| list.push(1.0));
        refused(&chart, 2, 0);
    }
}

/// Kinds one fewer or one more than the rest.
#[test]
fn kinds_of_another_length_are_refused_2() {
    for n in [1, 2, 9, LARGEST_CHART - 1] {
        for length in [n - 1, n + 1] {
            let mut chart = TapChart::of_size(n);
            chart.low.kind.resize(length, 0);
            refused(&chart, 2, 0);
        }
    }
}

#[test]
fn lent_slices_too_short_are_refused_3() {
    for n in [1, 2, 9, LARGEST_CHART] {
        let chart = TapChart::of_size(n);
        let told = plain_taps::told(&chart);
        for slice in 0..4 {
            let least = exact_sizes(n)[slice];
            for count in [least - 1, 0] {
                // room in the others does not help
                for room in [0, 2] {
                    let mut sizes = exact_sizes(n).map(|count| count + room);
                    sizes[slice] = count;
                    refused_with(&chart, sizes, 3, 0);
                }
            }
            let mut longer = exact_sizes(n);
            longer[slice] += 1;
            accepted_with(&chart, longer, &told);
        }
    }
}

#[test]
fn kinds_starts_and_ratios_have_the_limits_of_every_call() {
    for (n, object) in OBJECTS {
        let with = |value: &Value| {
            let mut chart = TapChart::of_size(n);
            value.put(&mut chart.low, object);
            chart
        };
        let of_delta = |value: &&Value| matches!(value, Value::Delta(_));
        for value in good_values().iter().filter(|value| !of_delta(value)) {
            accepted(&with(value));
        }
        for value in bad_values().iter().filter(|value| !of_delta(value)) {
            refused(&with(value), value.refusal(), object);
        }
    }
}

#[test]
fn ends_within_their_limits_are_accepted() {
    for (n, object) in OBJECTS {
        for end in good_times() {
            for range in [[end, end], [-BOUND, end], [end, BOUND]] {
                accepted(&with_range(n, object, range));
            }
        }
    }
}

/// Either end, or both, whichever is the larger; 6 comes before 15.
#[test]
fn ends_that_no_delta_may_be_are_refused_6() {
    for (n, object) in OBJECTS {
        for end in bad_times() {
            for good in [-BOUND, 0.0, BOUND] {
                for range in [[end, good], [good, end], [end, end], [end, -end]] {
                    refused(&with_range(n, object, range), 6, object);
                }
            }
        }
    }
}

#[test]
fn ends_in_the_wrong_order_are_refused_15() {
    for (n, object) in OBJECTS {
        for range in [
            [1.0, 1.0f64.next_down()],
            [TINY, 0.0],
            [TINY, -0.0],
            [0.0, -TINY],
            [-0.0, -TINY],
            [-100.0, -100.5],
            [BOUND, BOUND.next_down()],
            [BOUND, -BOUND],
        ] {
            refused(&with_range(n, object, range), 15, object);
            let [high, low] = range;
            accepted(&with_range(n, object, [low, high]));
        }
        for zeros in [[0.0, -0.0], [-0.0, 0.0]] {
            accepted(&with_range(n, object, zeros));
        }
    }
}

#[test]
fn every_object_is_looked_at() {
    let n = 40;
    for object in 0..n {
        refused(&with_range(n, object, [2.0, 1.0]), 15, object);
        refused(&with_range(n, object, [2.0, f64::NAN]), 6, object);
    }
    let last = LARGEST_CHART - 1;
    refused(&with_range(LARGEST_CHART, last, [2.0, 1.0]), 15, last);
}
