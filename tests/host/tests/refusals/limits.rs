//! Refusals 4 to 7: every field on both sides of each limit, in objects first, inside and last.

use crate::{accepted, refused};
use host_tests::chart::Chart;
use host_tests::faults::{bad_values, good_values, Value};
use host_tests::LARGEST_CHART;

/// A chart with one value changed.
fn changed(n: usize, object: usize, value: Value) -> Chart {
    let mut chart = Chart::of_size(n);
    value.put(&mut chart, object);
    chart
}

/// First, inside, last.
fn objects(n: usize) -> [usize; 3] {
    [0, n / 2, n - 1]
}

#[test]
fn values_within_the_limits() {
    for value in good_values() {
        for n in [1, 2, 9] {
            for object in objects(n) {
                accepted(&changed(n, object, value));
            }
        }
    }
}

#[test]
fn values_within_the_limits_everywhere() {
    for value in good_values() {
        let mut chart = Chart::of_size(9);
        (0..9).for_each(|object| value.put(&mut chart, object));
        accepted(&chart);
    }
}

#[test]
fn values_outside_the_limits() {
    for value in bad_values() {
        for n in [1, 2, 9] {
            for object in objects(n) {
                let chart = changed(n, object, value);
                refused(&chart, n, value.refusal(), object);
            }
        }
    }
}

#[test]
fn every_object_is_looked_at() {
    let n = 40;
    for value in [
        Value::Kind(3),
        Value::Start(f64::NAN),
        Value::Delta(2e7),
        Value::Ratio(0.0),
    ] {
        for object in 0..n {
            refused(&changed(n, object, value), n, value.refusal(), object);
        }
    }
}

#[test]
fn largest_chart_at_the_limits() {
    let n = LARGEST_CHART;
    let limit = 16_777_216.0_f64;
    for value in [
        Value::Start(limit),
        Value::Delta(-limit),
        Value::Ratio(limit),
    ] {
        accepted(&changed(n, n - 1, value));
    }
    let beyond = limit.next_up();
    for value in [
        Value::Kind(3),
        Value::Start(-beyond),
        Value::Delta(beyond),
        Value::Ratio(beyond),
    ] {
        for object in objects(n) {
            refused(&changed(n, object, value), n, value.refusal(), object);
        }
    }
}
