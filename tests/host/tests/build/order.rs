//! Which refusal goes first: 1, 2, 3, 10, and then the first object that has one of 4, 5 and 6.

use crate::{builds, exact, good};
use host_tests::build::{refused, Raw};
use host_tests::order::{each_alone, every_pair, first_of_many, of_two_objects, Input};
use host_tests::LARGEST_RAW_CHART;

/// Refusals of an object of the chart.
const OF_OBJECTS: [u64; 3] = [4, 5, 6];

/// The object that is spoiled, not 0, so that a wrong place shows.
const OBJECT: usize = 3;

/// Raw objects, and how much the call is lent.
struct Build {
    raw: Raw,
    sizes: [usize; 4],
}

impl Input for Build {
    const ORDER: &'static [u64] = &[1, 2, 3, 10, 4, 5, 6];

    fn new(too_many: bool) -> Self {
        let raw = good(if too_many { LARGEST_RAW_CHART + 1 } else { 11 });
        let sizes = exact(&raw);
        Build { raw, sizes }
    }

    fn ways(refusal: u64) -> usize {
        match refusal {
            1 => 1,
            2 | 6 => 2,
            3 => 4,
            10 => 5,
            _ => 3,
        }
    }

    fn spoil(&mut self, refusal: u64, way: usize) {
        let raw = &mut self.raw;
        match refusal {
            1 => assert!(raw.kind.len() > LARGEST_RAW_CHART),
            2 => {
                let length = [raw.time.len() - 1, raw.time.len() + 1][way];
                raw.time.resize(length, 0.0);
            }
            3 => self.sizes[way] -= 1,
            10 => raw.rate = [0.0, f64::NAN, 4.5, -1.0, f64::INFINITY][way],
            _ => spoil_object(raw, OBJECT, refusal, way),
        }
    }

    fn refused(&self, refusal: u64) {
        let place = if OF_OBJECTS.contains(&refusal) {
            OBJECT
        } else {
            0
        };
        refused(&self.raw, self.sizes, refusal, place);
    }
}

/// Makes 4, 5 or 6 apply to an object of the chart, and to none before it. The times of `good` are far from zero: where those
/// before the object change sign, or those from it on, the step to it is too far, and every start is as far as it was.
fn spoil_object(raw: &mut Raw, object: usize, refusal: u64, way: usize) {
    let at = object + 2;
    let (before, after) = raw.time.split_at_mut(at);
    match (refusal, way) {
        (4, _) => raw.kind[at] = [3, 4, 255][way],
        (5, _) => after[0] = [16_777_217.0, -16_777_217.0, f64::NAN][way],
        (_, 0) => before.iter_mut().for_each(|time| *time = -*time),
        _ => after.iter_mut().for_each(|time| *time = -*time),
    }
}

#[test]
fn each_refusal_alone() {
    builds(&Build::new(false).raw);
    each_alone::<Build>();
}

#[test]
fn every_pair_in_order() {
    assert_eq!(every_pair::<Build>(), 21, "pairs of seven");
}

#[test]
fn the_first_of_many() {
    first_of_many::<Build>();
}

/// Faults in two objects: the earlier object's is named, whatever its number.
#[test]
fn the_earlier_object_wins() {
    for [(first, early), (second, late)] in of_two_objects(&OF_OBJECTS) {
        let mut raw = good(11);
        spoil_object(&mut raw, late, second, 0);
        spoil_object(&mut raw, early, first, 0);
        refused(&raw, exact(&raw), first, early);
    }
}
