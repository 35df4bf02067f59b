//! Which refusal goes first: 1, 2, 3, 16, and then the first object that has one of 4, 5, 6, 15 and 7, in this order.

use host_tests::faults::{some_bad, some_bad_settings};
use host_tests::order::{each_alone, every_pair, first_of_many, of_two_objects, Input};
use host_tests::taps::{accepted, exact_sizes, refused, refused_with, Sizes, TapChart};
use host_tests::LARGEST_CHART;

/// Refusals of an object, in their order.
const OF_OBJECTS: [u64; 5] = [4, 5, 6, 15, 7];

/// The object that is spoiled, not 0, so that a wrong place shows.
const OBJECT: usize = 3;

/// A chart of ranges, and how much the call is lent.
struct Taps {
    chart: TapChart,
    sizes: Sizes,
}

impl Input for Taps {
    const ORDER: &'static [u64] = &[1, 2, 3, 16, 4, 5, 6, 15, 7];

    fn new(too_many: bool) -> Self {
        let n = if too_many { LARGEST_CHART + 1 } else { 9 };
        Taps {
            chart: TapChart::of_size(n),
            sizes: exact_sizes(n),
        }
    }

    fn ways(refusal: u64) -> usize {
        match refusal {
            1 => 1,
            2 => 8,
            3 => 4,
            16 => some_bad_settings().len(),
            6 => BAD_ENDS.len() * WHICH_ENDS.len(),
            15 => TURNED.len(),
            _ => some_bad(refusal).len(),
        }
    }

    fn spoil(&mut self, refusal: u64, way: usize) {
        let TapChart { low, highest } = &mut self.chart;
        match refusal {
            1 => assert!(low.size() > LARGEST_CHART, "{} objects", low.size()),
            2 => {
                let lists = [&mut low.start, &mut low.delta, highest, &mut low.ratio];
                let list = lists.into_iter().nth(way % 4).expect("one of four");
                let length = list.len() + 1 - 2 * (way / 4);
                list.resize(length, 1.0);
            }
            3 => self.sizes[way] -= 1,
            16 => low.settings = some_bad_settings()[way],
            _ => spoil_object(&mut self.chart, OBJECT, refusal, way),
        }
    }

    fn refused(&self, refusal: u64) {
        let of_object = OF_OBJECTS.contains(&refusal);
        let place = if of_object { OBJECT } else { 0 };
        refused_with(&self.chart, self.sizes, refusal, place);
    }
}

/// Ends that no delta may be.
const BAD_ENDS: [f64; 3] = [16_777_217.0, f64::NEG_INFINITY, f64::NAN];

/// The lowest, the highest, or both.
const WHICH_ENDS: [[bool; 2]; 3] = [[true, false], [false, true], [true, true]];

/// Ends in the wrong order.
const TURNED: [[f64; 2]; 2] = [[1.0, 0.5], [16_777_216.0, -16_777_216.0]];

/// Makes a refusal apply to an object.
fn spoil_object(chart: &mut TapChart, object: usize, refusal: u64, way: usize) {
    let TapChart { low, highest } = chart;
    match refusal {
        6 => {
            let (end, [of_lowest, of_highest]) = (BAD_ENDS[way / 3], WHICH_ENDS[way % 3]);
            if of_lowest {
                low.delta[object] = end;
            }
            if of_highest {
                highest[object] = end;
            }
        }
        15 => [low.delta[object], highest[object]] = TURNED[way],
        _ => some_bad(refusal)[way].put(low, object),
    }
}

#[test]
fn each_refusal_alone() {
    accepted(&Taps::new(false).chart);
    each_alone::<Taps>();
}

#[test]
fn every_pair_in_order() {
    assert_eq!(every_pair::<Taps>(), 36, "pairs of nine");
}

#[test]
fn the_first_of_many() {
    first_of_many::<Taps>();
}

/// Faults in two objects, of which number 5 is a NonHit: the earlier object's is named, whatever its number.
#[test]
fn the_earlier_object_wins() {
    for [(first, early), (second, late)] in of_two_objects(&OF_OBJECTS) {
        let mut chart = TapChart::of_size(9);
        spoil_object(&mut chart, late, second, 0);
        spoil_object(&mut chart, early, first, 0);
        refused(&chart, first, early);
    }
}
