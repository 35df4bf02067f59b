//! Which refusal goes first: of the whole chart 1 to 3, then 16, and then the first object that has one of 4 to 7.

use crate::{accepted, refused, Encode, Lesson, OnChart, Turns};
use host_tests::chart::Chart;
use host_tests::faults::{some_bad, some_bad_settings};
use host_tests::order::{each_alone, every_pair, first_of_many, of_two_objects, Input};
use host_tests::LARGEST_CHART;

/// Refusals of an object, in their order.
const OF_OBJECTS: [u64; 4] = [4, 5, 6, 7];

/// The object that is spoiled, not 0, so that a wrong place shows.
const OBJECT: usize = 3;

/// A chart for the call, and how much it is lent.
struct Lent<C: OnChart> {
    chart: Chart,
    sizes: C::Sizes,
}

impl<C: OnChart> Input for Lent<C> {
    const ORDER: &'static [u64] = &[1, 2, 3, 16, 4, 5, 6, 7];

    fn new(too_many: bool) -> Self {
        let n = if too_many { LARGEST_CHART + 1 } else { 9 };
        Lent {
            chart: Chart::of_size(n),
            sizes: C::exact(n),
        }
    }

    fn ways(refusal: u64) -> usize {
        match refusal {
            1 => 1,
            2 => 6,
            3 => C::exact(0).as_mut().len(),
            16 => some_bad_settings().len(),
            _ => some_bad(refusal).len(),
        }
    }

    fn spoil(&mut self, refusal: u64, way: usize) {
        let chart = &mut self.chart;
        match refusal {
            1 => assert!(chart.size() > LARGEST_CHART, "{} objects", chart.size()),
            2 => {
                let list = [&mut chart.start, &mut chart.delta, &mut chart.ratio]
                    .into_iter()
                    .nth(way % 3);
                let list = list.expect("one of three");
                let length = if way < 3 {
                    list.len() - 1
                } else {
                    list.len() + 1
                };
                list.resize(length, 1.0);
            }
            3 => self.sizes.as_mut()[way] -= 1,
            16 => chart.settings = some_bad_settings()[way],
            _ => some_bad(refusal)[way].put(chart, OBJECT),
        }
    }

    fn refused(&self, refusal: u64) {
        let of_object = OF_OBJECTS.contains(&refusal);
        let place = if of_object { OBJECT } else { 0 };
        C::refused(&self.chart, self.sizes, refusal, place);
    }
}

#[test]
fn each_refusal_alone() {
    accepted(&Lent::<Turns>::new(false).chart);
    each_alone::<Lent<Encode>>();
    each_alone::<Lent<Turns>>();
    each_alone::<Lent<Lesson>>();
}

/// Every pair can apply together, as the object refusals read different fields of one object.
#[test]
fn every_pair_in_order() {
    let pairs = [
        every_pair::<Lent<Encode>>(),
        every_pair::<Lent<Turns>>(),
        every_pair::<Lent<Lesson>>(),
    ];
    assert_eq!(pairs, [28; 3], "pairs of eight");
}

#[test]
fn the_first_of_many() {
    first_of_many::<Lent<Encode>>();
    first_of_many::<Lent<Turns>>();
    first_of_many::<Lent<Lesson>>();
}

/// Faults in two objects: the earlier object's is named, whatever its number.
#[test]
fn the_earlier_object_wins() {
    for [(first, early), (second, late)] in of_two_objects(&OF_OBJECTS) {
        let mut chart = Chart::of_size(9);
        some_bad(second)[1].put(&mut chart, late);
        some_bad(first)[0].put(&mut chart, early);
        refused(&chart, 9, first, early);
    }
}

/// Faults in every object, and in all but the first few.
#[test]
fn faults_in_every_later_object() {
    let n = 9;
    for early in 0..n {
        for refusal in OF_OBJECTS {
            let mut chart = Chart::of_size(n);
            some_bad(refusal)[0].put(&mut chart, early);
            for late in early + 1..n {
                OF_OBJECTS
                    .iter()
                    .for_each(|&number| some_bad(number)[0].put(&mut chart, late));
            }
            refused(&chart, n, refusal, early);
        }
    }
}
