//! Which refusal goes first: 1, 2, 3, 16, the first object that has one of 4 to 7, then 17, and then the first pair
//! that has 9 or 11.

use host_tests::chart::Chart;
use host_tests::check::bad_charts;
use host_tests::faults::{some_bad, some_bad_settings};
use host_tests::lesson::{answered, exact_sizes, refused, refused_with, Marked, Sizes};
use host_tests::order::{each_alone, every_pair, first_of_many, of_two_objects, Input};
use host_tests::plain_lesson::Pair;
use host_tests::LARGEST_CHART;

use crate::side_by_side;

/// Refusals of an object, in their order, and of a pair.
const OF_OBJECTS: [u64; 4] = [4, 5, 6, 7];
const OF_PAIRS: [u64; 2] = [9, 11];

/// The object that is spoiled, and the pair; neither is 0 nor the other, so that a wrong place shows.
const OBJECT: usize = 3;
const PAIR: usize = 2;

/// How many objects: enough for a lesson of too many stretches, each of them good.
const SIZE: usize = 70;

/// The spoiled pair's stretch begins with the NonHit number 5.
const PAIRS: [Pair; 4] = [(0, 2), (1, 7), (5, 2), (30, 40)];

/// A lesson, and how much the call is lent.
struct Lesson {
    marked: Marked,
    sizes: Sizes,
}

/// Lengths with which its stretch is empty, or ends past the chart: by one, at 2^64 and beside it, and at the most.
const BAD_LENGTHS: [u64; 6] = {
    let offset = PAIRS[PAIR].0;
    let to_end = u64::MAX - offset;
    let past = SIZE as u64 - offset + 1;
    [0, past, to_end, to_end + 1, to_end + 2, u64::MAX]
};

/// 33 pairs, an offset like the one before, one below it, and one so far above it that the next is below.
const WAYS_OF_17: usize = 4;

impl Lesson {
    fn spoil_set(&mut self, way: usize) {
        let Marked { offset, length, .. } = &mut self.marked;
        match way {
            0 => {
                // behind the four pairs, from the last one's second object on, and each with a note
                let more = side_by_side(29, 2);
                offset.extend(more.iter().map(|pair| pair.0 + 31));
                length.extend(more.iter().map(|pair| pair.1));
                self.sizes[1] += more.len();
                self.sizes[2] += more.len();
            }
            1 => offset[3] = offset[2],
            2 => offset[3] = offset[2] - 1,
            _ => offset[0] = u64::MAX,
        }
    }

    /// The chart's lists and the lengths, one fewer and one more.
    fn spoil_count(&mut self, way: usize) {
        let Marked { chart, length, .. } = &mut self.marked;
        let lists = [&mut chart.start, &mut chart.delta, &mut chart.ratio];
        match lists.into_iter().nth(way % 4) {
            Some(list) => list.resize(list.len() + 1 - 2 * (way / 4), 1.0),
            None => length.resize(length.len() + 1 - 2 * (way / 4), 1),
        }
    }
}

impl Input for Lesson {
    const ORDER: &'static [u64] = &[1, 2, 3, 16, 4, 5, 6, 7, 17, 9, 11];

    fn new(too_many: bool) -> Self {
        let n = if too_many { LARGEST_CHART + 1 } else { SIZE };
        Lesson {
            marked: Marked::new(&Chart::of_size(n), &PAIRS),
            sizes: exact_sizes(n, PAIRS.len()),
        }
    }

    fn ways(refusal: u64) -> usize {
        match refusal {
            1 | 11 => 1,
            2 => 8,
            3 => 5,
            16 => some_bad_settings().len(),
            17 => WAYS_OF_17,
            9 => BAD_LENGTHS.len(),
            _ => some_bad(refusal).len(),
        }
    }

    fn spoil(&mut self, refusal: u64, way: usize) {
        let Marked { chart, length, .. } = &mut self.marked;
        match refusal {
            1 => assert!(chart.size() > LARGEST_CHART, "{} objects", chart.size()),
            2 => self.spoil_count(way),
            3 => self.sizes[way] -= 1,
            16 => chart.settings = some_bad_settings()[way],
            17 => self.spoil_set(way),
            9 => length[PAIR] = BAD_LENGTHS[way],
            11 => length[PAIR] = 1,
            _ => some_bad(refusal)[way].put(chart, OBJECT),
        }
    }

    fn refused(&self, refusal: u64) {
        let place = match refusal {
            _ if OF_OBJECTS.contains(&refusal) => OBJECT,
            _ if OF_PAIRS.contains(&refusal) => PAIR,
            _ => 0,
        };
        refused_with(&self.marked, self.sizes, refusal, place);
    }
}

#[test]
fn each_refusal_alone() {
    assert!(answered(&Lesson::new(false).marked).is_ok());
    each_alone::<Lesson>();
}

/// Every pair can apply together: 9 and 11, too, as an empty stretch and one past the chart have no note.
#[test]
fn every_pair_in_order() {
    assert_eq!(every_pair::<Lesson>(), 55, "pairs of eleven");
}

#[test]
fn the_first_of_many() {
    first_of_many::<Lesson>();
}

/// Refused in the last object and in no pair, and in the first pair: what comes before 17 and what behind it.
#[test]
fn a_bad_set_comes_behind_the_last_object_and_before_the_first_pair() {
    let chart = Chart::of_size(SIZE);
    let sets = [
        side_by_side(33, 0),
        side_by_side(33, 1),
        vec![(0, 0), (0, 0)],
        vec![(5, 1), (4, 1)],
        vec![(u64::MAX, u64::MAX), (0, 1)],
    ];
    for pairs in sets {
        let marked = Marked::new(&chart, &pairs);
        refused(&marked, 17, 0);
        for refusal in OF_OBJECTS {
            for value in some_bad(refusal) {
                let mut spoiled = marked.clone();
                value.put(&mut spoiled.chart, SIZE - 1);
                refused(&spoiled, refusal, SIZE - 1);
            }
        }
    }
}

/// All bad charts, and bad ones under bad settings, whatever is marked on them.
#[test]
fn refusals_of_the_chart_come_before_those_of_the_lesson() {
    let lessons: [&[Pair]; 5] = [&[], &[(0, 5)], &[(5, 1)], &[(0, 1), (0, 1)], &[(1, 1); 33]];
    for (number, place, chart) in bad_charts() {
        for pairs in lessons {
            refused(&Marked::new(&chart, pairs), number, place as usize);
        }
    }
}

/// Makes the pair, whose stretch has an object with a note and one without, refused by this number.
fn spoil_pair(marked: &mut Marked, pair: usize, refusal: u64) {
    match refusal {
        9 => marked.length[pair] = 0,
        _ => {
            marked.length[pair] = 1;
            marked.chart.kind[marked.offset[pair] as usize] = 2;
        }
    }
}

/// Two pairs of nine: the earlier one's refusal is told, whatever its number, and its place.
#[test]
fn the_earlier_pair_wins() {
    let pairs: Vec<Pair> = (0..9).map(|pair| (7 * pair, 5)).collect();
    let marked = Marked::new(&Chart::of_size(SIZE), &pairs);
    assert!(answered(&marked).is_ok());
    for [(first, early), (second, late)] in of_two_objects(&OF_PAIRS) {
        let mut marked = marked.clone();
        spoil_pair(&mut marked, late, second);
        spoil_pair(&mut marked, early, first);
        refused(&marked, first, early);
    }
}

/// Every pair, and all behind it.
#[test]
fn faults_in_every_later_pair() {
    let pairs: Vec<Pair> = (0..32).map(|pair| (2 * pair, 6)).collect();
    for early in 0..pairs.len() {
        for refusal in OF_PAIRS {
            for later in OF_PAIRS {
                let mut marked = Marked::new(&Chart::of_size(SIZE), &pairs);
                (early + 1..pairs.len()).for_each(|pair| spoil_pair(&mut marked, pair, later));
                spoil_pair(&mut marked, early, refusal);
                refused(&marked, refusal, early);
            }
        }
    }
}
