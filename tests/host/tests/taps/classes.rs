//! The class of two ranges: narrow ones by every choice of deltas, around each margin and at the bounds, wide ones by
//! the deltas that decide; and the request's traps at the default margin, by name.

use crate::known;
use dresserduck::Settings;
use host_tests::faults::{BOUND, LARGEST_SUBNORMAL, TINY};
use host_tests::plain_rhythm::near;
use host_tests::plain_taps::{class_of_deltas, rise, NEAR, NEITHER, OPEN, RISE};
use host_tests::taps::{accepted, Range, TapChart};

const MARGIN: f64 = Settings::DEFAULT.margin;
/// With it some that are smaller and larger.
const MARGINS: [f64; 5] = [0.0, TINY, MARGIN, 8.5, 50.0];

/// What the call tells of two notes under this margin, and the plain version too; of two, no pair is looked at.
#[track_caller]
fn told_under(margin: f64, a: Range, b: Range) -> u8 {
    let chart = TapChart::of_ranges(&[a, b]);
    let told = accepted(&chart.under(Settings::DEFAULT.with_margin(margin)));
    let groups = told.groups.map(|groups| groups.of_object);
    assert_eq!(groups, Some(vec![0, 1]), "{a:?} and {b:?}");
    told.pair[0]
}

/// The same under the default margin.
#[track_caller]
fn told(a: Range, b: Range) -> u8 {
    told_under(MARGIN, a, b)
}

/// The class that any two of these deltas have, if it is one.
fn common(margin: f64, a: &[f64], b: &[f64]) -> u8 {
    let first = class_of_deltas(a[0], b[0], margin);
    let same = |&x: &f64| b.iter().all(|&y| class_of_deltas(x, y, margin) == first);
    if a.iter().all(same) {
        first
    } else {
        OPEN
    }
}

/// So many f64s further.
fn stepped(x: f64, steps: i32) -> f64 {
    let next = if steps < 0 {
        f64::next_down
    } else {
        f64::next_up
    };
    (0..steps.abs()).fold(x, |x, _| next(x))
}

/// Every f64 from the lowest to the highest, among them both zeros.
fn all_inside([low, high]: Range) -> Vec<f64> {
    let mut all = vec![low];
    let mut x = low;
    while x < high {
        x = x.next_up();
        all.push(x);
    }
    if low <= 0.0 && high >= 0.0 {
        all.extend([0.0, -0.0]);
    }
    all
}

fn is_accepted(range: &Range) -> bool {
    range.iter().all(|end| end.abs() <= BOUND)
}

/// Ranges of up to five f64s that begin up to three away from this one.
fn narrow(around: f64) -> Vec<Range> {
    let mut all = Vec::new();
    for from in -3..=3 {
        let low = stepped(around, from);
        all.extend((0..=4).map(|steps| [low, stepped(low, steps)]));
    }
    all.retain(is_accepted);
    all
}

/// 4 + 3/2^50, and the least f64 that is neither near it nor a rise: the sum is rounded up to it.
fn above_and_neither() -> [f64; 2] {
    [4.0 + 3.0 * 2f64.powi(-50), 9.0 + 2f64.powi(-48)]
}

/// 1/2^51, and an f64 that is near, as the difference is rounded, and a rise, as the sum is.
fn near_and_rise() -> [f64; 2] {
    [2f64.powi(-51), 5.0 + 2f64.powi(-50)]
}

/// Two deltas about the margin apart.
fn centres(margin: f64) -> Vec<[f64; 2]> {
    let half = margin / 2.0;
    let mut all = vec![
        above_and_neither(),
        near_and_rise(),
        [half, -half],
        [100.0, 100.0],
        [0.0, 1000.0],
    ];
    let firsts = [
        0.0,
        -0.0,
        TINY,
        -TINY,
        LARGEST_SUBNORMAL,
        -f64::MIN_POSITIVE,
        -margin,
        3.0,
        8.0 - margin,
        100.1,
        128.0 - margin,
        BOUND - margin,
        -BOUND,
    ];
    all.extend(firsts.map(|x| [x, x + margin]));
    all
}

/// How often each class was told.
type Counts = [usize; 4];

/// Where the margin is so small fewer pairs are near.
fn least(margin: f64, count: usize) -> usize {
    if margin > TINY {
        count
    } else {
        count / 20
    }
}

/// Two ranges, and the choices of a delta in each that decide their class.
struct Choices {
    ranges: [Range; 2],
    deltas: [Vec<f64>; 2],
}

/// Both ways round.
#[track_caller]
fn check(margin: f64, choices: &Choices, counts: &mut Counts) {
    for (one, other) in [(0, 1), (1, 0)] {
        let [a, b] = [one, other].map(|k| choices.ranges[k]);
        let want = common(margin, &choices.deltas[one], &choices.deltas[other]);
        assert_eq!(
            told_under(margin, a, b),
            want,
            "{a:?} and {b:?}, {margin:e}"
        );
        counts[usize::from(want)] += 1;
    }
}

/// Each range of the one list with each of the other.
fn each_two(ones: &[Range], others: &[Range]) -> Vec<[Range; 2]> {
    let with = |&one: &Range| others.iter().map(move |&other| [one, other]);
    ones.iter().flat_map(with).collect()
}

#[test]
fn narrow_ranges_have_the_class_that_every_choice_has() {
    for margin in MARGINS {
        let mut counts = Counts::default();
        let about = centres(margin).into_iter();
        for ranges in about.flat_map(|[x, y]| each_two(&narrow(x), &narrow(y))) {
            let deltas = ranges.map(all_inside);
            check(margin, &Choices { ranges, deltas }, &mut counts);
        }
        let often = counts.iter().all(|&count| count > least(margin, 3_000));
        assert!(often, "{margin:e}: {counts:?}");
    }
}

/// The ends of a range, and what lies in it near an end of the other one and near those a margin away.
fn deciding(margin: f64, [low, high]: Range, other: Range) -> Vec<f64> {
    let marks = other
        .iter()
        .flat_map(|&end| [end - margin, end, end + margin]);
    let around = marks.flat_map(|mark| (-4..=4).map(move |steps| stepped(mark, steps)));
    let inside = around.filter(|&x| low <= x && x <= high);
    [low, high].into_iter().chain(inside).collect()
}

/// Ranges of which one end is this or beside it.
fn wide(around: f64) -> Vec<Range> {
    let mut all = Vec::new();
    for end in [around.next_down(), around, around.next_up()] {
        all.push([end, end]);
        for width in [2.5, 10.0, 200.0] {
            all.extend([[end, end + width], [end - width, end]]);
        }
    }
    all.retain(is_accepted);
    all
}

#[test]
fn wide_ranges_have_the_class_that_the_deciding_choices_have() {
    for margin in MARGINS {
        let mut counts = Counts::default();
        let about = centres(margin).into_iter();
        for ranges in about.flat_map(|[x, y]| each_two(&wide(x), &wide(y))) {
            let [a, b] = ranges;
            let deltas = [deciding(margin, a, b), deciding(margin, b, a)];
            check(margin, &Choices { ranges, deltas }, &mut counts);
        }
        let often = counts.iter().all(|&count| count > least(margin, 300));
        assert!(often, "{margin:e}: {counts:?}");
    }
}

#[test]
fn where_near_and_a_rise_both_hold_it_is_near() {
    let [a, b] = near_and_rise();
    assert!(near(a, b, MARGIN) && rise(a, b, MARGIN), "both hold");
    assert_eq!(told(known(a), known(b)), NEAR);
    // the next pairs that are one of the two
    assert_eq!(told(known(a), known(b.next_up())), RISE);
    assert_eq!(told([a, 5.0], [5.0, b]), NEAR);
}

#[test]
fn one_that_is_above_may_be_neither_near_nor_a_rise() {
    let [a, b] = above_and_neither();
    let neither = !near(a, b, MARGIN) && !rise(a, b, MARGIN);
    assert!(b > a && neither, "neither holds");
    assert_eq!(told(known(a), known(b)), NEITHER);
    assert_eq!(told(known(a), known(b.next_down())), NEAR);
    assert_eq!(told(known(a), known(b.next_up())), RISE);
    assert_eq!(told(known(a), [b, b.next_up()]), OPEN);
    assert_eq!(told(known(a), [b.next_down(), b]), OPEN);
    assert_eq!(told(known(b), known(a)), NEITHER);
}

/// Where the ends are neither near nor a rise, from above and from below, what lies between them may be near.
#[test]
fn corners_of_one_class_are_not_enough() {
    let [a, b] = above_and_neither();
    assert_eq!(
        [a, 20.0].map(|x| class_of_deltas(x, b, MARGIN)),
        [NEITHER; 2]
    );
    assert_eq!(class_of_deltas(b, b, MARGIN), NEAR);
    assert_eq!(told([a, 20.0], known(b)), OPEN);
    assert_eq!(told(known(b), [a, 20.0]), OPEN);
    // the range of the other side of each
    assert_eq!(told([15.0, 20.0], known(b)), NEITHER);
}

#[test]
fn at_the_margin_itself_they_are_near() {
    for x in [0.0, -0.0, -5.0, 100.0, BOUND - MARGIN, -BOUND] {
        let at = x + MARGIN;
        for [a, b] in [[x, at], [at, x]] {
            assert_eq!(told(known(a), known(b)), NEAR, "{a:e}, {b:e}");
        }
        if at < BOUND {
            let beyond = (at + 1e-8).min(BOUND);
            assert_eq!(told(known(x), known(beyond)), RISE, "{x:e}");
            assert_eq!(told(known(beyond), known(x)), NEITHER, "{x:e}");
            assert_eq!(told(known(x), [at, beyond]), OPEN, "{x:e}");
        }
    }
}

#[test]
fn both_zeros_are_one_delta() {
    let zeros = [[0.0, 0.0], [-0.0, -0.0], [0.0, -0.0], [-0.0, 0.0]];
    for zero in zeros {
        for other in zeros {
            assert_eq!(told(zero, other), NEAR, "{zero:?} and {other:?}");
        }
        assert_eq!(told(zero, known(5.0)), NEAR);
        assert_eq!(told(zero, known(5.0f64.next_up())), RISE);
        assert_eq!(told(zero, known(-5.0f64.next_up())), NEITHER);
        assert_eq!(told(zero, [5.0, 5.0f64.next_up()]), OPEN);
    }
}
