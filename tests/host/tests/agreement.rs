//! Two charts with a common tail agree from the colour landmarks of the scope on: demand 3 through the calls, under one set of settings.

use std::collections::BTreeSet;

use host_tests::chart::Chart;
use host_tests::colour::{stretch, Memory, Stretched};
use host_tests::heard::{heard, Heard};
use host_tests::landmark::colour_landmarks;
use host_tests::lesson::{exact_sizes, lesson, Lessoned, Marked, Memory as LessonMemory};
use host_tests::pairs::{random_pair, Pair};
use host_tests::samples::Xorshift;

use dresserduck::Settings;

/// How many pairs are asked under the default, and under each other set.
const PAIRS: [usize; 2] = [4_000, 1_000];

/// The default, and sets with other search limits, and with tolerances under which other ratios are alike.
fn sets() -> [Settings; 6] {
    let with = |search_limit, tolerance| {
        let limited = Settings::DEFAULT.with_search_limit(search_limit);
        limited.with_tolerance(tolerance)
    };
    [
        Settings::DEFAULT,
        with(2, 0.0),
        with(3, 0.01),
        with(15, 0.2),
        with(17, 1.0),
        with(64, 0.5),
    ]
}

/// The landmarks by their distance from the tail's first object; both charts must show the same ones.
fn landmarks(pair: &Pair) -> Vec<usize> {
    let [a, b] = pair.charts.each_ref().map(|chart| {
        let before = chart.size() - pair.tail;
        let found = colour_landmarks(chart, before).into_iter();
        found.map(|at| at - before).collect::<Vec<usize>>()
    });
    assert_eq!(a, b, "landmarks of {pair}");
    a
}

fn check_hit_patterns(pair: &Pair, [a, b]: &[Heard; 2], landmark: usize) {
    for object in landmark..pair.tail {
        let (x, y) = (a.opens[object], b.opens[object]);
        assert_eq!(x, y, "opens at {object} after {landmark} of {pair}");
        if x {
            let (x, y) = (&a.holds[object], &b.holds[object]);
            assert_eq!(x, y, "held at {object} after {landmark} of {pair}");
        }
    }
}

/// Which hit pattern after the landmark is the first of which all is settled: by default the sixteenth.
fn number_of_first(pair: &Pair) -> usize {
    pair.charts[0].settings.search_limit as usize
}

/// The first objects of the hit patterns that open after the landmark.
fn opened(heard: &Heard, landmark: usize) -> impl Iterator<Item = usize> + '_ {
    (landmark..heard.opens.len()).filter(|&object| heard.opens[object])
}

/// Its first object.
fn settled(pair: &Pair, heard: &Heard, landmark: usize) -> Option<usize> {
    opened(heard, landmark).nth(number_of_first(pair) - 1)
}

fn check_values(pair: &Pair, [a, b]: &[Heard; 2], from: usize) {
    for object in from..pair.tail {
        let (x, y) = (a.interval[object], b.interval[object]);
        assert_eq!(x, y, "interval at {object}, from {from} of {pair}");
        let (x, y) = (a.value[object], b.value[object]);
        assert_eq!(x, y, "value at {object}, from {from} of {pair}");
    }
}

/// The stretch from tail object a to b, b not included. It is accepted if it has a note.
fn stretched(chart: &Chart, tail: usize, [a, b]: [usize; 2]) -> Stretched {
    let n = chart.size();
    let before = n - tail;
    let (a, b) = (before + a, before + b);
    let got = stretch(chart, a, b, &mut Memory::of_sizes([n, 8 * n, n]));
    let noted = chart.kind[a..b].iter().any(|&kind| kind < 2);
    let refusal = if noted { 0 } else { 11 };
    let refused = (got.refusal, got.place);
    assert_eq!(refused, (refusal, 0), "{a}..{b} of {chart}");
    got
}

/// Whether the stretch has a note.
fn check_stretch(pair: &Pair, bounds: [usize; 2]) -> bool {
    let charts = pair.charts.each_ref();
    let [x, y] = charts.map(|chart| stretched(chart, pair.tail, bounds));
    let shown = |s: Stretched| (s.mean.to_bits(), s.tenths);
    assert_eq!(
        shown(x),
        shown(y),
        "stretch {bounds:?} in the tail of {pair}"
    );
    x.refusal == 0
}

/// Up to 32 stretches from this tail object on, each by its first object and the one behind its last.
fn drawn_lesson(random: &mut Xorshift, from: usize, tail: usize) -> Vec<[usize; 2]> {
    let draws = random.between(2, 32);
    let firsts: BTreeSet<usize> = (0..draws).map(|_| random.between(from, tail - 1)).collect();
    let bounds = |a| [a, random.between(a + 1, tail)];
    firsts.into_iter().map(bounds).collect()
}

/// What the call lesson answers of these stretches in the tail, and the bits of every mean and the tenths as they
/// then stand.
fn taught(chart: &Chart, tail: usize, stretches: &[[usize; 2]]) -> (Lessoned, [Vec<u64>; 2]) {
    let (n, count) = (chart.size(), stretches.len());
    let before = (n - tail) as u64;
    let pair = |&[a, b]: &[usize; 2]| (before + a as u64, (b - a) as u64);
    let marked = Marked::new(chart, &stretches.iter().map(pair).collect::<Vec<_>>());
    let mut memory = LessonMemory::of_sizes(exact_sizes(n, count), n, count);
    let got = lesson(&marked, &mut memory);
    (got, [memory.mean.bits(), memory.tenths.bits()])
}

/// Whether the lesson is accepted, as it is where each stretch has a note, and has several.
fn check_lesson(pair: &Pair, stretches: &[[usize; 2]]) -> bool {
    let charts = pair.charts.each_ref();
    let [x, y] = charts.map(|chart| taught(chart, pair.tail, stretches));
    assert_eq!(x, y, "lesson {stretches:?} in the tail of {pair}");
    let chart = &pair.charts[0];
    let in_tail = &chart.kind[chart.size() - pair.tail..];
    let silent = |&[a, b]: &[usize; 2]| in_tail[a..b].iter().all(|&kind| kind == 2);
    let first = stretches.iter().position(silent);
    let want = first.map_or((0, 0), |first| (11, first as u64));
    assert_eq!((x.0.refusal, x.0.place), want, "{stretches:?} of {chart}");
    first.is_none() && stretches.len() > 1
}

/// How often the pairs had something to say; no claim may be an empty one.
#[derive(Debug, Default)]
struct Counts {
    landmark: usize,
    settled: usize,
    stretches: usize,
    // lessons of two stretches or more that are accepted
    lessons: usize,
    // pairs whose openings tell: hit patterns differ before the first landmark, intervals behind it
    other_openings: usize,
    other_intervals: usize,
}

fn check_pair(random: &mut Xorshift, pair: &Pair, counts: &mut Counts) {
    let marks = landmarks(pair);
    let Some(&first) = marks.first() else {
        return;
    };
    let both = pair.charts.each_ref().map(|chart| heard(chart, pair.tail));
    counts.landmark += 1;
    counts.other_openings += usize::from(both[0].opens[..first] != both[1].opens[..first]);
    let after = both.each_ref().map(|heard| &heard.interval[first..]);
    counts.other_intervals += usize::from(after[0] != after[1]);
    counts.settled += usize::from(settled(pair, &both[0], first).is_some());
    for landmark in marks {
        check_hit_patterns(pair, &both, landmark);
        let Some(from) = settled(pair, &both[0], landmark) else {
            continue;
        };
        check_values(pair, &both, from);
        let a = random.between(from, pair.tail - 1);
        let b = random.between(a + 1, pair.tail);
        for bounds in [[from, pair.tail], [a, b]] {
            let noted = check_stretch(pair, bounds);
            counts.stretches += usize::from(noted);
        }
        let lesson = drawn_lesson(random, from, pair.tail);
        counts.lessons += usize::from(check_lesson(pair, &lesson));
    }
}

#[test]
fn charts_agree_from_colour_landmarks_on() {
    let mut random = Xorshift::new(0xA62E);
    for settings in sets() {
        let pairs = PAIRS[usize::from(settings != Settings::DEFAULT)];
        let mut counts = Counts::default();
        for _ in 0..pairs {
            let pair = random_pair(&mut random, settings);
            check_pair(&mut random, &pair, &mut counts);
        }
        println!("{settings:?}: {counts:?}");
        // hardly an opening tells where only the hit pattern before is looked at
        let far = settings.search_limit > 2;
        let enough = 2 * counts.landmark >= pairs
            && 13 * counts.settled >= pairs
            && 4 * counts.stretches >= pairs
            && counts.lessons >= pairs
            && 13 * counts.other_openings >= pairs
            && (40 * counts.other_intervals >= pairs || !far);
        assert!(enough, "of {pairs} pairs under {settings:?}: {counts:?}");
    }
}

/// One uncoupled pattern is not enough: after `dkdd` a hit pattern opens in one chart and not in the other.
#[test]
fn one_uncoupled_pattern_is_no_landmark() {
    let charts = ["dkddk", "d dkddk"].map(Chart::of_text);
    let pair = Pair { charts, tail: 5 };
    assert_eq!(landmarks(&pair), [5], "landmarks of {pair}");
    let last = pair.charts.each_ref().map(|chart| heard(chart, 5).opens[4]);
    assert_eq!(last, [true, false], "opens at the last object of {pair}");
}

/// A landmark, then streaks of 3 objects and more, up to the limit, and three more.
fn tail_for(search_limit: u64) -> String {
    let run = |length: usize| ["k", "d"][length % 2].repeat(length);
    let runs: String = (3..=search_limit as usize).map(run).collect();
    let end = ["dkkddd", "kddkkk"][search_limit as usize % 2];
    format!("dkddk{runs}{end}")
}

/// The fifteenth hit pattern is not enough: a match 15 before it may lie before the landmark. So it is with other limits;
/// below 5 the streaks are too few for this landmark.
#[test]
fn fifteenth_hit_pattern_may_differ() {
    for search_limit in 5..=64 {
        let tail = tail_for(search_limit);
        let settings = Settings::DEFAULT.with_search_limit(search_limit);
        let charts = [tail.clone(), format!("d{tail}")];
        let pair = Pair {
            charts: charts.map(|letters| Chart::of_text(&letters).under(settings)),
            tail: tail.len(),
        };
        assert_eq!(landmarks(&pair)[0], 5, "landmarks of {pair}");
        let both = pair.charts.each_ref().map(|chart| heard(chart, pair.tail));
        let before_it = opened(&both[0], 5).nth(number_of_first(&pair) - 2);
        let at = before_it.unwrap_or_else(|| panic!("no such hit pattern in {pair}"));
        let intervals = both.map(|heard| u64::from(heard.interval[at]));
        let want = [search_limit - 1, search_limit + 1];
        assert_eq!(intervals, want, "intervals at {at} of {pair}");
    }
}
