//! The call lesson: each stretch in its place, every refusal of the pairs with its number, and memory that is used
//! again.

#![allow(clippy::single_range_in_vec_init)] // a lesson of one stretch

mod lists;

use std::ops::Range;

use dresserduck::{calls, Lesson, Refusal, Settings, Workspace, LARGEST_CHART, MOST_PAIRS};
use lists::Lists;

const BASE: Settings = Settings::DEFAULT;

/// Nine objects: d kk n d kkk, then a roll alone.
const KINDS: [u8; 9] = [0, 1, 1, 2, 0, 1, 1, 1, 2];

fn told(lists: &Lists, stretches: &[Range<usize>]) -> Result<Lesson, Refusal> {
    Workspace::new().lesson(&lists.chart(), BASE, stretches)
}

fn refusal(lists: &Lists, stretches: &[Range<usize>]) -> Option<Refusal> {
    told(lists, stretches).err()
}

/// Stretches of this length, at each object from the first on.
fn side_by_side(count: usize, length: usize) -> Vec<Range<usize>> {
    (0..count).map(|a| a..a + length).collect()
}

/// It has the values of colour, and of each stretch what a call of its own tells.
#[track_caller]
fn check(lists: &Lists, stretches: &[Range<usize>]) {
    let (chart, lesson) = (lists.chart(), told(lists, stretches).unwrap());
    let mut workspace = Workspace::new();
    assert_eq!(Ok(lesson.values), workspace.colour(&chart, BASE));
    let mut alone = |stretch: &Range<usize>| workspace.stretch(&chart, BASE, stretch.clone());
    let each: Result<Vec<_>, _> = stretches.iter().map(&mut alone).collect();
    assert_eq!(Ok(lesson.stretches), each, "{stretches:?}");
}

#[test]
fn a_lesson_has_each_stretch_in_its_place() {
    let lists = Lists::of(&KINDS);
    check(&lists, &[0..9]);
    check(&lists, &[0..4, 1..2, 2..9, 3..6, 7..9]);
    let Lesson { values, stretches } = told(&lists, &[0..1, 1..3, 4..9]).unwrap();
    assert_eq!(stretches[1].mean, (values[1] + values[2]) / 2.0);
    assert_eq!([0, 1, 2].map(|pair| stretches[pair].tenths), [50, 25, 8]);
}

#[test]
fn none_and_the_most_are_accepted_and_more_are_not() {
    let lists = Lists::of(&KINDS.repeat(20));
    check(&lists, &[]);
    check(&lists, &side_by_side(MOST_PAIRS - 1, 3));
    check(&lists, &side_by_side(MOST_PAIRS, 3));
    for count in [MOST_PAIRS + 1, MOST_PAIRS + 2, 64, 150] {
        let got = refusal(&lists, &side_by_side(count, 3));
        assert_eq!(got, Some(Refusal::BadLesson), "{count}");
    }
    // the first pair, and the one too many, are outside the chart; but they are too many
    let mut pairs = side_by_side(MOST_PAIRS + 1, 0);
    pairs[MOST_PAIRS].end = usize::MAX;
    assert_eq!(refusal(&lists, &pairs), Some(Refusal::BadLesson));
    let first = Refusal::PairOutsideChart { pair: 0 };
    assert_eq!(refusal(&lists, &pairs[..MOST_PAIRS]), Some(first));
}

/// Whatever else there is to say of them.
#[test]
fn each_begins_after_the_one_before() {
    let lists = Lists::of(&KINDS);
    for stretches in [
        [0..2, 0..3, 4..6],
        [0..2, 4..6, 4..6],
        [1..3, 0..2, 4..6],
        [0..9, 4..6, 3..6],
        [3..4, 9..9, 9..9],
        [9..usize::MAX, 0..usize::MAX, 1..2],
    ] {
        let got = refusal(&lists, &stretches);
        assert_eq!(got, Some(Refusal::BadLesson), "{stretches:?}");
    }
}

#[test]
fn the_first_pair_that_is_refused_is_named() {
    let lists = Lists::of(&KINDS);
    let outside = |pair| Some(Refusal::PairOutsideChart { pair });
    let silent = |pair| Some(Refusal::PairWithoutNote { pair });
    let backwards = Range { start: 5, end: 2 };
    for bad in [
        5..5,
        backwards,
        6..10,
        8..10,
        9..9,
        9..10,
        6..usize::MAX,
        usize::MAX..usize::MAX,
    ] {
        let first = refusal(&lists, std::slice::from_ref(&bad));
        assert_eq!(first, outside(0), "{bad:?}");
        let third = refusal(&lists, &[0..2, 1..9, bad.clone()]);
        assert_eq!(third, outside(2), "{bad:?}");
    }
    assert_eq!(refusal(&lists, &[3..4]), silent(0));
    assert_eq!(refusal(&lists, &[0..9, 3..4, 5..5, 8..9]), silent(1));
    assert_eq!(refusal(&lists, &[0..9, 3..3, 8..9]), outside(1));
    assert_eq!(refusal(&lists, &[0..9, 3..5, 4..9, 8..9]), silent(3));
    let numbers = [outside(7), silent(7)].map(|refusal| refusal.map(Refusal::number));
    assert_eq!(numbers, [Some(9), Some(11)]);
}

/// Before the pairs are looked at.
#[test]
fn the_chart_and_the_settings_are_refused_first() {
    let mut lists = Lists::of(&KINDS);
    lists.ones[8] = f64::NAN;
    let object = 8;
    let all: [&[Range<usize>]; 4] = [&[], &[0..9], &[3..3], &side_by_side(40, 3)];
    for stretches in all {
        let chart = lists.chart();
        assert_eq!(
            refusal(&lists, stretches),
            Some(Refusal::BadStart { object }),
            "{stretches:?}"
        );
        let under = BASE.with_search_limit(65);
        let got = Workspace::new().lesson(&chart, under, stretches);
        assert_eq!(got, Err(Refusal::BadSettings), "{stretches:?}");
        let longer = Lists::of(&vec![0; LARGEST_CHART + 1]);
        let got = Workspace::new().lesson(&longer.chart(), under, stretches);
        assert_eq!(got, Err(Refusal::TooManyObjects), "{stretches:?}");
    }
}

/// What a host lends for the nine objects and two pairs, all sevens.
#[derive(Debug, PartialEq)]
struct Memory {
    value: Vec<f64>,
    mean: Vec<f64>,
    tenths: Vec<i64>,
    work: Vec<u16>,
    scratch: Vec<f64>,
}

impl Memory {
    fn of([value, mean, tenths]: [usize; 3]) -> Self {
        Memory {
            value: vec![7.0; value],
            mean: vec![7.0; mean],
            tenths: vec![7; tenths],
            work: vec![7; 73],
            scratch: vec![7.0; 10],
        }
    }

    /// The answer's refusal and place.
    fn lend(&mut self, offset: &[u64], length: &[u64]) -> (u64, u64) {
        let answer = calls::lesson(
            &Lists::of(&KINDS).chart(),
            BASE,
            offset,
            length,
            &mut self.value,
            &mut self.mean,
            &mut self.tenths,
            &mut self.work,
            &mut self.scratch,
        );
        (answer.refusal, answer.place)
    }
}

#[test]
fn a_host_finds_the_answers_in_the_first_places() {
    let mut memory = Memory::of([10, 4, 3]);
    assert_eq!(memory.lend(&[1, 5], &[4, 4]), (0, 0));
    let lesson = told(&Lists::of(&KINDS), &[1..5, 5..9]).unwrap();
    let means = lesson.stretches.iter().map(|stretch| stretch.mean);
    let tenths = lesson.stretches.iter().map(|stretch| stretch.tenths);
    let want = Memory {
        value: [lesson.values, vec![7.0]].concat(),
        mean: means.chain([7.0; 2]).collect(),
        tenths: tenths.chain([7]).collect(),
        work: [vec![0; 72], vec![7]].concat(),
        scratch: [vec![0.0; 9], vec![7.0]].concat(),
    };
    assert_eq!(memory, want);
}

#[test]
fn a_refused_host_finds_its_memory_as_it_was() {
    let fours = &[4, 4][..];
    let all = [
        (&[1, 5][..], fours, [8, 2, 2], (3, 0)),
        (&[1, 5], fours, [9, 1, 2], (3, 0)),
        (&[1, 5], fours, [9, 2, 1], (3, 0)),
        (&[1, 5], &[4], [9, 2, 2], (2, 0)),
        (&[1], fours, [9, 2, 2], (2, 0)),
        (&[5, 5], fours, [9, 2, 2], (17, 0)),
        (&[1, u64::MAX], fours, [9, 2, 2], (9, 1)),
        (&[3, 5], &[1, 4], [9, 2, 2], (11, 0)),
    ];
    for (offset, length, places, refused) in all {
        let mut memory = Memory::of(places);
        let got = memory.lend(offset, length);
        assert_eq!(got, refused, "{offset:?}, {length:?}");
        assert_eq!(memory, Memory::of(places), "{offset:?}, {length:?}");
    }
}

/// Large, small and refused ones in turn give what new ones give.
#[test]
fn lessons_are_used_again() {
    let (mut workspace, mut lesson) = (Workspace::new(), Lesson::default());
    let largest = Lists::of(&KINDS.repeat(LARGEST_CHART / 9));
    let (small, bad) = (Lists::of(&KINDS), Lists::of(&[0, 1, 3]));
    let most = side_by_side(MOST_PAIRS, 9);
    let asked: [(&Lists, &[Range<usize>]); 8] = [
        (&small, &[0..9]),
        (&largest, &most),
        (&bad, &[0..1]),
        (&Lists::of(&[]), &[]),
        (&small, &most),
        (&small, &[2..3, 4..9]),
        (&largest, &[]),
        (&small, &[0..9]),
    ];
    for (lists, stretches) in asked {
        let got = workspace.lesson_into(&lists.chart(), BASE, stretches, &mut lesson);
        match told(lists, stretches) {
            Ok(fresh) => assert_eq!((got, &lesson), (Ok(()), &fresh)),
            Err(refusal) => assert_eq!(got, Err(refusal)),
        }
    }
    check(&largest, &most);
    assert_eq!(
        refusal(&small, &most),
        Some(Refusal::PairOutsideChart { pair: 1 })
    );
    assert_eq!(refusal(&bad, &[0..1]), Some(Refusal::BadKind { object: 2 }));
}
