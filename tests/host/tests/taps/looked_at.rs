//! At which pairs the grouping looks: an open pair there makes the groups open, and one elsewhere does not.

use crate::known;
use host_tests::plain_taps::{Told, NEAR, NEITHER, NO_PAIR, OPEN, RISE};
use host_tests::taps::{accepted, Range, TapChart};

/// It may be near 100 or 200, and may be a rise.
const BEHIND_100: Range = [103.0, 107.0];
const BEHIND_200: Range = [203.0, 207.0];

/// What is told of notes with these ranges.
#[track_caller]
fn of_notes(ranges: &[Range]) -> Told {
    accepted(&TapChart::of_ranges(ranges))
}

#[track_caller]
fn grouped(ranges: &[Range], pair: &[u8], group: &[u16]) {
    let told = of_notes(ranges);
    assert_eq!(told.pair, pair);
    let groups = told.groups.expect("groups that are known");
    assert_eq!(groups.of_object, group);
    let last = group.last().map_or(0, |&last| u64::from(last) + 1);
    assert_eq!(groups.count, last);
}

#[track_caller]
fn open(ranges: &[Range], pair: &[u8]) {
    let told = of_notes(ranges);
    assert_eq!(told.pair, pair);
    assert!(told.groups.is_none(), "the groups are open");
}

#[test]
fn of_two_notes_none_is_looked_at() {
    let a = known(100.0);
    for (b, class) in [
        (BEHIND_100, OPEN),
        (known(103.0), NEAR),
        (known(107.0), RISE),
        (known(90.0), NEITHER),
    ] {
        grouped(&[a, b], &[class, NO_PAIR], &[0, 1]);
    }
    grouped(&[BEHIND_100], &[NO_PAIR], &[0]);
    grouped(&[], &[], &[]);
}

#[test]
fn the_first_pair_is_not_looked_at() {
    let (a, b) = (known(100.0), known(105.0));
    grouped(&[a, BEHIND_100, b], &[OPEN, NEAR, NO_PAIR], &[0, 0, 0]);
    let rise = known(300.0);
    grouped(&[a, BEHIND_100, rise], &[OPEN, RISE, NO_PAIR], &[0, 0, 1]);
    let fall = known(50.0);
    let classes = [OPEN, NEITHER, NO_PAIR];
    grouped(&[a, BEHIND_100, fall], &classes, &[0, 1, 2]);
}

#[test]
fn the_second_of_three_notes_is_looked_at() {
    let a = known(100.0);
    open(&[a, a, BEHIND_100], &[NEAR, OPEN, NO_PAIR]);
    open(&[known(50.0), a, BEHIND_100], &[RISE, OPEN, NO_PAIR]);
}

#[test]
fn the_pair_right_behind_a_rise_is_not_looked_at() {
    let (a, b) = (known(100.0), known(200.0));
    let classes = [NEAR, RISE, OPEN, NEITHER, NO_PAIR];
    grouped(&[a, a, b, BEHIND_200, a], &classes, &[0, 0, 1, 2, 3]);
    let classes = [NEAR, RISE, OPEN, NEAR, NO_PAIR];
    let next = known(205.0);
    grouped(&[a, a, b, BEHIND_200, next], &classes, &[0, 0, 1, 1, 1]);
}

#[test]
fn the_last_pair_is_looked_at_behind_a_rise_too() {
    let (a, b) = (known(100.0), known(200.0));
    let classes = [NEAR, RISE, OPEN, NO_PAIR];
    open(&[a, a, b, BEHIND_200], &classes);
    // where it is near it takes the last note
    let next = known(203.0);
    let classes = [NEAR, RISE, NEAR, NO_PAIR];
    grouped(&[a, a, b, next], &classes, &[0, 0, 1, 1]);
}

/// A rise that is not looked at itself ends no group: the pair behind it is looked at.
#[test]
fn behind_a_rise_that_is_passed_over_it_is_looked_at() {
    let (a, b, c) = (known(100.0), known(200.0), known(300.0));
    // the first pair
    open(&[a, b, BEHIND_200, a], &[RISE, OPEN, NEITHER, NO_PAIR]);
    // and the pair behind a rise
    let behind_c = [303.0, 307.0];
    let classes = [NEAR, RISE, RISE, OPEN, NEITHER, NO_PAIR];
    open(&[a, a, b, c, behind_c, a], &classes);
}

#[test]
fn behind_near_ones_and_behind_neither_it_is_looked_at() {
    let (a, b) = (known(100.0), known(200.0));
    let classes = [NEAR, NEAR, OPEN, NEITHER, NO_PAIR];
    open(&[a, a, a, BEHIND_100, known(50.0)], &classes);
    let classes = [NEAR, NEITHER, OPEN, NEITHER, NO_PAIR];
    open(&[b, b, a, BEHIND_100, known(50.0)], &classes);
}

/// One open pair among near ones: the groups are open wherever it stands but at the first place.
#[test]
fn among_near_ones_all_but_the_first_are_looked_at() {
    for notes in 3..12 {
        for place in 0..notes - 1 {
            let mut ranges = vec![known(100.0); place + 1];
            ranges.push(BEHIND_100);
            ranges.resize(notes, known(105.0));
            let told = of_notes(&ranges);
            let opens: Vec<usize> = (0..notes).filter(|&i| told.pair[i] == OPEN).collect();
            assert_eq!(opens, [place], "{notes} notes");
            assert_eq!(told.groups.is_some(), place == 0, "{place} of {notes}");
        }
    }
}

/// The same with NonHits at every seam: the pairs are those of the notes.
#[test]
fn non_hits_between_are_passed_over() {
    let (a, b) = (known(100.0), known(200.0));
    let anything = [-1000.0, 1000.0];
    let ranges = [
        anything, a, anything, anything, a, b, anything, BEHIND_200, a, anything,
    ];
    let mut chart = TapChart::of_ranges(&ranges);
    for object in [0, 2, 3, 6, 9] {
        chart.low.kind[object] = 2;
    }
    let told = accepted(&chart);
    let none = NO_PAIR;
    let classes = [
        none, NEAR, none, none, RISE, OPEN, none, NEITHER, none, none,
    ];
    assert_eq!(told.pair, classes);
    let groups = told.groups.expect("groups that are known");
    let no = 65_535;
    assert_eq!(groups.of_object, [no, 0, no, no, 0, 1, no, 2, 3, no]);
    assert_eq!(groups.count, 4);
}
