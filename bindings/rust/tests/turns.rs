//! The call turns: each note in its field, charts in which there is none, and memory that is used again.

mod lists;

use dresserduck::{calls, Refusal, Settings, Turns, Workspace, LARGEST_CHART, NO_TURN};
use lists::Lists;

const BASE: Settings = Settings::DEFAULT;

fn told(lists: &Lists) -> Result<Turns, Refusal> {
    Workspace::new().turns(&lists.chart(), BASE)
}

/// The streaks d, kk, n, then n with the two k behind it, and d.
const KINDS: [u8; 8] = [0, 1, 1, 2, 2, 1, 1, 0];

/// Each object, and the place past the chart.
const PLACES: [usize; 9] = [0, 1, 2, 3, 4, 5, 6, 7, 8];

#[test]
fn turns_have_each_note_in_its_field() {
    let turns = told(&Lists::of(&KINDS)).unwrap();
    let previous = PLACES.map(|object| turns.previous(object));
    let (d, none) = (Some(0), None);
    assert_eq!(
        previous,
        [none, d, d, none, none, none, none, Some(4), none]
    );
    let next = PLACES.map(|object| turns.next(object));
    assert_eq!(next[..7], [1, 3, 3, 1, 5, 5, 5].map(Some));
    assert_eq!(next[7..], [None; 2]);
}

#[test]
fn with_no_note_beside_its_streak_an_object_has_none() {
    for kind in [&[][..], &[0], &[2, 2], &[2, 1, 2], &[1; 9]] {
        let turns = told(&Lists::of(kind)).unwrap();
        let both = PLACES.map(|object| [turns.previous(object), turns.next(object)]);
        assert_eq!(both, [[None; 2]; 9], "{kind:?}");
    }
}

/// What a host finds in slices of its own.
#[test]
fn none_has_a_number() {
    let lists = Lists::of(&KINDS);
    let (mut previous, mut next) = ([7; 9], [7; 9]);
    let (mut work, mut scratch) = ([7; 65], [7.0; 9]);
    let answer = calls::turns(
        &lists.chart(),
        BASE,
        &mut previous,
        &mut next,
        &mut work,
        &mut scratch,
    );
    assert_eq!(answer, calls::Turned::default());
    let turns = told(&lists).unwrap();
    let number = |note: Option<usize>| note.map_or(NO_TURN, |note| note as u16);
    for object in 0..8 {
        let both = [turns.previous(object), turns.next(object)].map(number);
        assert_eq!([previous[object], next[object]], both, "{object}");
    }
    assert_eq!((previous[8], next[8]), (7, 7));
    assert_eq!((work[64], scratch[8]), (7, 7.0));
}

/// Large, small and refused ones in turn give what new ones give.
#[test]
fn turns_are_used_again() {
    let (mut workspace, mut turns) = (Workspace::new(), Turns::default());
    let largest = Lists::of(&KINDS.repeat(LARGEST_CHART / 8));
    let longer = Lists::of(&KINDS.repeat(LARGEST_CHART / 8 + 1));
    let (small, bad) = (Lists::of(&KINDS), Lists::of(&[0, 1, 3]));
    for lists in [&small, &largest, &bad, &Lists::of(&[]), &longer, &small] {
        let got = workspace.turns_into(&lists.chart(), BASE, &mut turns);
        match told(lists) {
            Ok(fresh) => assert_eq!((got, &turns), (Ok(()), &fresh)),
            Err(refusal) => assert_eq!(got, Err(refusal)),
        }
    }
    assert_eq!(told(&longer), Err(Refusal::TooManyObjects));
    assert_eq!(told(&bad), Err(Refusal::BadKind { object: 2 }));
    // the last object's streak is the last
    let last = LARGEST_CHART - 1;
    let turns = told(&largest).unwrap();
    let before = turns.previous(last).expect("a note before it");
    assert_eq!(turns.next(last), None);
    assert_eq!(turns.next(last - 1), Some(before + 1));
}
