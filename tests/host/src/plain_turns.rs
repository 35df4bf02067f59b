//! The words for turns, streak by streak: the note before its first object, the note after its last. It knows nothing of the library.

use std::ops::Range;

use crate::plain::{continues, NON_HIT};

/// What stands for a note that is not there.
pub const NO_TURN: u16 = 65_535;

/// Each object's previous note and its next one.
pub type Turns = [Vec<u16>; 2];

/// Each object's number among the notes, 0 for a NonHit, and how many notes there are.
fn note_numbers(kinds: &[u8]) -> (Vec<usize>, usize) {
    let (mut numbers, mut notes) = (Vec::new(), 0);
    for &kind in kinds {
        let is_note = kind != NON_HIT;
        numbers.push(if is_note { notes } else { 0 });
        notes += usize::from(is_note);
    }
    (numbers, notes)
}

/// The objects of each streak.
fn streaks(kinds: &[u8]) -> Vec<Range<usize>> {
    let goes_on = continues(kinds);
    let opens = |&object: &usize| !goes_on[object];
    let firsts: Vec<usize> = (0..kinds.len()).filter(opens).collect();
    let ends = firsts.iter().skip(1).copied().chain([kinds.len()]);
    let both = firsts.iter().zip(ends);
    both.map(|(&first, end)| first..end).collect()
}

/// Both notes of every object.
pub fn turns(kinds: &[u8]) -> Turns {
    let (numbers, notes) = note_numbers(kinds);
    let mut told = Turns::default();
    for objects in streaks(kinds) {
        let previous = numbers[objects.start].checked_sub(1);
        let after = numbers[objects.end - 1] + 1;
        let next = (after < notes).then_some(after);
        for (list, note) in told.iter_mut().zip([previous, next]) {
            let number = note.map_or(NO_TURN, |note| note as u16);
            list.resize(objects.end, number);
        }
    }
    told
}
