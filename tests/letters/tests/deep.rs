//! The deepest and the longest texts, read with a stack of 4 MiB.

use std::thread::Builder;

use letters_tests::agreed;
use letters_tests::plain::{Reading, MOST_BRACKETS, MOST_BYTES, MOST_OBJECTS};

const STACK: usize = 4 << 20;

/// What the text is, read by a thread of its own.
#[track_caller]
fn agreed_apart(text: String) -> Reading {
    let thread = Builder::new().stack_size(STACK);
    let reading = thread.spawn(move || agreed(text.as_bytes()));
    reading.expect("a thread").join().expect("a reading")
}

#[test]
fn as_many_tildes_as_there_may_be() {
    let tildes = "~".repeat(MOST_BYTES - 1);
    assert_eq!(agreed_apart(tildes.clone() + "d"), Reading::Good(vec![1]));
    let unfinished = Reading::Refused(12, MOST_BYTES);
    assert_eq!(agreed_apart(tildes + "~"), unfinished);
}

#[test]
fn brackets_with_tildes_between() {
    let open = ("~".repeat(250) + "(").repeat(MOST_BRACKETS - 1);
    let close = ")".repeat(MOST_BRACKETS);
    // 15 times 250 tildes leave d and k as they are, 43 exchange them
    let text = open + &"~".repeat(43) + "(dk" + &close + "32~dkn";
    let kinds = [[1, 0].repeat(32), vec![1, 1, 2]].concat();
    assert_eq!(agreed_apart(text), Reading::Good(kinds));
}

#[test]
fn nothing_but_brackets() {
    let refused = Reading::Refused(14, MOST_BRACKETS);
    assert_eq!(agreed_apart("(".repeat(MOST_BYTES)), refused);
}

#[test]
fn letters_side_by_side() {
    let good = Reading::Good(vec![2; MOST_OBJECTS]);
    assert_eq!(agreed_apart("n".repeat(MOST_OBJECTS)), good);
    let bracketed = "(n)".repeat(MOST_OBJECTS);
    assert_eq!(agreed_apart(bracketed), good);
}
