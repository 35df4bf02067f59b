//! Texts with what they are by request 5/12: those that it names, and some like them.

use letters_tests::agreed;
use letters_tests::plain::Reading;

/// Texts, each with the number of its refusal and the place.
const REFUSED: [(&str, u64, usize); 26] = [
    (")", 12, 0),
    ("2d", 12, 0),
    ("d0", 12, 1),
    ("d05", 12, 1),
    ("d1", 12, 2),
    ("d1d", 12, 2),
    ("d1(", 12, 2),
    ("d100", 12, 3),
    ("d234", 12, 3),
    ("()", 12, 1),
    ("(d", 12, 2),
    ("~)", 12, 1),
    ("~2", 12, 1),
    ("~()", 12, 2),
    ("~d~", 12, 3),
    ("\n\n", 12, 0),
    ("d\n\n", 12, 1),
    ("d\nk", 12, 1),
    ("(d99)11", 13, 6),
    ("(d99)99x", 13, 6),
    ("(d99)9x", 12, 6),
    ("(d99d99)6x", 13, 8),
    ("(d99d99)60", 13, 9),
    ("((d32)32)1", 12, 10),
    ("((d32)32)1x", 12, 10),
    ("((d32)32)10", 13, 10),
];

/// Texts, each with the letters that it stands for.
const GOOD: [(&str, &str); 13] = [
    ("", ""),
    ("\n", ""),
    ("dkn", "dkn"),
    ("k3n12d", "kkknnnnnnnnnnnnd"),
    ("~dk", "kk"),
    ("~nk", "nk"),
    ("~~d", "d"),
    ("~~~k2d", "ddd"),
    ("~(dk)2", "kdkd"),
    ("~(d~k)2k", "kkkkk"),
    ("((dk)2n)3", "dkdkndkdkndkdkn"),
    ("~(d~(kn)2~~d)d", "kknknkd"),
    ("(dk)8~(ddk)2", "dkdkdkdkdkdkdkdkkkdkkd"),
];

fn letters(count: usize) -> String {
    "dkn".chars().cycle().take(count).collect()
}

#[track_caller]
fn refused(text: &str, number: u64, place: usize) {
    assert_eq!(
        agreed(text.as_bytes()),
        Reading::Refused(number, place),
        "{text:?}"
    );
}

#[track_caller]
fn good(text: &str, letters: &str) {
    let kind = |letter: char| "dkn".find(letter).expect("a letter") as u8;
    let kinds = letters.chars().map(kind).collect();
    assert_eq!(agreed(text.as_bytes()), Reading::Good(kinds), "{text:?}");
}

#[test]
fn refused_texts() {
    for (text, number, place) in REFUSED {
        refused(text, number, place);
    }
}

#[test]
fn good_texts() {
    for (text, letters) in GOOD {
        good(text, letters);
    }
}

#[test]
fn as_many_objects_as_there_may_be() {
    let most = letters(1_024);
    good("(d99)10", &"d".repeat(990));
    good(&most, &most);
    good("(d64)16", &"d".repeat(1_024));
    refused(&letters(1_025), 13, 1_024);
    refused(&(most.clone() + "2"), 13, 1_024);
    refused(&(most.clone() + "10"), 13, 1_025);
    refused(&(most + "1"), 12, 1_025);
}

#[test]
fn as_many_brackets_as_there_may_be() {
    let (open, close) = ("(".repeat(16), ")".repeat(16));
    good(&(open.clone() + "d" + &close), "d");
    good(&(open.clone() + "d" + &close + &open + "k" + &close), "dk");
    refused(&"(".repeat(17), 14, 16);
    refused(&(open.clone() + "x"), 12, 16);
    refused(&(open.clone() + "d("), 14, 17);
    refused(&open, 12, 16);
}

#[test]
fn as_many_bytes_as_there_may_be() {
    let long = |text: &str| assert_eq!(agreed(text.as_bytes()), Reading::Long);
    let largest = "~~~d".repeat(1_024);
    good(&largest, &"k".repeat(1_024));
    good(&(largest.clone() + "\n"), &"k".repeat(1_024));
    long(&(largest.clone() + "\n\n"));
    long(&(largest.clone() + "d"));
    long(&(largest + "d\n"));
    // long goes before every refusal
    long(&"x".repeat(4_097));
    refused(&"x".repeat(4_096), 12, 0);
}
