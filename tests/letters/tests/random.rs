//! Long texts drawn from a seed, about as large, as deep and as long as they may be, against the plain reader.

use std::collections::BTreeMap;

use letters_tests::agreed;
use letters_tests::plain::{text_of, Reading, MOST_BRACKETS, MOST_BYTES, MOST_OBJECTS};
use letters_tests::samples::{altered, drawn, stretched, Xorshift};

/// How often inputs ended in each way.
#[derive(Default)]
struct Tally(BTreeMap<&'static str, usize>);

/// How deep the brackets stand in one another.
fn deepest(text: &[u8]) -> usize {
    let brackets = text.iter().scan(0, |open, byte| {
        *open += usize::from(*byte == b'(');
        *open -= usize::from(*byte == b')');
        Some(*open)
    });
    brackets.max().unwrap_or(0)
}

fn way(text: &[u8], reading: &Reading) -> &'static str {
    match *reading {
        Reading::Long => "long",
        Reading::Good(ref kinds) if kinds.len() == MOST_OBJECTS => "good and full",
        Reading::Good(_) if deepest(text) == MOST_BRACKETS => "good and deep",
        Reading::Good(_) => "good",
        Reading::Refused(12, place) if place == text.len() => "12 at the end",
        Reading::Refused(12, _) => "12 inside",
        Reading::Refused(13, place) if text[place].is_ascii_digit() => "13 at a digit",
        Reading::Refused(13, _) => "13 at a letter",
        Reading::Refused(..) => "14",
    }
}

impl Tally {
    /// The library reads the text as the plain reader does, with each of these ends.
    fn check(&mut self, text: &[u8], ends: &[&str]) {
        for end in ends {
            let input = [text, end.as_bytes()].concat();
            let way = way(text_of(&input), &agreed(&input));
            *self.0.entry(way).or_default() += 1;
        }
    }

    #[track_caller]
    fn assert_each(&self, ways: &[&str], least: usize) {
        println!("{:?}", self.0);
        for way in ways {
            let times = self.0.get(way).copied().unwrap_or(0);
            assert!(
                times >= least,
                "{way:?} came up {times} times: {:?}",
                self.0
            );
        }
    }
}

#[test]
fn drawn_texts_and_altered_ones() {
    let mut random = Xorshift::new(51);
    let mut tally = Tally::default();
    for _ in 0..4_000 {
        let text = drawn(&mut random);
        tally.check(&text, &[""]);
        for _ in 0..3 {
            let text = altered(&mut random, &text);
            let end = random.pick(&["", "", "\n", "\n\n"]);
            tally.check(&text, &[end]);
        }
    }
    let ways = [
        "good",
        "good and full",
        "good and deep",
        "12 inside",
        "12 at the end",
        "13 at a letter",
        "13 at a digit",
        "14",
    ];
    tally.assert_each(&ways, 100);
}

#[test]
fn texts_of_about_4_096_bytes() {
    let mut random = Xorshift::new(52);
    let mut tally = Tally::default();
    for size in MOST_BYTES - 2..=MOST_BYTES + 2 {
        for _ in 0..8 {
            let text = drawn(&mut random);
            let text = stretched(&mut random, &text, size);
            tally.check(&text, &["", "\n", "\n\n"]);
            tally.check(&altered(&mut random, &text), &["", "\n"]);
        }
    }
    let ways = [
        "good",
        "12 inside",
        "12 at the end",
        "13 at a digit",
        "long",
    ];
    tally.assert_each(&ways, 5);
}
