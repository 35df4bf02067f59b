//! Every short text, by itself and behind texts that leave little room, and every byte behind every kind of text.

use letters_tests::plain::Reading;
use letters_tests::samples::every;
use letters_tests::{agreed, check};

/// What a text is that ends in no line feed: the same with one.
#[track_caller]
fn agreed_with_line_feed(text: &[u8]) -> Reading {
    let reading = agreed(text);
    check(&[text, b"\n"].concat(), &reading);
    reading
}

/// How many texts of each length below 6 the grammar has, by sums over its rules: a text has one tree, so trees are counted.
fn texts_by_length() -> [usize; 6] {
    let (mut sequences, mut items, mut primaries) = ([1, 0, 0, 0, 0, 0], [0; 6], [0; 6]);
    for n in 1..6 {
        // an item and then a sequence, n bytes together
        let joined = |n: usize, items: &[usize], sequences: &[usize]| -> usize {
            (1..=n).map(|k| items[k] * sequences[n - k]).sum()
        };
        primaries[n] = match n {
            1 => 3,
            _ => joined(n - 2, &items, &sequences),
        };
        // counts of one digit are 8, of two 90
        let ago = |bytes: usize| n.checked_sub(bytes).map_or(0, |at| primaries[at]);
        items[n] = items[n - 1] + ago(0) + 8 * ago(1) + 90 * ago(2);
        sequences[n] = joined(n, &items, &sequences);
    }
    sequences
}

#[test]
fn texts_up_to_5_bytes() {
    for (length, trees) in texts_by_length().into_iter().enumerate() {
        let is_good = |text: &Vec<u8>| matches!(agreed_with_line_feed(text), Reading::Good(_));
        let good = every(length).filter(is_good).count();
        // none is so large or so deep that it is refused for that
        assert_eq!(good, trees, "good texts of {length} bytes");
    }
}

/// Texts that leave room for at most one object or bracket more, or for one copy more of what is open.
fn almost_full() -> Vec<String> {
    let open = |brackets: usize, inside: &str| "(".repeat(brackets) + inside;
    vec![
        "(d33)31".into(),
        "(d64)16".into(),
        "(d99)10d33".into(),
        "(d73)14k".into(),
        open(2, "d99d99d99d99d99d17"),
        open(1, "(d12)42k9"),
        open(3, "(n93)11"),
        open(15, ""),
        open(16, ""),
        open(14, "~(d2"),
        open(15, "(d32)32~"),
        open(16, "k99k99k99k99k99k99k99k99k99k99k33"),
    ]
}

#[test]
fn short_texts_behind_almost_full_ones() {
    let mut refused = [0; 3];
    for start in almost_full() {
        for rest in (0..4).flat_map(every) {
            let text = [start.as_bytes(), &rest].concat();
            if let Reading::Refused(number, _) = agreed_with_line_feed(&text) {
                refused[number as usize - 12] += 1;
            }
        }
    }
    println!("refused by 12, 13 and 14: {refused:?}");
    assert!(
        refused.iter().all(|&texts| texts > 500),
        "refused by 12, 13 and 14: {refused:?}"
    );
}

#[test]
fn every_byte_behind_every_kind_of_text() {
    let starts = [
        "", "d", "d1", "d2", "d23", "~", "(", "(k", "(k)", "(k)1", "(k)9",
    ];
    for start in starts {
        for byte in 0..=u8::MAX {
            let text = [start.as_bytes(), &[byte]].concat();
            agreed(&text);
            agreed(&[&text[..], b"d"].concat());
        }
    }
}
