//! The scope's starred examples that speak of kinds, and a few more, each with its six numbers.

use host_tests::chart::Chart;
use host_tests::check::accepted_with;
use host_tests::lent::{exact_sizes, Lent, Sizes};
use host_tests::plain::{self, Answers};
use host_tests::{encode, Encoded};

/// Letters; streak, its place, pattern, its place, hit pattern, all as digits; intervals; number of hit patterns.
type Example = (&'static str, [&'static str; 5], &'static [u8], u64);

const STARRED: [Example; 7] = [
    ("", ["", "", "", "", ""], &[], 0),
    ("d", ["0", "0", "0", "0", "0"], &[17], 1),
    ("dnd", ["011", "000", "011", "000", "011"], &[17, 17, 17], 2),
    ("ddk", ["001", "000", "001", "000", "001"], &[17, 17, 17], 2),
    (
        "dkdk",
        ["0123", "0123", "0000", "0000", "0000"],
        &[17; 4],
        1,
    ),
    (
        "dkkd",
        ["0112", "0000", "0112", "0112", "0000"],
        &[17; 4],
        1,
    ),
    (
        "dkkddk",
        ["011223", "000110", "011112", "000000", "011112"],
        &[17, 17, 17, 17, 17, 2],
        3,
    ),
];

const MORE: [Example; 8] = [
    // every NonHit opens a streak; the first note has no previous note
    ("nnd", ["012", "012", "000", "000", "000"], &[17; 3], 1),
    // the note before is k, though the object before is a NonHit of k's streak
    (
        "knkd",
        ["0112", "0000", "0112", "0000", "0112"],
        &[17, 17, 17, 2],
        3,
    ),
    // a note is compared with the previous note, not with the kind that opened its streak
    (
        "dndd",
        ["0111", "0000", "0111", "0000", "0111"],
        &[17; 4],
        2,
    ),
    // d and n: the types differ, so the first pattern is not coupled with the third
    (
        "dkkn",
        ["0112", "0000", "0112", "0000", "0112"],
        &[17, 17, 17, 2],
        3,
    ),
    // coupled through NonHits as type
    (
        "nkkn",
        ["0112", "0000", "0112", "0112", "0000"],
        &[17; 4],
        1,
    ),
    // equal lengths and types, unequal streak counts: not coupled
    (
        "dkkdk",
        ["01123", "00001", "01122", "00000", "01122"],
        &[17, 17, 17, 2, 2],
        3,
    ),
    // d kk d and d kkk d: equally many patterns, equal first lengths, unequal second ones, so no match
    (
        "dkkdkkkkdkkkd",
        [
            "0112333345556",
            "0000000000000",
            "0112333345556",
            "0112000001112",
            "0000111122222",
        ],
        &[17; 13],
        3,
    ),
    // d kk d kk, then dkd kk dkd kk: the second hit pattern matches the first, so its interval is 1
    (
        "dkkdkkdkdkkdkdkk",
        [
            "0112334567789abb",
            "0000000120001200",
            "0112334445566677",
            "0112330001122233",
            "0000001111111111",
        ],
        &[17, 17, 17, 17, 17, 17, 1, 1, 1, 1, 1, 1, 1, 1, 1, 1],
        2,
    ),
];

fn answers_of(example: &Example) -> Answers {
    let digit = |letter: char| letter.to_digit(16).expect("a digit") as u16;
    Answers {
        numbers: example.1.map(|column| column.chars().map(digit).collect()),
        interval: example.2.to_vec(),
        hit_patterns: example.3,
    }
}

/// The exact sizes, more in one slice at a time, and more in all.
fn roomy_sizes(n: usize) -> Vec<Sizes> {
    let mut all = vec![exact_sizes(n), exact_sizes(n).map(|count| count + 5)];
    for slice in 0..8 {
        for extra in [1, 9] {
            let mut sizes = exact_sizes(n);
            sizes[slice] += extra;
            all.push(sizes);
        }
    }
    all
}

#[test]
fn examples_as_written() {
    for example in STARRED.iter().chain(&MORE) {
        let chart = Chart::of_text(example.0);
        let answers = answers_of(example);
        for sizes in roomy_sizes(chart.size()) {
            accepted_with(&chart, sizes, &answers);
        }
    }
}

/// The plain encoder, which the other tests compare with, agrees with what is written out too.
#[test]
fn plain_encoder_on_the_examples() {
    for example in STARRED.iter().chain(&MORE) {
        let chart = Chart::of_text(example.0);
        let got = plain::encode(&chart.kind, chart.settings.search_limit);
        assert_eq!(got, answers_of(example), "plain encoder on {:?}", example.0);
    }
}

/// No objects: eight empty slices that point at no memory will do, and roomy ones are left alone.
#[test]
fn no_objects() {
    let chart = Chart::of_text("");
    let want = Encoded {
        refusal: 0,
        place: 0,
        hit_patterns: 0,
    };
    for mut lent in [Lent::dangling(), Lent::new([0; 8], 0), Lent::new([6; 8], 0)] {
        let before = lent.clone();
        let got = encode(&chart, &mut lent);
        assert_eq!(
            got,
            want,
            "no objects, {} streak places",
            lent.numbers[0].lent().len()
        );
        let faults = lent.differences(&before);
        assert!(faults.is_empty(), "no objects wrote {faults:?}");
    }
}
