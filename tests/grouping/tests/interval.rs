//! group_by_interval against stored answers of the original at the margin 5.0, and the scope's rule at other margins.

use grouping_tests::plain::{groups, step, Step};
use grouping_tests::samples::{values, Xorshift};
use grouping_tests::stored::cases;
use grouping_tests::{group_by_interval, MOST_VALUES};

const STORED: &str = include_str!("../data/intervals.txt");
const STORED_MARGIN: f64 = 5.0;
const SENTINEL: u16 = 0xABCD;

/// The groups are these, in memory with `more` places than values; what follows the answer stays.
#[track_caller]
fn check_with(values: &[f64], margin: f64, want: &[u16], more: usize) {
    let mut group = vec![SENTINEL; values.len() + more];
    let count = group_by_interval(values, margin, &mut group);
    let shown = || format!("{values:?} at the margin {margin:?} with {more} places more");
    let want_count = want.last().map_or(0, |&last| usize::from(last) + 1);
    assert_eq!(count, want_count, "groups of {}", shown());
    assert_eq!(&group[..values.len()], want, "numbers for {}", shown());
    let after = &group[values.len()..];
    assert!(
        after.iter().all(|&x| x == SENTINEL),
        "{after:x?} after {}",
        shown()
    );
}

#[track_caller]
fn check(values: &[f64], margin: f64, want: &[u16]) {
    assert_eq!(values.len(), want.len(), "{want:?} for {values:?}");
    check_with(values, margin, want, 0);
    check_with(values, margin, want, 3);
}

/// The number of each value's group, by the groups' sizes.
fn numbers_of(sizes: &str) -> Vec<u16> {
    let size = |word: &str| {
        let size = word.parse::<usize>();
        size.unwrap_or_else(|error| panic!("{word:?}: {error}"))
    };
    let sizes = sizes.split_whitespace().map(size).enumerate();
    sizes
        .flat_map(|(number, size)| vec![number as u16; size])
        .collect()
}

#[test]
fn stored_answers_of_the_original() {
    let (mut count, mut largest) = (0, 0);
    for (values, sizes) in cases(STORED) {
        let numbers = numbers_of(sizes);
        check(&values, STORED_MARGIN, &numbers);
        let read = groups(&values, STORED_MARGIN);
        assert_eq!(read, numbers, "the scope's rule on {values:?}");
        count += 1;
        largest += usize::from(values.len() == MOST_VALUES);
    }
    println!("{count} cases, {largest} of the largest size");
    assert!(
        count > 3_000 && largest >= 3,
        "{count} cases, {largest} of the largest size"
    );
}

/// Every kind of step must come up often.
fn check_random(seed: u64, margin: f64) {
    let mut random = Xorshift::new(seed);
    let mut counts = [0_u32; 3];
    for round in 0..20_000 {
        let count = random.below(if round % 2 == 0 { 6 } else { 41 });
        let list = values(&mut random, count, margin);
        check(&list, margin, &groups(&list, margin));
        for pair in list.windows(2) {
            counts[step(pair[0], pair[1], margin) as usize] += 1;
        }
    }
    let list = values(&mut random, MOST_VALUES, margin);
    check(&list, margin, &groups(&list, margin));
    println!("margin {margin:?}: near, rises and neither {counts:?}");
    let often = counts.iter().all(|&count| count > 20_000);
    assert!(
        often,
        "margin {margin:?}: near, rises and neither {counts:?}"
    );
}

#[test]
fn random_lists_at_the_margin_0() {
    check_random(21, 0.0);
}

#[test]
fn random_lists_at_the_margin_5() {
    check_random(22, 5.0);
}

#[test]
fn random_lists_at_the_margin_50() {
    check_random(23, 50.0);
}

/// The values that the scope names, and steps that rounding makes odd.
#[test]
fn known_lists() {
    let (least, above) = (2f64.powi(-51), 5.0 + 2f64.powi(-50));
    assert!(above > least + 5.0, "{above:?} is a rise from {least:?}");
    assert_eq!(step(least, above, 5.0), Step::Near, "near goes before rise");
    assert_eq!(step(3.3, 8.3, 5.0), Step::Neither, "8.3 - 3.3 is above 5.0");
    let known: [(&[f64], &[u16]); 8] = [
        (&[], &[]),
        (&[100.0, 100.0], &[0, 1]),
        (&[100.0, 100.0, 100.0], &[0, 0, 0]),
        (&[100.0, 100.0, 200.0], &[0, 0, 1]),
        (&[100.0, 200.0, 100.0], &[0, 1, 2]),
        (&[0.0, 3.3, 8.3, 8.3], &[0, 1, 1, 1]),
        (&[0.0, least, above, above], &[0, 0, 0, 0]),
        (&[-0.0, 0.0, 5.0, 10.0], &[0, 0, 0, 0]),
    ];
    for (values, want) in known {
        check(values, 5.0, want);
        assert_eq!(
            groups(values, 5.0),
            want,
            "the scope's rule on {values:?}"
        );
    }
}

/// Rhythm's first interval is infinite; it opens a group unseen.
#[test]
fn infinity_may_come_first() {
    for rest in [
        &[][..],
        &[7.0],
        &[7.0, 7.0],
        &[7.0, 20.0, 20.0],
        &[20.0, 7.0],
    ] {
        let list = [&[f64::INFINITY], rest].concat();
        check(&list, 5.0, &groups(&list, 5.0));
    }
}
