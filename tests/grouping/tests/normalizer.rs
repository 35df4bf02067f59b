//! The delta normaliser against stored answers of the original at the margin 5.0, the scope's rule at other margins, and its
//! sorting against Rust's.

use grouping_tests::samples::{values, Xorshift};
use grouping_tests::stored::{cases, floats};
use grouping_tests::{normal_of, plain_normalizer};

const STORED: &str = include_str!("../data/normalized.txt");
const STORED_MARGIN: f64 = 5.0;

fn bits(values: &[f64]) -> Vec<u64> {
    values.iter().map(|x| x.to_bits()).collect()
}

/// The distinct deltas in total order, in front of what else the order has.
fn settled(deltas: &[f64]) -> Vec<f64> {
    let mut ordered = deltas.to_vec();
    ordered.sort_by(f64::total_cmp);
    let mut distinct = ordered.clone();
    distinct.dedup_by_key(|x| x.to_bits());
    ordered[..distinct.len()].copy_from_slice(&distinct);
    ordered
}

/// What x counts as; the deltas must be left as `settled` has them.
#[track_caller]
fn normal(deltas: &[f64], margin: f64, x: f64) -> f64 {
    let mut lent = deltas.to_vec();
    let normal = normal_of(&mut lent, margin, x);
    assert_eq!(bits(&lent), bits(&settled(deltas)), "{deltas:?}");
    normal
}

/// What each delta counts as, by the library and by the scope's rule.
#[track_caller]
fn all_normal(deltas: &[f64], margin: f64) -> Vec<u64> {
    let each = |f: fn(&[f64], f64, f64) -> f64| -> Vec<u64> {
        deltas
            .iter()
            .map(|&x| f(deltas, margin, x).to_bits())
            .collect()
    };
    let (ours, ruled) = (each(normal), each(plain_normalizer::normal));
    assert_eq!(ours, ruled, "{deltas:?} at the margin {margin:?}");
    ours
}

#[test]
fn stored_answers() {
    let mut count = 0;
    for (deltas, want) in cases(STORED) {
        let got = all_normal(&deltas, STORED_MARGIN);
        assert_eq!(got, bits(&floats(want)), "{deltas:?}");
        count += 1;
    }
    assert!(count > 2_000, "{count} cases");
}

#[test]
fn a_value_that_is_none_of_the_deltas_stays() {
    assert_eq!(normal(&[100.0, 105.0], 5.0, 103.0), 103.0);
    assert_eq!(normal(&[], 5.0, 7.0), 7.0);
    assert_eq!(normal(&[0.0], 5.0, -0.0).to_bits(), (-0.0f64).to_bits());
}

#[test]
fn lists_of_all_sizes_are_sorted() {
    let mut random = Xorshift::new(31);
    for size in (0..200).chain([1_000, 4_095, 4_096, 16_384]) {
        let list = values(&mut random, size, 5.0);
        let x = list.first().copied().unwrap_or(0.0);
        normal(&list, 5.0, x);
        let falling: Vec<f64> = (0..size).map(|i| (size - i) as f64).collect();
        normal(&falling, 5.0, 1.0);
    }
}

/// The rule sorts each set by itself, the library reads the middle where the set lies: alike for every margin, also one that is none.
#[test]
fn sets_sorted_again_have_the_same_middles() {
    let mut random = Xorshift::new(32);
    let margins = [
        0.0,
        -0.0,
        5e-324,
        2.5,
        5.0,
        50.0,
        f64::INFINITY,
        -5.0,
        f64::NAN,
    ];
    let mut of_several = 0;
    for margin in margins {
        for _ in 0..300 {
            let size = random.below(40);
            let list = values(&mut random, size, 5.0);
            all_normal(&list, margin);
            let sets = plain_normalizer::sets(&list, margin);
            of_several += sets.iter().filter(|set| set.len() > 1).count();
        }
    }
    assert!(of_several > 3_000, "{of_several} sets of several values");
}
