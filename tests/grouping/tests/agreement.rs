//! Two lists of deltas that end alike have the same rhythm groups from every rhythm landmark of the common tail on.

use grouping_tests::group_by_interval;
use grouping_tests::samples::{values, Xorshift};

fn numbers(deltas: &[f64], margin: f64) -> Vec<u16> {
    let mut group = vec![0; deltas.len()];
    group_by_interval(deltas, margin, &mut group);
    group
}

fn near(a: f64, b: f64, margin: f64) -> bool {
    (a - b).abs() <= margin
}

/// The rhythm landmarks of the tail, by their places in it: notes i - 1 and i are near, notes i and i + 1 are not.
fn landmarks(tail: &[f64], margin: f64) -> Vec<usize> {
    let is_landmark =
        |&i: &usize| near(tail[i - 1], tail[i], margin) && !near(tail[i], tail[i + 1], margin);
    (1..tail.len().saturating_sub(1))
        .filter(is_landmark)
        .collect()
}

/// The groups that open at or after note `from`, each by how far its notes stand from the list's end.
fn groups_from(group: &[u16], from: usize) -> Vec<Vec<usize>> {
    let opens = |i: usize| i == 0 || group[i] != group[i - 1];
    let members = |first: usize| {
        let notes = (first..group.len()).take_while(move |&j| group[j] == group[first]);
        notes.map(|j| group.len() - j).collect()
    };
    (from..group.len())
        .filter(|&i| opens(i))
        .map(members)
        .collect()
}

#[test]
fn groups_agree_from_every_landmark_on() {
    let mut random = Xorshift::new(0xA6EE);
    let (mut seen, mut differ) = (0, 0);
    for round in 0..20_000 {
        let margin = [5.0, 0.0, 50.0][round % 3];
        let tail_length = 3 + random.below(20);
        let tail = values(&mut random, tail_length, margin);
        let opening_length = 1 + random.below(6);
        let opening = values(&mut random, opening_length, margin);
        let longer: Vec<f64> = opening.iter().chain(&tail).copied().collect();
        let (alone, behind) = (numbers(&tail, margin), numbers(&longer, margin));
        for i in landmarks(&tail, margin) {
            let (want, got) = (
                groups_from(&alone, i),
                groups_from(&behind, opening.len() + i),
            );
            assert_eq!(
                got, want,
                "{opening:?} before {tail:?}, landmark {i}, margin {margin:?}"
            );
            seen += 1;
        }
        let whole = groups_from(&behind, opening.len());
        differ += usize::from(whole != groups_from(&alone, 0));
    }
    assert!(
        seen > 10_000 && differ > 2_000,
        "{seen} landmarks, {differ} openings that change a group"
    );
}

#[test]
fn a_rise_is_no_landmark() {
    let (alone, behind) = (
        numbers(&[100.0, 200.0, 200.0], 5.0),
        numbers(&[100.0, 100.0, 200.0, 200.0], 5.0),
    );
    assert_ne!(groups_from(&alone, 1), groups_from(&behind, 2));
}
