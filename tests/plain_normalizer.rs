//! The scope's rule for the normaliser, with lists of lists. It knows nothing of the library; the test packages that need it include
//! this file.

/// The distinct deltas in total order, cut into lists of those near their first one.
pub fn sets(deltas: &[f64], margin: f64) -> Vec<Vec<f64>> {
    let mut distinct = deltas.to_vec();
    distinct.sort_by(f64::total_cmp);
    distinct.dedup_by_key(|x| x.to_bits());
    let mut sets: Vec<Vec<f64>> = Vec::new();
    for value in distinct {
        match sets.last_mut() {
            Some(set) if (value - set[0]).abs() <= margin => set.push(value),
            _ => sets.push(vec![value]),
        }
    }
    sets
}

/// The middle of a set, which is sorted for it.
fn middle(mut set: Vec<f64>) -> f64 {
    set.sort_by(f64::total_cmp);
    let half = set.len() / 2;
    if set.len() % 2 == 1 {
        set[half]
    } else {
        (set[half - 1] + set[half]) / 2.0
    }
}

/// What x counts as: the middle of the set that holds it, or x.
pub fn normal(deltas: &[f64], margin: f64, x: f64) -> f64 {
    let holds = |set: &Vec<f64>| set.iter().any(|value| value.to_bits() == x.to_bits());
    sets(deltas, margin)
        .into_iter()
        .find(holds)
        .map_or(x, middle)
}
