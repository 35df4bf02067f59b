//! The logistic table against stored values of the original's logistic_exp.

use numeric_tests::logistic;

const STORED: &str = include_str!("../data/logistic_exp.txt");
const STORED_STEPS: usize = 300;

/// The table's size; from here on the original's exp overflows and the answer is 0.
const STEPS: usize = 264;

const TOLERANCE: f64 = 1e-12;

fn stored_values() -> Vec<f64> {
    let lines = STORED.lines().filter(|line| !line.starts_with('#'));
    let values: Vec<f64> = lines.map(stored_value).collect();
    assert_eq!(values.len(), STORED_STEPS, "stored values");
    values
}

fn stored_value(line: &str) -> f64 {
    let bits = u64::from_str_radix(line, 16);
    f64::from_bits(bits.unwrap_or_else(|error| panic!("{line:?}: {error}")))
}

#[test]
fn table_agrees_with_the_original() {
    let (mut largest, mut place) = (0.0, 0);
    for (n, &stored) in stored_values()[..STEPS].iter().enumerate() {
        assert!(
            stored > 0.0 && stored < 1.0,
            "step {n}: {stored:?} is stored"
        );
        let ours = logistic(n);
        let distance = ((ours - stored) / stored).abs();
        assert!(
            distance <= TOLERANCE,
            "step {n}: {ours:?} against {stored:?}, {distance:e}"
        );
        if distance > largest {
            (largest, place) = (distance, n);
        }
    }
    println!("largest relative distance {largest:e} at step {place}");
}

#[test]
fn zero_from_step_264_on() {
    for (n, stored) in stored_values().into_iter().enumerate().skip(STEPS) {
        assert_eq!(stored.to_bits(), 0, "step {n}: {stored:?} is stored");
    }
    // the steps above 2^32 would find the table if only their low half were looked at
    let far = [1 << 32, (1 << 32) + 2, 1 << 63, usize::MAX];
    for n in (STEPS..100_000).chain(far) {
        assert_eq!(logistic(n).to_bits(), 0, "step {n}");
    }
}

#[test]
fn table_falls_strictly() {
    for n in 0..STEPS {
        let (here, next) = (logistic(n), logistic(n + 1));
        assert!(here > next, "step {n}: {here:?}, then {next:?}");
    }
}

#[test]
fn half_at_step_two() {
    assert_eq!(logistic(2).to_bits(), 0.5_f64.to_bits(), "step 2");
}
