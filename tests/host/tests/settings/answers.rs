//! All eight calls under random sets, on charts on which the numbers decide: what the plain versions answer.

use std::collections::BTreeMap;

use host_tests::eight::{accepted, Asked, Told, CALLS};
use host_tests::samples::Xorshift;
use host_tests::sets::{drawn_chart, drawn_settings, LIMITS, MARGINS, THRESHOLDS, TOLERANCES};

use dresserduck::Settings;

const NUMBERS: [&str; 4] = ["margin", "search limit", "threshold", "tolerance"];

/// The calls whose answers each of them decides, and no others: none decides what turns answers.
const DECIDED: [&[&str]; 4] = [
    &["rhythm", "taps", "record"],
    &["encode", "colour", "stretch", "lesson"],
    &["record"],
    &["colour", "stretch", "lesson"],
];

/// The four numbers, floats by their bits.
fn numbers(settings: Settings) -> [u64; 4] {
    let Settings {
        margin,
        search_limit,
        threshold,
        tolerance,
    } = settings;
    let [margin, threshold, tolerance] = [margin, threshold, tolerance].map(f64::to_bits);
    [margin, search_limit, threshold, tolerance]
}

/// All that are drawn of each, but for the default.
fn others() -> [Vec<u64>; 4] {
    let bits = |values: &[f64]| values.iter().map(|x| x.to_bits()).collect();
    let mut all: [Vec<u64>; 4] = [
        bits(&MARGINS),
        LIMITS.to_vec(),
        bits(&THRESHOLDS),
        bits(&TOLERANCES),
    ];
    for (values, base) in all.iter_mut().zip(numbers(Settings::DEFAULT)) {
        values.retain(|&value| value != base);
    }
    all
}

/// The same set, one number of which is the default's.
fn with_default(settings: Settings, number: usize) -> Settings {
    let base = Settings::DEFAULT;
    match NUMBERS[number] {
        "margin" => settings.with_margin(base.margin),
        "search limit" => settings.with_search_limit(base.search_limit),
        "threshold" => settings.with_threshold(base.threshold),
        _ => settings.with_tolerance(base.tolerance),
    }
}

/// How often a number decided: with the default in its place something else was answered.
#[derive(Default)]
struct Counts {
    by_call: [[usize; 8]; 4],
    by_value: [BTreeMap<u64, usize>; 4],
}

impl Counts {
    fn add(&mut self, number: usize, value: u64, unlike: [bool; 8]) {
        for (count, is_other) in self.by_call[number].iter_mut().zip(unlike) {
            *count += usize::from(is_other);
        }
        let any = unlike.contains(&true);
        *self.by_value[number].entry(value).or_default() += usize::from(any);
    }

    /// The number decided often what each of these calls answers, never what another does, and so did each value of it.
    fn check(&self, number: usize, calls: &[&str], values: &[u64]) {
        let name = NUMBERS[number];
        for (call, count) in CALLS.iter().zip(self.by_call[number]) {
            println!("{name}: {count} answers of {call}");
            let is_right = match calls.contains(call) {
                true => count >= 350,
                false => count == 0,
            };
            assert!(is_right, "{name}: {count} of {call}");
        }
        for value in values {
            let count = self.by_value[number].get(value).copied().unwrap_or(0);
            println!("{name} {value:#x}: {count} charts");
            assert!(count >= 40, "{name} {value:#x}: {count} charts");
        }
    }
}

/// Checks the chart under its set, and under the same with each number in turn the default's.
fn check(asked: &mut Asked, counts: &mut Counts) -> Told {
    let settings = asked.chart.low.settings;
    let told = accepted(asked);
    for (number, value) in numbers(settings).into_iter().enumerate() {
        asked.chart.low.settings = with_default(settings, number);
        counts.add(number, value, accepted(asked).unlike(&told));
    }
    told
}

/// Whether a hit pattern has its like farther back than the default looks.
fn is_far(told: &Told, search_limit: u64) -> bool {
    let mut intervals = told.encoded.interval.iter().map(|&x| u64::from(x));
    intervals.any(|x| x >= Settings::DEFAULT.search_limit && x < search_limit)
}

#[test]
fn answers_are_the_plain_ones_under_every_set() {
    let mut random = Xorshift::new(0x5E77165);
    let (mut counts, mut far) = (Counts::default(), 0);
    for _ in 0..2_400 {
        let settings = drawn_settings(&mut random);
        let mut asked = drawn_chart(&mut random, settings);
        let told = check(&mut asked, &mut counts);
        far += usize::from(is_far(&told, settings.search_limit));
    }
    println!("{far} charts whose likes stand far back");
    assert!(far >= 50, "{far} charts whose likes stand far back");
    for (number, (calls, values)) in DECIDED.iter().zip(others()).enumerate() {
        counts.check(number, calls, &values);
    }
}
