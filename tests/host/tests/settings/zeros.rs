//! A zero's sign says nothing.

use host_tests::eight::accepted;
use host_tests::samples::Xorshift;
use host_tests::sets::{drawn_chart, drawn_settings};

use dresserduck::Settings;

/// The same set, of whose margin, threshold and tolerance those are this zero that are asked for.
fn with_zeros(settings: Settings, zero: f64, which: [bool; 3]) -> Settings {
    let Settings {
        margin,
        search_limit,
        threshold,
        tolerance,
    } = settings;
    let or_zero = |number: f64, at: usize| if which[at] { zero } else { number };
    Settings {
        margin: or_zero(margin, 0),
        search_limit,
        threshold: or_zero(threshold, 1),
        tolerance: or_zero(tolerance, 2),
    }
}

/// What all eight calls answer is the same, every bit: `accepted` tells it as it found it in the lent memory.
#[test]
fn minus_zero_answers_as_zero_does() {
    let mut random = Xorshift::new(0x2E805);
    for round in 0..700 {
        // one of them, two, or all
        let which = [1, 2, 4].map(|bit| (1 + round % 7) & bit != 0);
        let drawn = drawn_settings(&mut random);
        let [plus, minus] = [0.0, -0.0].map(|zero| with_zeros(drawn, zero, which));
        let mut asked = drawn_chart(&mut random, plus);
        let told = accepted(&asked);
        asked.chart.low.settings = minus;
        assert_eq!(accepted(&asked), told, "{which:?} in {}", asked.chart);
    }
}
