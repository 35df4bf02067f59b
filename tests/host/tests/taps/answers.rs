//! What the call tells of charts: what a plain version tells, and where the groups are known, what rhythm answers,
//! whatever the deltas are.

use crate::grouped;
use dresserduck::Settings;
use host_tests::chart::Chart;
use host_tests::plain_rhythm::Groups;
use host_tests::plain_taps::{class_of_deltas, Told, NO_PAIR, OPEN};
use host_tests::samples::{rhythmic_chart, scatter, tap_chart, Xorshift};
use host_tests::sets::{drawn_chart, MARGINS};
use host_tests::taps::{accepted, accepted_with, exact_sizes, TapChart};
use host_tests::LARGEST_CHART;

/// What the samples had to say; no claim may be an empty one.
#[derive(Debug, Default)]
struct Counts {
    classes: [usize; 4],
    known: usize,
    // with an open pair, at which the grouping does not look
    known_with_open: usize,
    open: usize,
    // two choices that have different groups
    differ: usize,
}

impl Counts {
    fn add(&mut self, told: &Told) {
        for class in told.pair.iter().filter(|&&class| class != NO_PAIR) {
            self.classes[usize::from(*class)] += 1;
        }
        match told.groups {
            None => self.open += 1,
            Some(_) => {
                self.known += 1;
                self.known_with_open += usize::from(told.pair.contains(&OPEN));
            }
        }
    }
}

/// Each pair that isn't open has its class, and the groups, where they are known, are those that rhythm answers.
#[track_caller]
fn check_choice(chart: &TapChart, told: &Told, choice: &Chart) {
    for two in choice.notes().windows(2) {
        let [a, b] = [two[0], two[1]];
        if told.pair[a] != OPEN {
            let margin = choice.settings.margin;
            let class = class_of_deltas(choice.delta[a], choice.delta[b], margin);
            assert_eq!(told.pair[a], class, "note {a} of {choice}");
        }
    }
    if let Some(groups) = &told.groups {
        let (count, of_object) = grouped(choice);
        assert_eq!(groups.of_object, of_object, "{choice}\nof a chart {chart}");
        assert_eq!(groups.count, count, "{choice}\nof a chart {chart}");
    }
}

/// The plain version's answer, and four choices.
fn check_chart(random: &mut Xorshift, chart: &TapChart, counts: &mut Counts) {
    let told = accepted(chart);
    counts.add(&told);
    let mut groups = Vec::new();
    for _ in 0..4 {
        let choice = chart.choice(random);
        check_choice(chart, &told, &choice);
        groups.push(Groups::of(&choice).objects);
    }
    counts.differ += usize::from(groups.iter().any(|other| *other != groups[0]));
}

#[test]
fn answers_are_the_plain_ones_and_those_of_every_choice() {
    let mut random = Xorshift::new(0x7A95);
    let mut counts = Counts::default();
    for _ in 0..4_000 {
        let n = random.below(61);
        let chart = tap_chart(&mut random, n);
        check_chart(&mut random, &chart, &mut counts);
    }
    println!("{counts:?}");
    let enough = counts.classes.iter().all(|&count| count > 3_000)
        && counts.known > 1_000
        && counts.known_with_open > 50
        && counts.open > 1_000
        && counts.differ > 500;
    assert!(enough, "{counts:?}");
}

/// Rhythm is asked under the same margin.
#[test]
fn so_they_are_under_other_margins() {
    let mut random = Xorshift::new(0x7A96);
    for margin in MARGINS {
        let settings = Settings::DEFAULT.with_margin(margin);
        let mut counts = Counts::default();
        for _ in 0..400 {
            let chart = drawn_chart(&mut random, settings).chart;
            check_chart(&mut random, &chart, &mut counts);
        }
        println!("{margin:e}: {counts:?}");
        let enough = counts.known > 100 && counts.open > 40 && counts.differ > 20;
        assert!(enough, "{margin:e}: {counts:?}");
    }
}

/// Up to the largest chart.
#[test]
fn large_charts_are_answered_too() {
    let mut random = Xorshift::new(0x1A26E);
    let (mut known, mut open) = (0, 0);
    for n in [1_000, 4_095, 8_192, LARGEST_CHART - 1, LARGEST_CHART] {
        for _ in 0..6 {
            let chart = tap_chart(&mut random, n);
            let told = accepted(&chart);
            let choice = chart.choice(&mut random);
            check_choice(&chart, &told, &choice);
            match told.groups {
                None => open += 1,
                Some(_) => known += 1,
            }
        }
    }
    assert!(known > 5 && open > 5, "{known} known, {open} open");
}

/// As many groups as there can be, and one.
#[test]
fn the_largest_chart_has_each_note_for_a_group_or_all() {
    let n = LARGEST_CHART;
    let mut falling = TapChart::of_size(n);
    falling.low.kind.fill(0);
    for (object, highest) in falling.highest.iter_mut().enumerate() {
        *highest = (n - object) as f64 * 8.0;
        falling.low.delta[object] = *highest - 1.0;
    }
    let groups = accepted(&falling).groups.map(|groups| groups.count);
    assert_eq!(groups, Some(n as u64));
    let mut even = TapChart::of_size(n);
    even.low.kind.fill(1);
    let groups = accepted(&even).groups.map(|groups| groups.count);
    assert_eq!(groups, Some(1));
}

/// With equal ends nothing is open: the groups are those of rhythm, also where a zero's ends have two signs.
#[test]
fn with_equal_ends_the_groups_are_those_of_rhythm() {
    let mut random = Xorshift::new(0xE42A1);
    let mut zeros = 0;
    for _ in 0..3_000 {
        let n = random.below(61);
        let chart = rhythmic_chart(&mut random, n);
        let mut known = TapChart::exact(&chart);
        for object in 0..n {
            if chart.delta[object] == 0.0 {
                known.low.delta[object] = random.pick(&[0.0, -0.0]);
                known.highest[object] = random.pick(&[0.0, -0.0]);
                zeros += 1;
            }
        }
        let told = accepted(&known);
        assert!(told.groups.is_some(), "{known}");
        assert!(!told.pair.contains(&OPEN), "{known}");
        check_choice(&known, &told, &chart);
    }
    assert!(zeros > 1_000, "{zeros} zeros");
}

/// Starts, ratios, colours and the ranges of NonHits change nothing.
#[test]
fn nothing_but_notes_and_their_ranges_is_asked() {
    let mut random = Xorshift::new(0x57A27);
    for _ in 0..500 {
        let n = random.below(61);
        let chart = tap_chart(&mut random, n);
        let told = accepted(&chart);
        let mut other = chart.clone();
        scatter(&mut random, &mut other.low);
        for object in 0..n {
            let kind = &mut other.low.kind[object];
            if *kind == 2 {
                other.highest[object] = 16_777_216.0;
            } else {
                *kind = random.below(2) as u8;
                other.low.delta[object] = chart.low.delta[object];
            }
        }
        accepted_with(&other, exact_sizes(n), &told);
    }
}
