//! turns on good charts: examples by hand, a plain version on every short chart and on many long ones, and what plays no part in it.

use host_tests::chart::Chart;
use host_tests::check;
use host_tests::faults::settings_at_bounds;
use host_tests::lent::{exact_four, roomy_four, TwoNumbers};
use host_tests::plain_turns::{self, Turns, NO_TURN};
use host_tests::samples::{biased_chart, repeated, scatter, strings, Xorshift};
use host_tests::sets::drawn_settings;
use host_tests::turns::{accepted, accepted_with, turns, Turned};
use host_tests::LARGEST_CHART;

/// Letters; the previous notes and the next ones, a digit each and `-` for none.
type Example = (&'static str, [&'static str; 2]);

const EXAMPLES: [Example; 15] = [
    ("", ["", ""]),
    // a NonHit alone, without notes, and with one note before or after it
    ("n", ["-", "-"]),
    ("nnn", ["---", "---"]),
    ("dn", ["--", "--"]),
    ("nd", ["--", "--"]),
    // one note, and one streak
    ("k", ["-", "-"]),
    ("ddd", ["---", "---"]),
    ("dkkd", ["-002", "133-"]),
    // a NonHit alone has note 1 for the next, which stands farther on, right behind it, and before it
    ("nddk", ["---1", "122-"]),
    ("dnk", ["--0", "11-"]),
    ("dkdn", ["-01-", "12-1"]),
    // the note after a streak may have its colour, and a streak that a NonHit begins has no note before it
    ("dnd", ["---", "1--"]),
    ("knkd", ["---1", "122-"]),
    ("kddnddnk", ["-00----4", "1335551-"]),
    // two NonHits in a row, of which the second goes on with notes
    ("ddnndk", ["-----2", "22133-"]),
];

fn turns_of(example: &Example) -> Turns {
    let number = |letter: char| letter.to_digit(10).map_or(NO_TURN, |digit| digit as u16);
    example.1.map(|notes| notes.chars().map(number).collect())
}

#[test]
fn examples_as_written() {
    for example in &EXAMPLES {
        let (chart, told) = (Chart::of_text(example.0), turns_of(example));
        for sizes in [exact_four(chart.size()), roomy_four(chart.size())] {
            accepted_with(&chart, sizes, &told);
        }
    }
}

/// The plain version, which the other tests compare with, agrees with what is written out too.
#[test]
fn plain_version_on_the_examples() {
    for example in &EXAMPLES {
        let got = plain_turns::turns(&Chart::of_text(example.0).kind);
        assert_eq!(got, turns_of(example), "plain version on {:?}", example.0);
    }
}

/// All objects of a streak, as encode numbers them, have the same two. How many go on with a streak.
#[track_caller]
fn check_streaks(chart: &Chart, told: &Turns) -> usize {
    let [streak, ..] = check::accepted(chart).numbers;
    let both = |object: usize| told.each_ref().map(|list| list[object]);
    let goes_on = |&object: &usize| streak[object] == streak[object - 1];
    let mut going_on = 0;
    for object in (1..chart.size()).filter(goes_on) {
        assert_eq!(both(object), both(object - 1), "{object} of {chart}");
        going_on += 1;
    }
    going_on
}

#[test]
fn every_chart_up_to_eight_objects() {
    let mut tried = 0;
    for kinds in (0..=8).flat_map(strings) {
        let chart = Chart::of_kinds(kinds);
        check_streaks(&chart, &accepted(&chart));
        tried += 1;
    }
    assert_eq!(tried, 9_841, "1 + 3 + .. + 3^8 charts");
}

/// How many objects the random charts have that are worth trying; no claim may be an empty one.
#[derive(Debug, Default)]
struct Seen {
    // that are not the first of their streak
    going_on: usize,
    // NonHits whose next note, note 1, stands before them
    next_before: usize,
    // with no previous note, though notes stand before
    none_before: usize,
    // whose next note has their colour
    own_colour: usize,
    // with a previous note and a next one
    both: usize,
}

impl Seen {
    fn count(&mut self, chart: &Chart, told: &Turns) {
        let notes = chart.notes();
        let is_before = |note: usize, object: usize| notes.get(note).is_some_and(|&at| at < object);
        for (object, &kind) in chart.kind.iter().enumerate() {
            let [previous, next] = told.each_ref().map(|list| list[object]);
            let colour = notes.get(usize::from(next)).map(|&note| chart.kind[note]);
            self.next_before += usize::from(kind == 2 && next == 1 && is_before(1, object));
            self.none_before += usize::from(previous == NO_TURN && is_before(0, object));
            self.own_colour += usize::from(colour == Some(kind));
            self.both += usize::from(previous != NO_TURN && next != NO_TURN);
        }
    }
}

#[test]
fn random_charts() {
    let mut random = Xorshift::new(0x7021);
    let mut seen = Seen::default();
    for _ in 0..8_000 {
        let n = random.between(1, 300);
        let chart = biased_chart(&mut random, n);
        let told = accepted(&chart);
        seen.going_on += check_streaks(&chart, &told);
        seen.count(&chart, &told);
    }
    println!("{seen:?}");
    let Seen {
        going_on,
        next_before,
        none_before,
        own_colour,
        both,
    } = seen;
    let often = [going_on, next_before, none_before, own_colour, both];
    assert!(often.iter().all(|&objects| objects > 5_000), "{seen:?}");
}

#[test]
fn random_largest_charts() {
    let mut random = Xorshift::new(0x7022);
    for round in 0..60 {
        let n = LARGEST_CHART - round % 2;
        accepted(&biased_chart(&mut random, n));
    }
}

#[test]
fn repeated_largest_charts() {
    let texts = [
        "d", "k", "n", "dn", "nd", "dnn", "dkk", "dkkn", "dnk", "dkdnkddd",
    ];
    for text in texts {
        for n in [LARGEST_CHART - 1, LARGEST_CHART] {
            accepted(&repeated(text, n));
        }
    }
}

/// A streak for each object, so that the numbers are as large as they get.
#[test]
fn largest_numbers() {
    for n in [LARGEST_CHART - 1, LARGEST_CHART] {
        let [previous, next] = accepted(&repeated("dk", n));
        let last = n as u16 - 1;
        assert_eq!(previous[n - 2..], [last - 2, last - 1], "{n} notes");
        assert_eq!(next[n - 2..], [last, NO_TURN], "{n} notes");
    }
}

/// No objects: four empty slices that point at no memory will do, and roomy ones are left alone.
#[test]
fn no_objects() {
    let chart = Chart::of_text("");
    for lent in [TwoNumbers::dangling(), TwoNumbers::of_sizes([6; 4], 0)] {
        let mut memory = lent.clone();
        assert_eq!(turns(&chart, &mut memory), Turned::default());
        assert_eq!(memory.bits(), lent.bits());
    }
}

/// What every place holds after the call, which accepts.
#[track_caller]
fn after(chart: &Chart) -> [Vec<u64>; 4] {
    let mut memory = TwoNumbers::of_sizes(roomy_four(chart.size()), chart.size());
    assert_eq!(turns(chart, &mut memory), Turned::default(), "{chart}");
    memory.bits()
}

/// Starts, deltas and ratios change nothing.
#[test]
fn nothing_but_kinds_is_asked() {
    let mut random = Xorshift::new(0x7023);
    for _ in 0..500 {
        let n = random.below(61);
        let chart = biased_chart(&mut random, n);
        let mut other = chart.clone();
        scatter(&mut random, &mut other);
        assert_eq!(after(&other), after(&chart), "{other}");
    }
}

/// Nor does a permitted set: no number of it plays a part.
#[test]
fn no_number_of_the_settings_is_asked() {
    let mut random = Xorshift::new(0x7024);
    for _ in 0..200 {
        let n = random.below(61);
        let chart = biased_chart(&mut random, n);
        let by_default = after(&chart);
        let mut sets = settings_at_bounds();
        sets.extend((0..20).map(|_| drawn_settings(&mut random)));
        for settings in sets {
            let under = chart.under(settings);
            assert_eq!(after(&under), by_default, "{under}");
        }
    }
}
