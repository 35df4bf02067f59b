//! The settings: each of the four numbers in its field, and at the library.

use dresserduck::{Chart, Settings, TapChart, Workspace};

const BASE: Settings = Settings::DEFAULT;

#[test]
fn each_number_is_set_in_its_field() {
    assert_eq!(Settings::default(), BASE);
    let Settings {
        margin,
        search_limit,
        threshold,
        tolerance,
    } = BASE;
    let numbers = [margin, search_limit as f64, threshold, tolerance];
    assert_eq!(numbers, [5.0, 16.0, 0.1, 0.01]);
    let other = Settings {
        margin: 1.5,
        ..BASE
    };
    assert_eq!(BASE.with_margin(1.5), other);
    let other = Settings {
        search_limit: 40,
        ..BASE
    };
    assert_eq!(BASE.with_search_limit(40), other);
    let other = Settings {
        threshold: 0.75,
        ..BASE
    };
    assert_eq!(BASE.with_threshold(0.75), other);
    let other = Settings {
        tolerance: 0.25,
        ..BASE
    };
    assert_eq!(BASE.with_tolerance(0.25), other);
}

/// Runs of three notes at 100, 107 and about 122 milliseconds, each with a late first note. The kinds repeat two hit patterns back, and
/// each ratio is a fifth more than that two before, or a sixth less.
struct Lists {
    kind: [u8; 9],
    start: [f64; 9],
    delta: [f64; 9],
    ratio: [f64; 9],
}

const LISTS: Lists = Lists {
    kind: [0, 1, 1, 0, 0, 1, 0, 0, 1],
    start: [
        0.0, 100.0, 200.0, 500.0, 607.0, 714.0, 1014.0, 1134.0, 1258.0,
    ],
    delta: [
        300.0, 100.0, 100.0, 300.0, 107.0, 107.0, 300.0, 120.0, 124.0,
    ],
    ratio: [1.0, 1.0, 1.2, 1.2, 1.0, 1.0, 1.2, 1.2, 1.0],
};

/// All that the eight calls say of it, as text.
fn told(settings: Settings) -> [String; 8] {
    let Lists {
        kind,
        start,
        delta,
        ratio,
    } = &LISTS;
    let chart = Chart::new(kind, start, delta, ratio);
    let ranges = TapChart::new(kind, start, delta, delta, ratio);
    let mut workspace = Workspace::new();
    [
        format!("{:?}", workspace.encode(&chart, settings)),
        format!("{:?}", workspace.turns(&chart, settings)),
        format!("{:?}", workspace.colour(&chart, settings)),
        format!("{:?}", workspace.stretch(&chart, settings, 0..9)),
        format!("{:?}", workspace.lesson(&chart, settings, &[0..9, 5..7])),
        format!("{:?}", workspace.rhythm(&chart, settings)),
        format!("{:?}", workspace.taps(&ranges, settings)),
        format!("{:?}", workspace.record(&chart, settings, 2, 1000.0)),
    ]
}

/// Of encode, turns, colour, stretch, lesson, rhythm, taps and record those that say something else than by default.
fn changed(settings: Settings) -> [bool; 8] {
    let (base, other) = (told(BASE), told(settings));
    [0, 1, 2, 3, 4, 5, 6, 7].map(|call| base[call] != other[call])
}

/// None of them moves what turns says.
#[test]
fn each_number_reaches_the_library() {
    assert!(told(BASE).iter().all(|text| text.starts_with("Ok(")));
    let [no, yes] = [false, true];
    let margin = changed(BASE.with_margin(0.5));
    assert_eq!(margin, [no, no, no, no, no, yes, yes, yes], "margin");
    let limit = changed(BASE.with_search_limit(2));
    assert_eq!(limit, [yes, no, yes, yes, yes, no, no, no], "limit");
    let threshold = changed(BASE.with_threshold(0.0));
    assert_eq!(threshold, [no, no, no, no, no, no, no, yes], "threshold");
    let tolerance = changed(BASE.with_tolerance(0.25));
    assert_eq!(tolerance, [no, no, yes, yes, yes, no, no, no], "tolerance");
}
