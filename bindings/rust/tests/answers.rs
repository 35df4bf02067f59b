//! Every field of every answer, on charts that give no two fields the same.

use dresserduck::{Chart, GroupRecord, Settings, Workspace};

const BASE: Settings = Settings::DEFAULT;

fn digits(text: &str) -> Vec<u16> {
    let digit = |letter: char| letter.to_digit(16).expect("a digit") as u16;
    text.chars().map(digit).collect()
}

/// d kk d kk, then dkd kk dkd kk.
const COLOURS: [u8; 16] = [0, 1, 1, 0, 1, 1, 0, 1, 0, 1, 1, 0, 1, 0, 1, 1];

#[test]
fn an_encoding_has_each_number_in_its_field() {
    let (times, ratio) = ([125.0; 16], [1.0; 16]);
    let chart = Chart::new(&COLOURS, &times, &times, &ratio);
    let encoding = Workspace::new().encode(&chart, BASE).unwrap();
    assert_eq!(encoding.hit_patterns, 2);
    assert_eq!(encoding.streak, digits("0112334567789abb"));
    assert_eq!(encoding.streak_place, digits("0000000120001200"));
    assert_eq!(encoding.pattern, digits("0112334445566677"));
    assert_eq!(encoding.pattern_place, digits("0112330001122233"));
    assert_eq!(encoding.hit, digits("0000001111111111"));
    assert_eq!(encoding.interval, [[17; 6].as_slice(), &[1; 10]].concat());
    let objects: Vec<_> = encoding.hit_pattern_objects().collect();
    assert_eq!(objects, [0..6, 6..16]);
}

#[test]
fn colour_looks_at_the_ratios_alone_and_a_stretch_at_its_objects() {
    let (kind, start, delta) = ([0, 1, 1, 0], [0.0, 50.0, 150.0, 300.0], [75.0; 4]);
    let ratio = [1.0, 0.5, 1.0, 0.5];
    let chart = Chart::new(&kind, &start, &delta, &ratio);
    let mut workspace = Workspace::new();
    let values = workspace.colour(&chart, BASE).unwrap();
    let exchanged = workspace.colour(&Chart::new(&kind, &delta, &start, &ratio), BASE);
    assert_eq!(exchanged.as_ref(), Ok(&values));
    let other = workspace.colour(&Chart::new(&kind, &start, &delta, &[1.0; 4]), BASE);
    assert_ne!(other.unwrap()[3], values[3]);
    let stretch = workspace.stretch(&chart, BASE, 1..3).unwrap();
    assert_eq!(stretch.mean, (values[1] + values[2]) / 2.0);
    assert_eq!(stretch.tenths, (stretch.mean * 10.0).round() as i64);
    // with a NonHit in it, which has a value too
    let chart = Chart::new(&[0, 1, 2, 0], &start, &delta, &ratio);
    let values = workspace.colour(&chart, BASE).unwrap();
    assert_ne!(values[2], 0.0);
    let mean = workspace
        .stretch(&chart, BASE, 1..4)
        .map(|stretch| stretch.mean);
    assert_eq!(mean, Ok((values[1] + values[3]) / 2.0));
}

/// Groups of deltas 100, 150 with a NonHit before them, 200, and one note of 400.
const KINDS: [u8; 11] = [0, 0, 0, 2, 1, 1, 1, 0, 0, 0, 1];
const STARTS: [f64; 11] = [
    0.0, 100.0, 200.0, 250.0, 350.0, 500.0, 650.0, 850.0, 1050.0, 1250.0, 1650.0,
];
const DELTAS: [f64; 11] = [
    100.0, 100.0, 100.0, 50.0, 150.0, 150.0, 150.0, 200.0, 200.0, 200.0, 400.0,
];

fn grouped() -> Chart<'static> {
    Chart::new(&KINDS, &STARTS, &DELTAS, &[1.0; 11])
}

#[test]
fn a_rhythm_has_groups_and_pattern_groups() {
    let rhythm = Workspace::new().rhythm(&grouped(), BASE).unwrap();
    assert_eq!((rhythm.groups, rhythm.pattern_groups), (4, 3));
    let objects = [0, 2, 3, 4, 6, 7, 9, 10, 11];
    let (a, b, c, d) = (Some(0), Some(1), Some(2), Some(3));
    let groups = objects.map(|object| rhythm.group(object));
    assert_eq!(groups, [a, a, None, b, b, c, c, d, None]);
    let patterns = objects.map(|object| rhythm.pattern_group(object));
    assert_eq!(patterns, [a, a, None, a, a, b, b, c, None]);
}

#[test]
fn a_record_has_each_number_in_its_field() {
    let mut workspace = Workspace::new();
    let third = GroupRecord {
        first_note: 7,
        note_count: 3,
        own_interval: Some(200.0),
        ratio: 200.0 / 150.0,
        interval: 500.0,
        penalty: 0.5,
        pattern_group: 1,
        pattern_ratio: 500.0 / 350.0,
    };
    assert_eq!(workspace.record(&grouped(), BASE, 2, 1000.0), Ok(third));
    let last = GroupRecord {
        first_note: 10,
        note_count: 1,
        own_interval: None,
        ratio: 1.0,
        interval: 800.0,
        penalty: 1.0,
        pattern_group: 2,
        pattern_ratio: 800.0 / 500.0,
    };
    assert_eq!(workspace.record(&grouped(), BASE, 3, 1000.0), Ok(last));
    let first = workspace.record(&grouped(), BASE, 0, 1000.0).unwrap();
    assert_eq!(first.interval, f64::INFINITY);
}
