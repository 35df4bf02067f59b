//! include/dresserduck.h says what the library exports: the same calls and records, with the same names and types in the same order.
//! Its numbers are those of the Rust crate.

use std::collections::BTreeMap;
use std::fs;
use std::path::Path;

use dresserduck::{PairClass, Refusal, Settings};

/// A call's arguments or a record's fields, in C, by its name. A call's answer stands first.
type Declared = BTreeMap<String, Vec<String>>;

/// The text of every file in a folder of the repository.
fn texts_in(folder: &str) -> String {
    let root = Path::new(env!("CARGO_MANIFEST_DIR")).join("../..");
    let files = fs::read_dir(root.join(folder)).expect("a folder of the repository");
    let text = |file: std::io::Result<fs::DirEntry>| fs::read_to_string(file?.path());
    files.map(|file| text(file).expect("a text")).collect()
}

/// What stands between the marks, over and over.
fn all_between<'a>(text: &'a str, open: &str, close: &str) -> Vec<&'a str> {
    let parts = text.split(open).skip(1);
    parts
        .map(|part| part.split(close).next().unwrap_or(part))
        .collect()
}

fn without_comments(text: &str) -> String {
    let code = |part: &str| {
        part.split_once("*/")
            .map_or(String::new(), |(_, code)| code.into())
    };
    let mut parts = text.split("/*");
    let first = parts.next().unwrap_or_default().to_string();
    first + &parts.map(code).collect::<String>()
}

/// One blank between words, and no underscore: a field's name has none in Rattle.
fn plain(words: &str) -> String {
    let words: Vec<&str> = words.split_whitespace().collect();
    words.join(" ").replace("* ", "*").replace('_', "")
}

fn plain_list(text: &str, mark: char) -> Vec<String> {
    let items = text.split(mark).map(plain);
    items.filter(|item| !item.is_empty()).collect()
}

fn in_header(header: &str) -> (Declared, Declared) {
    let code = without_comments(header);
    let records = all_between(&code, "typedef struct ", "}")
        .into_iter()
        .map(|text| {
            let (name, fields) = text.split_once('{').expect("a record's {");
            (plain(name), plain_list(fields, ';'))
        });
    let calls = all_between(&code, "\ndresserduck_", ");")
        .into_iter()
        .map(|text| {
            let (head, arguments) = text.split_once('(').expect("a call's (");
            let (answer, name) = head.split_once(' ').expect("a call's answer and name");
            let mut all = vec![plain(&format!("dresserduck_{answer}"))];
            all.extend(plain_list(arguments, ','));
            (plain(name), all)
        });
    (records.collect(), calls.collect())
}

fn c_type(name: &str) -> &str {
    match name {
        "u8" => "uint8_t",
        "u16" => "uint16_t",
        "u64" => "uint64_t",
        "i64" => "int64_t",
        "usize" => "size_t",
        "f64" => "double",
        "Settings" => "dresserduck_settings",
        _ => panic!("{name:?} has no type in C"),
    }
}

/// `name: type` as C has it: a slice is a pointer and a count.
fn in_c(item: &str) -> Vec<String> {
    let (name, of) = item.split_once(": ").expect("a name and a type");
    let name = name.trim().trim_start_matches("pub ");
    let (mutable, shared) = (of.strip_prefix("&mut ["), of.strip_prefix("&["));
    let Some(element) = mutable.or(shared) else {
        return vec![plain(&format!("{} {name}", c_type(of)))];
    };
    let constant = if mutable.is_some() { "" } else { "const " };
    let element = c_type(element.trim_end_matches(']'));
    let pointer = format!("{constant}{element} *{name}");
    vec![plain(&pointer), plain(&format!("size_t {name}_count"))]
}

fn all_in_c(items: &str) -> Vec<String> {
    let items = items.split(',').filter(|item| !item.trim().is_empty());
    items.flat_map(in_c).collect()
}

fn in_c_named(name: &str) -> String {
    format!("dresserduck{}", name.to_lowercase())
}

/// What a struct derives says nothing of its fields.
fn without_derives(source: &str) -> String {
    let is_kept = |line: &&str| !line.starts_with("#[derive(");
    let lines: Vec<&str> = source.lines().filter(is_kept).collect();
    lines.join("\n")
}

fn in_source(source: &str) -> (Declared, Declared) {
    let source = without_derives(source);
    let records = all_between(&source, "#[repr(C)]\npub struct ", "}")
        .into_iter()
        .map(|text| {
            let (name, fields) = text.split_once('{').expect("a record's {");
            (in_c_named(name.trim()), all_in_c(fields))
        });
    let calls = all_between(&source, "pub extern \"C\" fn ", "\n    ensures")
        .into_iter()
        .map(|text| {
            let (name, rest) = text.split_once('(').expect("a call's (");
            let (arguments, answer) = rest.split_once(") -> ").expect("a call's answer");
            let mut all = vec![in_c_named(answer)];
            all.extend(all_in_c(arguments));
            (plain(name), all)
        });
    (records.collect(), calls.collect())
}

/// The exports and their answers, and the settings that they take.
fn exporting() -> String {
    let settings = include_str!("../../../crates/grouping_chart/src/settings.rt");
    texts_in("crates/dresserduck/src") + settings
}

#[test]
fn the_header_declares_what_is_exported() {
    let (records, calls) = in_header(&texts_in("include"));
    let (exported_records, exported_calls) = in_source(&exporting());
    assert_eq!(records, exported_records);
    assert_eq!(calls, exported_calls);
    assert_eq!((records.len(), calls.len()), (10, 9), "{:?}", calls.keys());
    let fields: usize = records.values().map(Vec::len).sum();
    let arguments: usize = calls.values().map(|call| call.len() - 1).sum();
    assert_eq!((fields, arguments), (39, 161), "fields and arguments");
}

/// The names in the header's enums without what all begin with, and their numbers.
fn numbers(header: &str) -> BTreeMap<String, u64> {
    let code = without_comments(header);
    let enums = all_between(&code, "enum {", "}").into_iter();
    let items = enums.flat_map(|text| text.split(','));
    let number = |item: &str| {
        let (name, number) = item.split_once('=').expect("a name and its number");
        let name = name.trim().strip_prefix("DRESSERDUCK_");
        let number = number.trim().parse().expect("a number");
        (name.expect("a name of the library").to_string(), number)
    };
    items.map(number).collect()
}

#[test]
fn the_headers_numbers_are_those_of_the_rust_crate() {
    let object = 0;
    let turned = Refusal::LowestAboveHighest { object };
    let want = [
        ("CENTER", dresserduck::CENTER.into()),
        ("RIM", dresserduck::RIM.into()),
        ("NON_HIT", dresserduck::NON_HIT.into()),
        ("NO_TURN", dresserduck::NO_TURN.into()),
        ("NO_GROUP", dresserduck::NO_GROUP.into()),
        ("NEAR", PairClass::Near.number().into()),
        ("RISE", PairClass::Rise.number().into()),
        ("NEITHER", PairClass::Neither.number().into()),
        ("OPEN", PairClass::Open.number().into()),
        ("NO_PAIR", dresserduck::NO_PAIR.into()),
        ("LARGEST_CHART", dresserduck::LARGEST_CHART as u64),
        ("LARGEST_RAW_CHART", dresserduck::LARGEST_RAW_CHART as u64),
        ("MOST_PAIRS", dresserduck::MOST_PAIRS as u64),
        ("ACCEPTED", 0),
        ("TOO_MANY_OBJECTS", Refusal::TooManyObjects.number()),
        ("LENGTHS_DIFFER", Refusal::LengthsDiffer.number()),
        ("SLICE_TOO_SHORT", Refusal::SliceTooShort.number()),
        ("BAD_KIND", Refusal::BadKind { object }.number()),
        ("BAD_START", Refusal::BadStart { object }.number()),
        ("BAD_DELTA", Refusal::BadDelta { object }.number()),
        ("BAD_RATIO", Refusal::BadRatio { object }.number()),
        ("BAD_WINDOW", Refusal::BadWindow.number()),
        ("BAD_STRETCH", Refusal::OutsideChart.number()),
        ("BAD_GROUP", Refusal::OutsideChart.number()),
        ("BAD_RATE", Refusal::BadRate.number()),
        ("NO_NOTE", Refusal::NoNote.number()),
        ("LOWEST_ABOVE_HIGHEST", turned.number()),
        ("BAD_SETTINGS", Refusal::BadSettings.number()),
        ("BAD_LESSON", Refusal::BadLesson.number()),
    ];
    let want = want.map(|(name, number)| (name.to_string(), number));
    assert_eq!(numbers(&texts_in("include")), BTreeMap::from(want));
}

/// In the order of the fields, which the header has as the Rust crate does.
#[test]
fn the_headers_default_settings_are_those_of_the_rust_crate() {
    let header = texts_in("include");
    let defaults = all_between(&header, "#define DRESSERDUCK_DEFAULT_SETTINGS {", "}");
    let [default] = defaults[..] else {
        panic!("{defaults:?} is not one default");
    };
    let Settings {
        margin,
        search_limit,
        threshold,
        tolerance,
    } = Settings::DEFAULT;
    let want = [margin, search_limit as f64, threshold, tolerance];
    let number = |text: &str| text.trim().parse::<f64>().expect("a number");
    let got: Vec<f64> = default.split(',').map(number).collect();
    assert_eq!(got, want);
}
