//! Layers, each above the one before: a crate uses no crate of a layer above its own, and its proofs cite the promises and laws of the
//! crates below it and open none of their definitions.

use std::collections::BTreeSet;
use std::fs;
use std::path::{Path, PathBuf};

use repository_tests::{files_in, root};

/// Files of examples and counterexamples: there definitions compute, so they are opened.
const COMPUTED: [&str; 5] = [
    "Examples.antt",
    "OwnExamples.antt",
    "StarredRight.antt",
    "FalseReadings.antt",
    "WiderLandmarks.antt",
];

/// The crates of the repository.
fn crates() -> BTreeSet<String> {
    let folders = fs::read_dir(root().join("crates")).expect("crates/");
    let names = folders.map(|entry| entry.expect("a crate").file_name());
    names.filter_map(|name| name.into_string().ok()).collect()
}

/// The name that a word of a list gives: `a`, or the second one of `a as b`.
fn given(word: &str) -> &str {
    word.split_once(" as ").map_or(word, |(_, name)| name)
}

/// What a file names of other crates' definitions: `use Rattle.CRATE.specs.FILE.{a, b as c}`, or a name for all of a file. What is not of
/// the repository is the kit's.
fn named_of_others(text: &str, own: &str, crates: &BTreeSet<String>) -> BTreeSet<String> {
    let mut names = BTreeSet::new();
    for line in text.lines() {
        let marked = line.trim_start_matches("unfoldable ");
        let Some(path) = marked
            .trim_start_matches("pub ")
            .strip_prefix("use Rattle.")
        else {
            continue;
        };
        let Some((krate, rest)) = path.split_once(".specs.") else {
            continue;
        };
        if krate == own || !crates.contains(krate) {
            continue;
        }
        if let Some((_, list)) = rest.split_once(".{") {
            let each = list.trim_end_matches('}').split(", ");
            names.extend(each.map(|word| given(word).to_string()));
        } else {
            let last = rest.rsplit('.').next().unwrap_or(rest);
            names.insert(given(last).to_string());
        }
    }
    names
}

/// The definitions of other crates that a file of this crate opens.
fn opened(text: &str, own: &str, crates: &BTreeSet<String>) -> Vec<String> {
    let others = named_of_others(text, own, crates);
    let of_another = |word: &&str| {
        let first = word.split('.').next().unwrap_or(word);
        let path = word
            .strip_prefix("Rattle.")
            .and_then(|path| path.split_once('.'));
        let is_whole = path.is_some_and(|(krate, _)| krate != own && crates.contains(krate));
        is_whole || others.contains(*word) || (word.contains('.') && others.contains(first))
    };
    let words = unfolded(text).into_iter();
    words.filter(of_another).map(str::to_string).collect()
}

/// The words behind `unfolding`, also those on the lines below it that are indented further, and those of `unfold .. in`.
fn unfolded(text: &str) -> Vec<&str> {
    let indent = |line: &str| line.len() - line.trim_start().len();
    let mut words = Vec::new();
    let mut within = None;
    for line in text.lines() {
        if let Some(names) = line.trim().strip_prefix("unfolding ") {
            within = Some(indent(line));
            words.extend(names.split_whitespace());
        } else if within.is_some_and(|start| indent(line) > start) {
            words.extend(line.split_whitespace());
        } else {
            within = None;
        }
        for behind in line.split("unfold ").skip(1) {
            let names = behind.split_whitespace();
            words.extend(names.take_while(|word| *word != "in"));
        }
    }
    words
}

/// What a `tactic` attribute of a source opens, by the paths of its `unfolding(..)`.
fn opened_by_attribute(text: &str) -> Vec<&str> {
    let lists = text.split("unfolding(").skip(1);
    let within = lists.map(|behind| behind.split(')').next().unwrap_or(behind));
    let paths = within.flat_map(|list| list.split(',')).map(str::trim);
    paths.filter(|path| !path.is_empty()).collect()
}

/// The crate that a file stands in.
fn crate_of(path: &Path) -> String {
    let inside = path
        .strip_prefix(root().join("crates"))
        .expect("a file of a crate");
    let first = inside.components().next().expect("a crate");
    first.as_os_str().to_string_lossy().into_owned()
}

fn is_computed(path: &Path) -> bool {
    let name = path.file_name().unwrap_or_default().to_string_lossy();
    COMPUTED.contains(&name.as_ref())
}

#[test]
fn no_proof_opens_a_definition_of_another_crate() {
    let files = files_in(&root().join("crates"));
    let is_proof = |path: &&PathBuf| path.extension().is_some_and(|end| end == "antt");
    let crates = crates();
    let mut read = 0;
    for path in files
        .iter()
        .filter(is_proof)
        .filter(|path| !is_computed(path))
    {
        let text = fs::read_to_string(path).expect("a text");
        let names = opened(&text, &crate_of(path), &crates);
        assert!(names.is_empty(), "{} opens {names:?}", path.display());
        read += 1;
    }
    assert!(read > 100, "only {read} files were read");
}

#[test]
fn no_attribute_opens_a_definition_of_another_crate() {
    let files = files_in(&root().join("crates"));
    let is_source = |path: &&PathBuf| path.extension().is_some_and(|end| end == "rt");
    let crates = crates();
    let mut read = 0;
    for path in files.iter().filter(is_source) {
        let text = fs::read_to_string(path).expect("a text");
        let paths = opened_by_attribute(&text).into_iter();
        let first = |path: &&str| path.split("::").next().unwrap_or(path).to_string();
        let others: Vec<&str> = paths.filter(|path| crates.contains(&first(path))).collect();
        assert!(others.is_empty(), "{} opens {others:?}", path.display());
        read += 1;
    }
    assert!(read > 50, "only {read} files were read");
}

#[test]
fn an_opened_definition_is_seen() {
    let text = "use Rattle.numeric.specs.Near.{abs_of, is_near as close}\nuse Rattle.numeric.specs.Tenths as tenths\n\
                use Rattle.numeric.specs.Range\nuse Rattle.own.specs.Own.{mine}\nuse Rattle.std.specs.Prelude.{length}\n  \
                unfolding mine close length\n    tenths.with_sign\n  x = abs_of\n  y = unfold length abs_of in refl\n  \
                z = unfold Range.within mine in refl\n  unfolding Rattle.numeric.specs.Near.abs_of";
    let crates = BTreeSet::from(["numeric".to_string(), "own".to_string()]);
    let expected = [
        "close",
        "tenths.with_sign",
        "abs_of",
        "Range.within",
        "Rattle.numeric.specs.Near.abs_of",
    ];
    assert_eq!(opened(text, "own", &crates), expected);
    let source = "#[tactic(auto, using(crate::proofs::A::b), unfolding(crate::specs::C::d, numeric::specs::Near::near))]";
    let paths = ["crate::specs::C::d", "numeric::specs::Near::near"];
    assert_eq!(opened_by_attribute(source), paths);
}

/// Lent memory, arithmetic, the groupings, the evaluators, the calls, then all that stands on them: a crate's first word says which.
fn layer(krate: &str) -> usize {
    match krate.split('_').next().unwrap_or(krate) {
        "lent" => 0,
        "numeric" => 1,
        "grouping" => 2,
        "evaluator" => 3,
        "call" => 4,
        _ => 5,
    }
}

#[test]
fn no_crate_uses_a_layer_above_its_own() {
    let list = fs::read_to_string(root().join("crates.txt")).expect("crates.txt");
    let crates = list.lines().filter_map(|line| line.split_once(':'));
    let mut layers = [0; 6];
    for (krate, uses) in crates.filter(|(krate, _)| !krate.starts_with('#')) {
        layers[layer(krate)] += 1;
        let kit = |name: &&str| ["io", "os", "libc", "bytes", "check"].contains(name);
        for used in uses.split_whitespace().filter(|name| !kit(name)) {
            assert!(layer(used) <= layer(krate), "{krate} uses {used}");
        }
    }
    assert!(layers.iter().all(|&count| count > 0), "{layers:?}");
}
