//! A definition that a reader must believe has a name of its own: no two crates define one in specs/, outside of specs/passes.

use std::collections::{BTreeMap, BTreeSet};
use std::fs;
use std::path::Path;

use repository_tests::{defined, files_in, root};

/// What every call has of its own: its lent slices, what they must be like, and what it leaves in them.
const OF_EVERY_CALL: [&str; 5] = ["Memory", "answer_lengths", "filled", "judged", "memory"];

/// The definitions in a crate's specs/ but for its folder passes.
fn definitions(krate: &Path) -> BTreeSet<String> {
    let specs = krate.join("specs");
    let files = files_in(&specs).into_iter();
    let believed = files.filter(|file| !file.starts_with(specs.join("passes")));
    let texts = believed.filter_map(|file| fs::read_to_string(file).ok());
    let names = texts.flat_map(|text| {
        let names = defined(&text).into_iter();
        names.map(str::to_string).collect::<Vec<String>>()
    });
    names.collect()
}

/// The names that more than one crate defines.
fn clashes(crates: &BTreeMap<String, BTreeSet<String>>) -> Vec<String> {
    let mut owners: BTreeMap<&str, Vec<&str>> = BTreeMap::new();
    for (krate, names) in crates {
        for name in names {
            owners.entry(name).or_default().push(krate);
        }
    }
    let own = |name: &str, krates: &[&str]| {
        let calls = krates.iter().all(|krate| krate.starts_with("call_"));
        OF_EVERY_CALL.contains(&name) && calls
    };
    let shared = owners
        .iter()
        .filter(|(name, krates)| krates.len() > 1 && !own(name, krates));
    shared
        .map(|(name, krates)| format!("{name}: {}", krates.join(", ")))
        .collect()
}

#[test]
fn no_name_is_defined_in_two_crates() {
    let folders = fs::read_dir(root().join("crates")).expect("crates/");
    let paths = folders.map(|entry| entry.expect("a crate").path());
    let crates: BTreeMap<String, BTreeSet<String>> = paths
        .map(|path| {
            let krate = path.file_name().unwrap_or_default().to_string_lossy();
            (krate.into_owned(), definitions(&path))
        })
        .collect();
    let count: usize = crates.values().map(BTreeSet::len).sum();
    assert!(count > 300, "only {count} definitions were read");
    let clashes = clashes(&crates);
    assert!(clashes.is_empty(), "\n{}", clashes.join("\n"));
}

#[test]
fn faults_are_seen() {
    let text = "-- a : ℕ\nabbrev pub one : ℕ\none = 1\nunfoldable pub memory : ℕ → ℕ\npub record Held (n : ℕ) : Type 0 where\n  pub all : ℕ";
    assert_eq!(Vec::from_iter(defined(text)), ["Held", "memory", "one"]);

    let of = |krates: [&str; 2]| {
        let names: BTreeSet<String> = defined(text).into_iter().map(str::to_string).collect();
        BTreeMap::from(krates.map(|krate| (krate.to_string(), names.clone())))
    };
    let calls = ["Held: call_a, call_b", "one: call_a, call_b"];
    assert_eq!(clashes(&of(["call_a", "call_b"])), calls);
    let others = [
        "Held: call_a, lent",
        "memory: call_a, lent",
        "one: call_a, lent",
    ];
    assert_eq!(clashes(&of(["call_a", "lent"])), others);
}
