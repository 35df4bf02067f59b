//! Every name in the documents stands where they say, or somewhere if they don't; docs/SCOPE.md has every must-fail edit, and README the
//! kit that the tree is proved with.

use std::collections::BTreeSet;
use std::fs;

use repository_tests::{declaration, declared, declares, found, named, root, tree_names, Named};

const DOCUMENTS: [&str; 11] = [
    "README.md",
    "CHANGELOG.md",
    "CONTRIBUTING.md",
    "crates/replay/README.md",
    "docs/GUIDE.md",
    "docs/PROOFS.md",
    "docs/SPEED.md",
    "docs/CHECKS.md",
    "docs/SCOPE.md",
    "docs/DECISIONS.md",
    "docs/DIFFERENCES.md",
];

/// What the original has and the tree has not.
const ORIGINAL: [&str; 14] = [
    "Beatmap",
    "ColorDifficultyPreprocessor",
    "HashMap",
    "RefCount",
    "TaikoDifficultyObject",
    "Vec",
    "VecDeque",
    "Weak",
    "almost_eq",
    "create_difficulty_objects",
    "exp",
    "previous_note",
    "smootherstep",
    "total_cmp",
];

/// Words of the kit, and of promises.
const KIT: [&str; 8] = [
    "closest",
    "copy_from_slice",
    "ensures",
    "old",
    "refl",
    "requires",
    "sort_unstable_by",
    "to_bits",
];

/// A variable, or a drill: letters, which may have counts.
fn is_short_or_drill(name: &str) -> bool {
    let is_drill = |c: char| "dkn".contains(c) || c.is_ascii_digit();
    name.len() == 1 || (name.starts_with(['d', 'k', 'n']) && name.chars().all(is_drill))
}

fn text_of(document: &str) -> String {
    fs::read_to_string(root().join(document)).expect("a document")
}

/// What is made when it is needed, or lies beside the repository.
fn is_elsewhere(path: &str) -> bool {
    path.split('/')
        .any(|part| ["target", "out", ".."].contains(&part))
}

fn path_fault(path: &str) -> Option<String> {
    let there = is_elsewhere(path) || found(path).is_some();
    (!there).then(|| format!("there is no {path}"))
}

fn name_fault(path: &str, name: &str) -> Option<String> {
    let there = found(path).is_some_and(|file| declares(&file, name));
    (!there).then(|| format!("{path} declares no {name}"))
}

fn function_fault(function: &str, private: bool) -> Option<String> {
    match declaration(function) {
        None => Some(format!("there is no function {function}")),
        Some(line) if line.contains("pub ") == private => {
            Some(format!("{function} is said to be private: {private}"))
        }
        Some(_) => None,
    }
}

fn alone_fault(tree: &BTreeSet<String>, name: &str) -> Option<String> {
    let known = ORIGINAL.contains(&name) || KIT.contains(&name);
    let there = tree.contains(name) || known || is_short_or_drill(name);
    (!there).then(|| format!("nothing has the name {name}"))
}

fn fault(tree: &BTreeSet<String>, word: Named) -> Option<String> {
    match word {
        Named::Path(path) => path_fault(&path),
        Named::In(path, name) => name_fault(&path, &name),
        Named::Function(function, private) => function_fault(&function, private),
        Named::Edit(edit) => path_fault(&format!("{edit}.edit")),
        Named::Alone(name) => alone_fault(tree, &name),
    }
}

#[test]
fn names_stand_where_the_documents_say() {
    let tree = tree_names();
    let mut faults = Vec::new();
    for document in DOCUMENTS {
        for (number, line) in text_of(document).lines().enumerate() {
            let words = named(line).into_iter();
            let here = words.filter_map(|word| fault(&tree, word));
            faults.extend(here.map(|what| format!("{document}:{}: {what}", number + 1)));
        }
    }
    assert!(faults.is_empty(), "\n{}", faults.join("\n"));
}

fn edits_of_the_tree() -> BTreeSet<String> {
    let crates = fs::read_dir(root().join("crates")).expect("crates/");
    let mut edits = BTreeSet::new();
    for krate in crates.map(|entry| entry.expect("a crate")) {
        let name = krate.file_name().into_string().expect("a name");
        let folder = krate.path().join("must-fail");
        for edit in fs::read_dir(folder).into_iter().flatten() {
            let path = edit.expect("an edit").path();
            let stem = path.file_stem().expect("a name").to_string_lossy();
            edits.insert(format!("{name}/must-fail/{stem}"));
        }
    }
    edits
}

#[test]
fn the_scope_has_every_must_fail_edit() {
    let text = text_of("docs/SCOPE.md");
    let words = text.lines().flat_map(named);
    let listed: BTreeSet<String> = words
        .filter_map(|word| match word {
            Named::Edit(edit) => Some(edit),
            _ => None,
        })
        .collect();
    let missing: Vec<String> = edits_of_the_tree().difference(&listed).cloned().collect();
    assert!(
        !listed.is_empty() && missing.is_empty(),
        "not in docs/SCOPE.md: {missing:?}"
    );
}

#[test]
fn the_readme_names_the_kit() {
    let kit = text_of("KIT");
    let line = kit.trim();
    assert!(text_of("README.md").contains(line), "not in README: {line}");
}

#[test]
fn only_declarations_count() {
    let antt = "-- a : ℕ\nunfoldable pub size : ℕ\nsize c = cond used\npub record Room (n : ℕ) where\n  pub few : n ≤ most\n  \
                let inner : ℕ = 1 in x\ndata Kind : Type 0 where\n  rim center : Kind";
    assert_eq!(
        Vec::from_iter(declared(antt)),
        ["Kind", "Room", "center", "few", "rim", "size"]
    );
    let rust = "// fn no() {}\npub struct Head {\n    pub call: u8,\n}\nenum Asked {\n    Colour,\n    Part(Head),\n}\n\
                pub extern \"C\" fn read(s: &[u8]) -> u8 {\n    used(s)\n}\nconst MOST: u8 = 1;\n#define PLACES 8";
    let names = [
        "Asked", "Colour", "Head", "MOST", "PLACES", "Part", "call", "read",
    ];
    assert_eq!(Vec::from_iter(declared(rust)), names);
}

#[test]
fn what_is_not_there_is_told() {
    let line = "`numeric/specs/Near.antt`: `is_near`, `is_far` (text); `numeric::near::near` (private), `numeric/must-fail/none`, `no/such.file`, `near`, `farther`";
    let tree = BTreeSet::from(["near".to_string()]);
    let words = named(line).into_iter();
    let faults: Vec<String> = words.filter_map(|word| fault(&tree, word)).collect();
    let expected = [
        "numeric/specs/Near.antt declares no is_far",
        "numeric::near::near is said to be private: true",
        "there is no numeric/must-fail/none.edit",
        "there is no no/such.file",
        "nothing has the name farther",
    ];
    assert_eq!(faults, expected);
}
