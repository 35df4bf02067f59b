//! The form of the crates' files: how wide a line is, how long a file, and that it begins by saying what it is for.

use std::fs;
use std::path::{Path, PathBuf};

use repository_tests::{files_in, root};

/// The most lines of a file.
const LONGEST: usize = 400;

/// The most columns of a line: proofs may have more than what a reader must believe.
fn widest(path: &Path) -> usize {
    match path.components().any(|part| part.as_os_str() == "proofs") {
        true => 160,
        false => 120,
    }
}

fn sources() -> Vec<(PathBuf, String)> {
    let files = files_in(&root().join("crates"));
    let is_source = |path: &PathBuf| {
        path.extension()
            .is_some_and(|end| end == "rt" || end == "antt")
    };
    let read = |path: PathBuf| {
        let text = fs::read_to_string(&path).expect("a text");
        (path, text)
    };
    files.into_iter().filter(is_source).map(read).collect()
}

fn faults(path: &Path, text: &str) -> Vec<String> {
    let mut faults = Vec::new();
    for (number, line) in text.lines().enumerate() {
        let columns = line.chars().count();
        if columns > widest(path) {
            faults.push(format!(
                "{}:{}: {columns} columns",
                path.display(),
                number + 1
            ));
        }
    }
    if text.lines().count() > LONGEST {
        faults.push(format!("{} has more than {LONGEST} lines", path.display()));
    }
    if !(text.starts_with("--") || text.starts_with("//")) {
        faults.push(format!("{} does not say what it is for", path.display()));
    }
    faults
}

#[test]
fn files_have_their_form() {
    let sources = sources();
    assert!(
        sources.len() > 500,
        "only {} files were read",
        sources.len()
    );
    let found: Vec<String> = sources
        .iter()
        .flat_map(|(path, text)| faults(path, text))
        .collect();
    assert!(found.is_empty(), "\n{}", found.join("\n"));
}

#[test]
fn faults_are_seen() {
    let wide = format!("-- why\n{}", "x".repeat(121));
    assert_eq!(faults(Path::new("crates/a/src/lib.rt"), &wide).len(), 1);
    assert!(faults(Path::new("crates/a/proofs/Laws.antt"), &wide).is_empty());
    let long = "-- why\n".repeat(401);
    assert_eq!(faults(Path::new("crates/a/src/lib.rt"), &long).len(), 1);
    assert_eq!(
        faults(Path::new("crates/a/src/lib.rt"), "pub mod x;").len(),
        1
    );
}
