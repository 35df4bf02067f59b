//! What a document names of the tree, each between backticks: a file, a name in a file, a function, a must-fail edit, or a name alone.

use std::collections::BTreeSet;
use std::fs;
use std::path::{Path, PathBuf};

/// The repository.
pub fn root() -> PathBuf {
    Path::new(env!("CARGO_MANIFEST_DIR")).join("../..")
}

/// What rt makes of a crate, in the folder out/ beside its src/.
fn is_made(path: &Path) -> bool {
    let above = path.parent().and_then(Path::parent);
    path.ends_with("out") && above.is_some_and(|folder| folder.ends_with("crates"))
}

/// The files of a folder and of the folders in it, but for what rt makes. Links are passed over: what they lead to is not the
/// repository's, as the original that tests/original links.
pub fn files_in(folder: &Path) -> Vec<PathBuf> {
    let entries = fs::read_dir(folder).into_iter().flatten().flatten();
    let paths = entries.map(|entry| entry.path());
    paths
        .filter(|path| !path.is_symlink() && !is_made(path))
        .flat_map(|path| match path.is_dir() {
            true => files_in(&path),
            false => vec![path],
        })
        .collect()
}

/// A path as documents write it: from the repository's root, from crates/, or a folder that crates have.
pub fn found(path: &str) -> Option<PathBuf> {
    let folders = ["", "crates", "crates/numeric"].map(|folder| root().join(folder));
    let mut paths = folders.iter().map(|folder| folder.join(path));
    paths.find(|path| path.exists())
}

/// A word between backticks, and what stands behind it up to the next one.
#[derive(Clone, Debug, PartialEq, Eq)]
pub struct Word {
    pub text: String,
    pub behind: String,
}

/// The words of a line.
pub fn words(line: &str) -> Vec<Word> {
    let pieces: Vec<&str> = line.split('`').collect();
    let pairs = pieces[1..].chunks_exact(2);
    pairs
        .map(|pair| Word {
            text: pair[0].replace("\\|", "|"),
            behind: pair[1].to_string(),
        })
        .collect()
}

/// What a word names.
#[derive(Clone, Debug, PartialEq, Eq)]
pub enum Named {
    /// a file or a folder
    Path(String),
    /// a name that stands in the file named before it
    In(String, String),
    /// `crate::module::function`, and whether it is said to be private
    Function(String, bool),
    /// `crate/must-fail/edit`
    Edit(String),
    /// a name by itself
    Alone(String),
}

/// Words that may name something: no commands, no signs, and no `crate::..` or `crate/..` that stand for any.
fn is_plain(text: &str) -> bool {
    let plain = |c: char| c.is_alphanumeric() || "_-./:'".contains(c);
    let begins = text.starts_with(|c: char| c.is_alphanumeric());
    begins && text.chars().all(plain) && !text.starts_with("crate:") && !text.starts_with("crate/")
}

fn is_function(text: &str) -> bool {
    let lower = |part: &str| part.starts_with(|c: char| c.is_lowercase());
    text.contains("::") && text.split("::").all(lower)
}

/// What the words of a line name. A file that is followed by a colon has the names that follow it, parted by commas.
/// A heading names files of the original.
pub fn named(line: &str) -> Vec<Named> {
    if line.starts_with('#') {
        return Vec::new();
    }
    let mut file: Option<String> = None;
    let mut all = Vec::new();
    for Word { text, behind } in words(line) {
        if !is_plain(&text) {
            file = None;
            continue;
        }
        if is_function(&text) {
            let private = behind.starts_with(" (private)");
            all.push(Named::Function(text, private));
            file = None;
        } else if text.contains("/must-fail/") {
            all.push(Named::Edit(text));
            file = None;
        } else if text.contains('/') {
            file = behind.starts_with(": ").then(|| text.clone());
            all.push(Named::Path(text));
        } else if let Some(path) = &file {
            all.push(Named::In(path.clone(), text));
            file = file.filter(|_| behind == ", ");
        } else if text.chars().all(is_inside) {
            all.push(Named::Alone(text));
        }
    }
    all
}

fn is_inside(c: char) -> bool {
    c.is_alphanumeric() || "_-'".contains(c)
}

fn split(text: &str) -> impl Iterator<Item = &str> {
    text.split(|c: char| !is_inside(c))
}

/// What may stand before a declaration.
const MARKS: [&str; 5] = ["abbrev", "unfoldable", "pub", "extern", "\"C\""];

/// What a declared name stands behind.
const KEYWORDS: [&str; 11] = [
    "record", "data", "mod", "fn", "struct", "enum", "const", "type", "trait", "static", "#define",
];

fn leading_name(word: &str) -> &str {
    let end = word.find(|c: char| !is_inside(c)).unwrap_or(word.len());
    &word[..end]
}

/// The names that a text of antt, Rattle or Rust declares: behind a keyword, before a colon that has a space on either side, and the
/// fields and variants of a struct or an enum.
pub fn declared(text: &str) -> BTreeSet<&str> {
    let mut names = BTreeSet::new();
    let mut within = false;
    let is_comment = |line: &&str| line.starts_with("--") || line.starts_with("//");
    for line in text.lines().map(str::trim).filter(|line| !is_comment(line)) {
        let marked = line.split_whitespace();
        let words: Vec<&str> = marked.skip_while(|word| MARKS.contains(word)).collect();
        let front = words.split(|word| *word == ":").next().unwrap_or(&[]);
        match words[..] {
            [keyword, name, ..] if KEYWORDS.contains(&keyword) => {
                names.insert(leading_name(name));
                within = ["struct", "enum"].contains(&keyword) && line.ends_with('{');
            }
            ["}"] => within = false,
            [name, ..] if within => {
                names.insert(leading_name(name));
            }
            ["let" | "in", ..] => {}
            _ if front.len() < words.len()
                && front.iter().all(|word| word.chars().all(is_inside)) =>
            {
                names.extend(front);
            }
            _ => {}
        }
    }
    names
}

/// The names that a text of antt defines: those that it declares at the start of a line, which are no fields or constructors, and are
/// no names of files.
pub fn defined(text: &str) -> BTreeSet<&str> {
    let starts = [" ", "pub mod "];
    let outer = text
        .lines()
        .filter(|line| !starts.iter().any(|start| line.starts_with(start)));
    outer.flat_map(declared).collect()
}

/// Whether the file, or one of the folder, declares the name.
pub fn declares(path: &Path, name: &str) -> bool {
    let files = match path.is_dir() {
        true => files_in(path),
        false => vec![path.to_path_buf()],
    };
    files.iter().any(|file| {
        let text = fs::read_to_string(file).unwrap_or_default();
        declared(&text).contains(name)
    })
}

/// What cargo makes, and these tests.
fn is_passed_over(path: &str) -> bool {
    path.contains("/target/") || path.starts_with("tests/repository/")
}

/// The names of the tree but for the documents': what its files are called, and what they declare.
pub fn tree_names() -> BTreeSet<String> {
    let mut all = BTreeSet::from(["KIT".to_string(), "NOTICE".to_string()]);
    let root = root();
    for part in [
        "crates", "include", "bindings", "examples", "tests", "tools",
    ] {
        for file in files_in(&root.join(part)) {
            let path = file.strip_prefix(&root).expect("a path").to_string_lossy();
            if is_passed_over(&path) {
                continue;
            }
            all.extend(split(&path).map(str::to_string));
            let text = fs::read_to_string(&file).unwrap_or_default();
            all.extend(declared(&text).into_iter().map(str::to_string));
        }
    }
    all
}

/// The lines of the blocks `impl` and `trait` of a type, or all lines where no type is given.
fn lines_of<'a>(text: &'a str, owner: Option<&str>) -> Vec<&'a str> {
    let Some(owner) = owner else {
        return text.lines().collect();
    };
    let mut inside = false;
    let mut lines = Vec::new();
    for line in text.lines() {
        if line.starts_with("impl") || line.starts_with("pub trait") || line.starts_with("trait") {
            inside = line
                .split(|c: char| !c.is_alphanumeric() && c != '_')
                .any(|word| word == owner);
        } else if line == "}" {
            inside = false;
        }
        if inside {
            lines.push(line);
        }
    }
    lines
}

/// The line that declares a function given as `crate::module::function`, or as `crate::module::Type::function`.
pub fn declaration(function: &str) -> Option<String> {
    let parts: Vec<&str> = function.split("::").collect();
    let (name, modules) = parts.split_last()?;
    let is_type = |part: &&str| part.starts_with(|c: char| c.is_uppercase());
    let (owner, modules) = match modules.split_last() {
        Some((last, inner)) if is_type(last) => (Some(*last), inner),
        _ => (None, modules),
    };
    let file = match modules {
        [krate] => format!("crates/{krate}/src/lib.rt"),
        [krate, inner @ ..] => format!("crates/{krate}/src/{}.rt", inner.join("/")),
        [] => return None,
    };
    let text = fs::read_to_string(root().join(file)).ok()?;
    let declares = |line: &&str| {
        let behind = line.split_once("fn ").map(|halves| halves.1);
        behind.is_some_and(|behind| {
            behind
                .strip_prefix(name)
                .is_some_and(|rest| rest.starts_with(['(', '<']))
        })
    };
    lines_of(&text, owner)
        .into_iter()
        .find(declares)
        .map(str::to_string)
}
