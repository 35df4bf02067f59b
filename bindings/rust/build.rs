//! Finds libdresserduck.a, or builds it: in the folder DRESSERDUCK_STATICLIB; else in the repository's crates/dresserduck/out;
//! else by `rt lib` in crates/dresserduck.

use std::env;
use std::path::{Path, PathBuf};
use std::process::Command;

const FOLDER_VARIABLE: &str = "DRESSERDUCK_STATICLIB";
const ARCHIVE: &str = "libdresserduck.a";
/// What `rt` builds for.
const ARCHITECTURE: &str = "x86_64";

fn build(krate: &Path) {
    let run = Command::new("rt").arg("lib").current_dir(krate).status();
    match run {
        Ok(status) => assert!(
            status.success(),
            "`rt lib` failed in {}",
            krate.display()
        ),
        Err(error) => panic!(
            "{ARCHIVE} is missing, and `rt` of the Rattle kit could not be run to build it ({error}): \
             set {FOLDER_VARIABLE} to the folder that has the archive"
        ),
    }
}

fn found_or_built() -> PathBuf {
    let krate = Path::new(env!("CARGO_MANIFEST_DIR")).join("../../crates/dresserduck");
    let folder = krate.join("out");
    if !folder.join(ARCHIVE).is_file() {
        build(&krate);
    }
    folder
}

fn check_architecture() {
    let target = env::var("CARGO_CFG_TARGET_ARCH").unwrap_or_default();
    assert!(
        target == ARCHITECTURE,
        "{ARCHIVE} is for {ARCHITECTURE}, and this build is for {target}"
    );
}

fn main() {
    println!("cargo:rerun-if-env-changed={FOLDER_VARIABLE}");
    check_architecture();
    let folder = match env::var_os(FOLDER_VARIABLE) {
        Some(folder) => PathBuf::from(folder),
        None => found_or_built(),
    };
    let archive = folder.join(ARCHIVE);
    assert!(
        archive.is_file(),
        "there is no {ARCHIVE} in {}: `rt lib` in crates/dresserduck writes it to the folder out there, or {FOLDER_VARIABLE} names its folder",
        folder.display()
    );
    println!("cargo:rerun-if-changed={}", archive.display());
    println!("cargo:rustc-link-search=native={}", folder.display());
    println!("cargo:rustc-link-lib=static=dresserduck");
}
