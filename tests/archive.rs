// Links libtest_host.a, which `rt lib` in crates/test_host writes: for the build.rs of tests/numeric, tests/grouping and tests/letters.

use std::env;
use std::path::{Path, PathBuf};

const FOLDER_VARIABLE: &str = "DRESSERDUCK_STATICLIB";
const LIBRARY: &str = "test_host";

fn archive_folder() -> PathBuf {
    match env::var_os(FOLDER_VARIABLE) {
        Some(folder) => PathBuf::from(folder),
        None => Path::new(env!("CARGO_MANIFEST_DIR")).join("../../crates/test_host/out"),
    }
}

fn link() {
    let folder = archive_folder();
    let archive = folder.join(format!("lib{LIBRARY}.a"));
    println!("cargo:rerun-if-env-changed={FOLDER_VARIABLE}");
    println!("cargo:rerun-if-changed={}", archive.display());
    assert!(
        archive.is_file(),
        "{} is missing: run `rt lib` in crates/{LIBRARY} first",
        archive.display()
    );
    println!("cargo:rustc-link-search=native={}", folder.display());
    println!("cargo:rustc-link-lib=static={LIBRARY}");
}
