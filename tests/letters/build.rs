//! Links libtest_host.a.

include!("../archive.rs");

fn main() {
    link();
}
