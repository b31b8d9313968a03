//! Links libtimed_sums.a, the sum alone, from the repository's
//! target/staticlib, where `bindings/build timed_sums` writes it.

use std::path::Path;
use std::process::exit;

fn main() {
    let folder = Path::new(env!("CARGO_MANIFEST_DIR")).join("../target/staticlib");
    let archive = folder.join("libtimed_sums.a");
    println!("cargo:rerun-if-changed={}", archive.display());
    if !archive.is_file() {
        eprintln!("bench: there is no libtimed_sums.a: run bindings/build timed_sums");
        exit(1);
    }
    println!("cargo:rustc-link-search=native={}", folder.display());
    println!("cargo:rustc-link-lib=static=timed_sums");
}
