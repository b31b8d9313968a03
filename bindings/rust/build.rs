//! Links libretraction.a, from the folder that RETRACTION_LIB_DIR names; where
//! that is not set, from the one that pkg-config names, or else from the
//! repository's target/staticlib, which `bindings/build` fills.

use std::env;
use std::path::{Path, PathBuf};
use std::process::{exit, Command};

const MISSING: &str = "retraction: there is no libretraction.a: set RETRACTION_LIB_DIR to its \
    folder, or install it where pkg-config finds retraction.pc, or run bindings/build in the \
    repository";

/// The folder that pkg-config names for an installed library.
fn installed() -> Option<PathBuf> {
    let asked = ["--variable=libdir", "retraction"];
    let output = Command::new("pkg-config").args(asked).output().ok()?;
    let folder = String::from_utf8(output.stdout).ok()?;
    Some(PathBuf::from(folder.trim())).filter(|_| output.status.success())
}

fn has_archive(folder: &Path) -> bool {
    folder.join("libretraction.a").is_file()
}

fn main() {
    println!("cargo:rerun-if-env-changed=RETRACTION_LIB_DIR");
    println!("cargo:rerun-if-env-changed=PKG_CONFIG_PATH");
    let built = Path::new(env!("CARGO_MANIFEST_DIR")).join("../../target/staticlib");
    let folders = match env::var_os("RETRACTION_LIB_DIR") {
        Some(named) => vec![PathBuf::from(named)],
        None => installed().into_iter().chain([built]).collect(),
    };
    let folder = match folders.iter().find(|folder| has_archive(folder)) {
        Some(folder) => folder,
        None => {
            eprintln!("{MISSING}");
            exit(1);
        }
    };
    println!("cargo:rustc-link-search=native={}", folder.display());
    println!("cargo:rustc-link-lib=static=retraction");
    let archive = folder.join("libretraction.a");
    println!("cargo:rerun-if-changed={}", archive.display());
}
