//! The transcripts in the pages are what the program prints: each line that
//! begins with `$ ` is run by the shell, and what follows it is its output.
//! `REGISTRAR_STORE=1` writes the pages anew.

#[allow(dead_code)]
mod common;

use common::{assert_stored, repository, samples};
use std::env;
use std::fs;
use std::path::{Path, PathBuf};
use std::process::Command;

/// The pages with transcripts.
fn pages() -> Vec<PathBuf> {
    let named = ["README.md", "docs/REGISTRAR.md"].map(|page| repository().join(page));
    let samples = samples().into_iter().map(|sample| sample.file("README.md"));
    named.into_iter().chain(samples).collect()
}

/// A copy of what the commands read, in which they may write.
fn copy(scratch: &Path) {
    let done = Command::new("cp")
        .arg("-R")
        .arg(repository().join("samples"))
        .arg(scratch)
        .status();
    assert!(done.expect("cp").success());
}

/// The search path with registrar and unwind at its front.
fn path(scratch: &Path) -> String {
    let folder = |file: &str| {
        let file = PathBuf::from(file);
        file.parent().unwrap().display().to_string()
    };
    let registrar = folder(env!("CARGO_BIN_EXE_registrar"));
    let unwind = repository().join("target/bin").display().to_string();
    let others = env::var("PATH").unwrap_or_default();
    format!("{}:{registrar}:{unwind}:{others}", scratch.display())
}

/// A page with the output of its commands as it is made: within a block of
/// transcripts, each command is followed by what it prints.
fn remade(page: &str, scratch: &Path) -> (String, usize) {
    let mut made = String::new();
    let (mut folder, mut count, mut inside) = (scratch.to_path_buf(), 0, false);
    for line in page.lines() {
        let command = line.strip_prefix("$ ").filter(|_| inside);
        if !inside || line == END || command.is_some() {
            made += line;
            made.push('\n');
        }
        inside = line == START || inside && line != END;
        match command {
            Some(command) if command.starts_with("cd ") => folder = scratch.join(&command[3..]),
            Some(command) => made += &ran(command, &folder, scratch),
            None => {}
        }
        count += usize::from(command.is_some());
    }
    (made, count)
}

/// What begins and ends a block of transcripts.
const START: &str = "```console";
const END: &str = "```";

/// What a command prints, on standard output and standard error.
fn ran(command: &str, folder: &Path, scratch: &Path) -> String {
    let output = Command::new("sh")
        .arg("-c")
        .arg(format!("exec 2>&1; {command}"))
        .current_dir(folder)
        .env("PATH", path(scratch))
        .output()
        .expect("a shell");
    let said = String::from_utf8(output.stdout).expect("text");
    said.lines()
        .map(|line| format!("{}\n", line.trim_end()))
        .collect()
}

#[test]
fn transcripts_are_as_printed() {
    let scratch = env::temp_dir().join(format!("registrar-pages-{}", std::process::id()));
    let mut count = 0;
    for page in pages() {
        let _ = fs::remove_dir_all(&scratch);
        fs::create_dir(&scratch).expect("a folder");
        copy(&scratch);
        let text = fs::read_to_string(&page).expect("a page");
        let (made, commands) = remade(&text, &scratch);
        assert_stored(&page, made.as_bytes());
        count += commands;
    }
    fs::remove_dir_all(&scratch).expect("the folder is there");
    assert!(count >= 20, "the pages have transcripts");
}
