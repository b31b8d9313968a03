//! The program `unwind` itself.

mod common;

use common::*;
use std::fs;
use std::io::Write;
use std::path::PathBuf;
use std::process::{Command, Stdio};

/// A fresh working directory, with `plan.bin` in it if a plan is given.
fn directory(name: &str, plan: Option<&[u8]>) -> PathBuf {
    let path = PathBuf::from(env!("CARGO_TARGET_TMPDIR")).join(name);
    let _ = fs::remove_dir_all(&path);
    fs::create_dir_all(&path).expect("directory");
    if let Some(plan) = plan {
        fs::write(path.join("plan.bin"), plan).expect("plan.bin");
    }
    path
}

/// What the program prints.
fn output(name: &str, plan: Option<&[u8]>, journal: &[u8]) -> String {
    let mut child = Command::new(env!("CARGO_BIN_EXE_unwind"))
        .current_dir(directory(name, plan))
        .stdin(Stdio::piped())
        .stdout(Stdio::piped())
        .spawn()
        .expect("unwind starts");
    let mut stdin = child.stdin.take().expect("standard input");
    stdin.write_all(journal).expect("journal");
    drop(stdin);
    let output = child.wait_with_output().expect("unwind ends");
    assert!(output.status.success());
    String::from_utf8(output.stdout).expect("text")
}

#[test]
fn the_sample_prints_its_whole_output() {
    let mut records = vec![event(10), event(11), event(12), signal()];
    records.extend([lowest(); 4]);
    let expected = "PLAN 3 8 5\nE 10 1 0\nE 11 1 0\nE 12 1 0\nS 3\n\
                    F 1 51 -\nF 2 52 -\nF 0 50 -\nR 22\nH 0 3\n";
    let printed = output("sample", Some(&sample()), &journal(&records));
    assert_eq!(printed, expected);
}

#[test]
fn a_missing_file_counts_as_no_bytes() {
    assert_eq!(output("missing", None, &[]), "R 2\n");
}

#[test]
fn a_file_too_long_is_1() {
    assert_eq!(output("plan", Some(&[0; 32_769]), &[]), "R 1\n");
    assert_eq!(output("journal", Some(&sample()), &[0; 32_769]), "R 1\n");
    assert_eq!(output("edge", Some(&[0; 32_768]), &[0; 32_768]), "R 3\n");
}
