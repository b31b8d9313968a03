//! The samples' listings, pictures, tellings and bytes are as they are stored.
//! `REGISTRAR_STORE=1 cargo test --package registrar --test stored` stores them
//! anew, to be looked at before they are kept.

#[allow(dead_code)]
mod common;

use common::{assert_stored, first_column, samples, Sample};
use registrar::command::{self, Answer};
use std::fs;
use std::path::Path;

fn run(words: &[&str]) -> Answer {
    let words: Vec<String> = words.iter().map(|word| word.to_string()).collect();
    command::run(&words)
}

/// What a command prints; it must come to the end.
fn printed(words: &[&str]) -> String {
    let answer = run(words);
    assert_eq!((&answer.said[..], answer.status), ("", 0), "{words:?}");
    answer.printed
}

/// The bytes that a command writes with -o.
fn written(words: &[&str], scratch: &Path) -> Vec<u8> {
    let file = scratch.to_str().unwrap();
    printed(&[words, &["-o", file]].concat());
    fs::read(scratch).expect("the file is written")
}

#[test]
fn samples_are_as_stored() {
    let scratch = std::env::temp_dir().join(format!("registrar-stored-{}.bin", std::process::id()));
    let samples = samples();
    assert!(samples.len() >= 6, "the samples are there");
    for sample in &samples {
        store_plan(sample, &scratch);
        assert!(!sample.journals.is_empty(), "{:?}", sample.folder);
        for journal in &sample.journals {
            store_journal(sample, journal, &scratch);
        }
    }
    fs::remove_file(&scratch).expect("the scratch file is there");
}

fn store_plan(sample: &Sample, scratch: &Path) {
    let plan = sample.file("plan.txt");
    let plan = plan.to_str().unwrap();
    let bytes = written(&["build", plan], scratch);
    assert_stored(&sample.file("plan.bin"), &bytes);
    assert_stored(
        &sample.file("plan.list"),
        printed(&["list", plan]).as_bytes(),
    );
    assert_stored(
        &sample.file("plan.svg"),
        printed(&["draw", plan]).as_bytes(),
    );
}

fn store_journal(sample: &Sample, journal: &str, scratch: &Path) {
    let plan = sample.file("plan.txt");
    let text = sample.file(&format!("{journal}.txt"));
    let both = [plan.to_str().unwrap(), text.to_str().unwrap()];
    let file = |end: &str| sample.file(&format!("{journal}.{end}"));
    let with = |command: &'static str| [&[command][..], &both[..]].concat();

    store_bytes(&file("bin"), &with("journal"), scratch);
    let told = printed(&with("tell"));
    assert_stored(&file("told"), told.as_bytes());
    assert_stored(&file("svg"), printed(&with("timeline")).as_bytes());
    let due = run(&with("withdraw"));
    assert_stored(&file("due"), (due.printed + &due.said).as_bytes());
    if journal == "journal" {
        assert_stored(&sample.file("output"), first_column(&told).as_bytes());
    }
}

/// A journal at limit 8 is not kept as bytes, which cannot tell it: no program is run
/// on it. The one that programs are run on is at the main limit.
fn store_bytes(file: &Path, words: &[&str], scratch: &Path) {
    let text = fs::read_to_string(words[2]).expect("a journal");
    if text.contains(" at limit 8\n") {
        assert!(!file.ends_with("journal.bin") && !file.exists());
        return;
    }
    assert_stored(file, &written(words, scratch));
}

/// The sample plan of the paper is byte for byte the one that the program has.
#[test]
fn plan_p_is_the_papers() {
    let repository = common::repository();
    let papers = fs::read(repository.join("crates/unwind/data/plan.bin")).unwrap();
    let ours = fs::read(repository.join("samples/plan_p/plan.bin")).unwrap();
    assert_eq!(ours, papers);
}
