//! What several tests share: the samples, and files that are stored.

use registrar::draft::Draft;
use registrar::plan_text;
use std::fs;
use std::path::{Path, PathBuf};

/// The repository.
pub fn repository() -> PathBuf {
    Path::new(env!("CARGO_MANIFEST_DIR")).join("..")
}

/// A sample: a folder with a plan and journals under it, as texts.
pub struct Sample {
    pub folder: PathBuf,
    /// The stems of its journals' files.
    pub journals: Vec<String>,
}

impl Sample {
    /// The path of a file of it.
    pub fn file(&self, name: &str) -> PathBuf {
        self.folder.join(name)
    }
}

/// Every sample, by name.
pub fn samples() -> Vec<Sample> {
    let folders = fs::read_dir(repository().join("samples")).expect("samples");
    let folders = folders.map(|entry| entry.expect("a sample").path());
    let mut folders: Vec<PathBuf> = folders.filter(|path| path.is_dir()).collect();
    folders.sort();
    folders.into_iter().map(sample).collect()
}

fn sample(folder: PathBuf) -> Sample {
    let files = fs::read_dir(&folder).expect("a folder");
    let files = files.map(|entry| entry.expect("a file").path());
    let texts = files.filter(|path| path.extension().map_or(false, |end| end == "txt"));
    let stems = texts.map(|path| path.file_stem().unwrap().to_string_lossy().into_owned());
    let mut journals: Vec<String> = stems.filter(|stem| stem != "plan").collect();
    journals.sort();
    Sample { folder, journals }
}

/// The brothers and sisters: their bytes, and their text with its names.
pub const BROTHERS: &[u8] = include_bytes!("../../../samples/brothers_and_sisters/plan.bin");

pub fn brothers() -> Draft {
    let text = include_str!("../../../samples/brothers_and_sisters/plan.txt");
    plan_text::read(text).expect("a plan's text")
}

/// The first column of a telling, as a person cuts it: 15 characters.
pub fn first_column(told: &str) -> String {
    let cut = |line: &str| line.chars().take(15).collect::<String>();
    let lines = told
        .lines()
        .map(|line| cut(line).trim_end().to_string() + "\n");
    lines.collect()
}

/// Whether what is stored is to be written anew instead of compared.
pub fn storing() -> bool {
    std::env::var_os("REGISTRAR_STORE").is_some()
}

/// A stored file is as it was made; `REGISTRAR_STORE=1` stores it.
pub fn assert_stored(path: &Path, made: &[u8]) {
    if storing() {
        fs::write(path, made).expect("a file that can be written");
        return;
    }
    let stored = fs::read(path).unwrap_or_else(|error| panic!("{}: {error}", path.display()));
    if stored != made {
        let lines = |bytes: &[u8]| -> Vec<String> {
            let text = String::from_utf8_lossy(bytes);
            text.lines().map(str::to_string).collect()
        };
        let (stored, made) = (lines(&stored), lines(made));
        let first = (0..).find(|&n| stored.get(n) != made.get(n));
        let first = first.expect("a line that differs");
        panic!(
            "{}, line {}: stored {:?}, made {:?}",
            path.display(),
            first + 1,
            stored.get(first),
            made.get(first)
        );
    }
}
