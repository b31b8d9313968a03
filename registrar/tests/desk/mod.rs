//! A folder in which the program is run, as a person would at a desk.
#![allow(dead_code)]

use crate::common::repository;
use std::env;
use std::fs;
use std::path::PathBuf;
use std::process::{Command, Output};

/// A folder with the sample of two roots, which is removed at the end.
pub struct Desk(PathBuf);

impl Desk {
    pub fn new(name: &str) -> Desk {
        let folder = format!("registrar-{name}-{}", std::process::id());
        let folder = env::temp_dir().join(folder);
        let _ = fs::remove_dir_all(&folder);
        fs::create_dir(&folder).expect("a folder");
        let desk = Desk(folder);
        let sample = repository().join("samples/film_by_post");
        for file in [
            "plan.txt",
            "plan.bin",
            "journal.bin",
            "halfway.txt",
            "halfway.bin",
        ] {
            fs::copy(sample.join(file), desk.0.join(file)).expect("a file of the sample");
        }
        desk
    }

    pub fn command(&self, line: &str) -> Command {
        let mut command = Command::new(env!("CARGO_BIN_EXE_registrar"));
        command.args(line.split(' ').filter(|word| !word.is_empty()));
        command.current_dir(&self.0);
        command
    }

    /// Exit status, standard output and standard error.
    pub fn run(&self, line: &str) -> (i32, String, String) {
        let Output {
            status,
            stdout,
            stderr,
        } = self.command(line).output().expect("the program runs");
        let text = |bytes| String::from_utf8(bytes).expect("text");
        (status.code().expect("a status"), text(stdout), text(stderr))
    }

    /// Done, with nothing on standard error.
    pub fn done(&self, line: &str) -> String {
        let (status, printed, said) = self.run(line);
        assert_eq!((status, &said[..]), (0, ""), "{line}");
        printed
    }

    /// This status, nothing on standard output, and this said.
    pub fn not_done(&self, line: &str, wanted: i32, part: &str) {
        let (status, printed, said) = self.run(line);
        assert_eq!((status, &printed[..]), (wanted, ""), "{line}");
        assert!(said.contains(part), "{line}: {said}");
    }

    pub fn path(&self, file: &str) -> PathBuf {
        self.0.join(file)
    }

    pub fn read(&self, file: &str) -> Vec<u8> {
        fs::read(self.path(file)).unwrap_or_else(|error| panic!("{file}: {error}"))
    }

    pub fn write(&self, file: &str, bytes: impl AsRef<[u8]>) {
        fs::write(self.path(file), bytes).expect("a file that can be written");
    }

    /// How many files there are.
    pub fn files(&self) -> usize {
        fs::read_dir(&self.0).expect("the folder").count()
    }
}

impl Drop for Desk {
    fn drop(&mut self) {
        let _ = fs::remove_dir_all(&self.0);
    }
}
