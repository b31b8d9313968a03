//! A program run as `unwind` is: with plan.bin in the working folder, and the
//! journal on standard input.

use crate::phrase;
use std::fs::{self, File};
use std::io;
use std::path::{Path, PathBuf};
use std::process::{Command, Stdio};
use std::sync::atomic::{AtomicUsize, Ordering};

/// What a program printed.
pub(super) struct Output {
    /// Its lines, each with its line feed, if it has one.
    pub lines: Vec<Vec<u8>>,
    /// How it ended, where that was no success.
    pub status: Option<String>,
}

/// Runs a program, and says why if it cannot be run.
pub(super) fn run(program: &Path, plan: &[u8], journal: &[u8]) -> Result<Output, String> {
    let run = || -> io::Result<Output> {
        let folder = Folder::new()?;
        fs::write(folder.0.join("plan.bin"), plan)?;
        let input = folder.0.join("journal.bin");
        fs::write(&input, journal)?;
        let mut command = Command::new(found(program)?);
        command.current_dir(&folder.0).stdin(File::open(&input)?);
        // Once it is open the plan is alone in the folder.
        fs::remove_file(input)?;
        let output = command.stderr(Stdio::null()).output()?;
        let lines = output.stdout.split_inclusive(|&byte| byte == b'\n');
        let status = Some(output.status).filter(|status| !status.success());
        Ok(Output {
            lines: lines.map(<[u8]>::to_vec).collect(),
            status: status.map(|status| status.to_string()),
        })
    };
    let name = program.display();
    run().map_err(|error| format!("{name}: cannot be run: {}", phrase::error(&error)))
}

/// The program from any folder: a path from here on, and a plain name as it is.
fn found(program: &Path) -> io::Result<PathBuf> {
    if program.to_string_lossy().contains('/') {
        return Ok(std::env::current_dir()?.join(program));
    }
    Ok(program.to_path_buf())
}

/// A new folder, which goes with this.
struct Folder(PathBuf);

impl Folder {
    fn new() -> io::Result<Folder> {
        static NEXT: AtomicUsize = AtomicUsize::new(0);
        loop {
            let next = NEXT.fetch_add(1, Ordering::Relaxed);
            let name = format!("registrar-{}-{next}", std::process::id());
            let path = std::env::temp_dir().join(name);
            match fs::create_dir(&path) {
                Ok(()) => return Ok(Folder(path)),
                Err(error) if error.kind() == io::ErrorKind::AlreadyExists => {}
                Err(error) => return Err(error),
            }
        }
    }
}

impl Drop for Folder {
    fn drop(&mut self) {
        let _ = fs::remove_dir_all(&self.0);
    }
}
