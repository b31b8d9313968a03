//! Answers into files.

use super::answer::{Answer, Or};
use super::files::{bytes_of, has_bytes, unfit};
use std::fs;
use std::io::Write;

/// Standard output, where it is named as a file.
const STANDARD_OUTPUT: &str = "/dev/stdout";

/// Writes bytes to the file that was named for them, and says what was written. Its
/// name ends in .bin, so that it is read as bytes again, and so that no text is
/// lost to a slip.
pub fn bytes(path: &str, bytes: &[u8], said: String) -> Or<Answer> {
    if !has_bytes(path) && is_plain(path) {
        return Err(Answer::unfit(format!(
            "{path}: bytes go into a file whose name ends in .bin"
        )));
    }
    write(path, bytes, said)
}

/// Prints a text, or writes it to the file that was named for it.
pub fn text(file: Option<&str>, text: String) -> Or<Answer> {
    match file {
        None => Ok(Answer::done(text)),
        Some(path) if has_bytes(path) => Err(Answer::unfit(format!(
            "{path}: a text goes into a file whose name does not end in .bin"
        ))),
        Some(path) => write(path, text.as_bytes(), format!("{path}: written\n")),
    }
}

/// Whether a path is a file, or will be one.
fn is_plain(path: &str) -> bool {
    fs::metadata(path).map_or(true, |found| found.is_file())
}

/// Writes to a file, and says what was written unless it stands on standard output
/// itself.
fn write(path: &str, bytes: &[u8], said: String) -> Or<Answer> {
    if path == STANDARD_OUTPUT {
        let mut out = std::io::stdout();
        let printed = out.write_all(bytes).and_then(|()| out.flush());
        return printed
            .map(|()| Answer::default())
            .map_err(|error| unfit(path, &error));
    }
    replace(path, bytes).map_err(|error| unfit(path, &error))?;
    Ok(Answer::done(said))
}

/// Writes a file as a whole or not at all: what stood there stays until the new
/// one is complete. A link stays, and the file that it leads to is written.
fn replace(path: &str, bytes: &[u8]) -> std::io::Result<()> {
    if !is_plain(path) {
        return fs::write(path, bytes);
    }
    let path = fs::canonicalize(path).unwrap_or_else(|_| path.into());
    let mut beside = path.clone().into_os_string();
    beside.push(format!(".{}.new", std::process::id()));
    let moved = fs::write(&beside, bytes).and_then(|()| fs::rename(&beside, path));
    if moved.is_err() {
        let _ = fs::remove_file(&beside);
    }
    moved
}

/// Ends the command where its answer would take the place of a file that it
/// reads.
pub fn apart<'a>(file: Option<&str>, read: impl IntoIterator<Item = &'a str>) -> Or<()> {
    let found = |path: &str| fs::canonicalize(path).ok().filter(|path| path.is_file());
    let written = match file.and_then(found) {
        Some(written) => written,
        None => return Ok(()),
    };
    match read
        .into_iter()
        .find(|path| found(path).as_ref() == Some(&written))
    {
        Some(path) => Err(Answer::unfit(format!(
            "{path}: is read here; name another file with -o"
        ))),
        None => Ok(()),
    }
}

/// Appends to a file; a text whose last line is not ended has it ended first.
pub fn append(path: &str, bytes: &[u8]) -> Or<()> {
    let mut added = Vec::new();
    if !has_bytes(path) && !bytes_of(path)?.ends_with(b"\n") {
        added.push(b'\n');
    }
    added.extend(bytes);
    let file = fs::OpenOptions::new().append(true).open(path);
    let done = file.and_then(|mut file| file.write_all(&added));
    done.map_err(|error| unfit(path, &error))
}
