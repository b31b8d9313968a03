//! `unwind`: the plan from `plan.bin`, the journal from standard input.

use std::fs::File;
use std::io::{self, Read, Write};

use second::journal::{self, MAX_BYTES};

/// Reads at most one byte more than a file may have, and puts what was read
/// before an error in `bytes` too.
fn read_bytes(source: impl Read, bytes: &mut Vec<u8>) -> io::Result<usize> {
    source.take(MAX_BYTES as u64 + 1).read_to_end(bytes)
}

/// The plan file. One that cannot be opened, or whose reading fails, counts as
/// no bytes.
fn plan_bytes() -> io::Result<Vec<u8>> {
    let mut bytes = Vec::new();
    read_bytes(File::open("plan.bin")?, &mut bytes)?;
    Ok(bytes)
}

fn main() -> io::Result<()> {
    let plan = plan_bytes().unwrap_or_default();
    let mut journal = Vec::new();
    // A journal that cannot be read on ends there.
    let _ = read_bytes(io::stdin().lock(), &mut journal);
    io::stdout().write_all(&journal::unwind(&plan, &journal))
}
