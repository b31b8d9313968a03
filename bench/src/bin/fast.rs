//! `unwind` by the fast program: the plan from `plan.bin`, the journal from
//! standard input.

use std::fs::File;
use std::io::{self, Read, Write};

use bench::fast::run::{unwind, MAX_BYTES};

/// At most one byte more than a file may have.
fn read(source: impl Read) -> Vec<u8> {
    let mut bytes = Vec::with_capacity(MAX_BYTES + 1);
    match source.take(MAX_BYTES as u64 + 1).read_to_end(&mut bytes) {
        Ok(_) | Err(_) => bytes,
    }
}

fn main() -> io::Result<()> {
    let plan = File::open("plan.bin").map(read).unwrap_or_default();
    let journal = read(io::stdin().lock());
    io::stdout().write_all(&unwind(&plan, &journal))
}
