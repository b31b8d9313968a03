//! `cases ROOT`: writes the stored runs and the stored calls under the
//! repository's root, with the outputs and answers that this program gives.

use std::fs;
use std::io;
use std::path::Path;

use second::journal;
use testing::calls;
use testing::cases::{self, Case};

fn write(root: &Path, case: &Case) -> io::Result<()> {
    let folder = root.join(&case.folder);
    fs::create_dir_all(&folder)?;
    if let Some(plan) = &case.plan {
        fs::write(folder.join("plan.bin"), plan)?;
    }
    let plan = case.plan.as_deref().unwrap_or_default();
    fs::write(folder.join("journal.bin"), &case.journal)?;
    fs::write(folder.join("output"), journal::unwind(plan, &case.journal))
}

fn main() -> io::Result<()> {
    let root = std::env::args().nth(1).unwrap_or_else(|| ".".to_string());
    let root = Path::new(&root);
    cases::all().iter().try_for_each(|case| write(root, case))?;
    fs::write(root.join(calls::FILE), calls::text())
}
