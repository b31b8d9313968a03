//! The command page.

use super::answer::{Answer, Or};
use super::files::{self, Filed, Journal};
use super::journals;
use super::limits;
use super::options::Options;
use super::output;
use crate::page::{self, Page};
use crate::run::Run;
use crate::{list, withdraw};

pub fn page(options: &Options) -> Or<Answer> {
    let limit = limits::said(options)?;
    let filed = files::plan(options.word(0))?;
    let listing = list::list(&filed.draft, &filed.plan);
    let mut parts = Page {
        draft: &filed.draft,
        listing: &listing,
        journal: None,
    };
    let path = match options.words().get(1) {
        None => return output::text(options.value("-o"), page::page(&parts)),
        Some(path) => path,
    };
    let journal = files::journal(path, limit, &filed.draft)?.whole(path)?;
    let run = journal.run(&filed.plan);
    let due = due(options, &filed, &journal, &run)?;
    parts.journal = Some(page::Journal::of(&filed.draft, &run, &due));
    output::text(options.value("-o"), page::page(&parts))
}

/// What would be taken back now, or why that cannot be said. A society that is
/// named and not known ends the command.
fn due(options: &Options, filed: &Filed, journal: &Journal, run: &Run<'_>) -> Or<String> {
    let society = match journals::withdrawing(options, &filed.draft, journal) {
        Ok(society) => society,
        Err(unknown) if options.value("--as").is_some() => return Err(unknown),
        Err(_) => return Ok("Who would withdraw was not said, with --as SOCIETY.\n".to_string()),
    };
    Ok(match withdraw::withdraw(&filed.draft, run, society) {
        Ok(withdrawal) => withdrawal.text(&filed.draft),
        Err(refusal) => withdraw::refused(&filed.draft, society, refusal),
    })
}
