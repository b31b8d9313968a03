//! Commands about a plan and a journal: journal, tell, add, withdraw, timeline.

use super::answer::{Answer, Or};
use super::files::{self, Filed, Given, Journal};
use super::limits;
use super::options::Options;
use super::output;
use crate::draft::Draft;
use crate::journal::{self, Call};
use crate::run::{self, Answer::Refused};
use crate::words::Word;
use crate::{journal_text, lookup, phrase, picture, tell, withdraw};

/// The plan and the journal that a command names first.
fn both(options: &Options) -> Or<(Filed, Journal)> {
    let limit = limits::said(options)?;
    let filed = files::plan(options.word(0))?;
    let journal = files::journal(options.word(1), limit, &filed.draft)?;
    Ok((filed, journal))
}

pub fn journal(options: &Options) -> Or<Answer> {
    let (filed, journal) = both(options)?;
    let path = options.word(1);
    let journal = journal.whole(path)?;
    let limit = journal.read.limit;
    if files::has_bytes(path) {
        let text = journal_text::write(&journal.read.calls, limit, &filed.draft);
        return output::text(options.value("-o"), text);
    }
    let unnamed = || Answer::unfit("a text becomes bytes: name their file with -o");
    let file = options.value("-o").ok_or_else(unnamed)?;
    limits::known(path, limit, limits::said(options)?)?;
    let records = phrase::count(journal.read.calls.len(), "record");
    let count = journal.bytes.len();
    let how = limits::to_be_read(limit);
    let said = format!("{file}: {records}, {count} bytes{how}\n");
    output::bytes(file, &journal.bytes, said)
}

pub fn tell(options: &Options) -> Or<Answer> {
    let limit = limits::said(options)?;
    let Given { draft, judged, .. } = files::given(options.word(0))?;
    let refused = |refusal| tell::text(&[tell::refused(refusal)]);
    let plan = match judged {
        Ok(plan) => plan,
        Err((refusal, told)) => {
            return Ok(Answer::done(refused(refusal)).but_refused(told.said));
        }
    };
    let path = options.word(1);
    let journal = files::journal(path, limit, &draft)?;
    if let Some(refusal) = journal.refused {
        let said = files::too_long(path, refusal).said;
        return Ok(Answer::done(refused(refusal)).but_refused(said));
    }
    let run = journal.run(&plan);
    let told = tell::tell(&draft, &run, &journal.read.lines);
    let answer = Answer::done(tell::text(&told));
    Ok(match &run.broken {
        Some(broken) => answer.but_refused(files::broken_words(path, broken)),
        None => answer,
    })
}

pub fn add(options: &Options) -> Or<Answer> {
    let (filed, journal) = both(options)?;
    let path = options.word(1);
    let journal = journal.whole(path)?;
    let line = options.words()[2..].join(" ");
    let call = one_more(&line, &filed.draft, &journal)?;
    let longer = [&journal.read.calls[..], &[call]].concat();
    run::fits(&journal::encode(&longer)).map_err(|refusal| files::too_long(path, refusal))?;
    let mut run = journal.run(&filed.plan);
    run.done = vec![run::make(&mut run.ledger, call)];
    let told = tell::text(&[tell::told(&filed.draft, &run, 0)]);
    if matches!(run.done[0].answer, Refused(_)) {
        return Ok(Answer::done(told).but_refused(format!("{path}: nothing added\n")));
    }
    let added = if files::has_bytes(path) {
        journal::encode(&[call])
    } else {
        format!("{}\n", line.trim()).into_bytes()
    };
    output::append(path, &added)?;
    Ok(Answer::done(told))
}

/// The call of a line that follows a journal.
fn one_more(line: &str, draft: &Draft, journal: &Journal) -> Or<Call> {
    if line.contains('\n') {
        return Err(Answer::unfit("add takes one line"));
    }
    let read = journal_text::read_line(line, draft, &journal.read);
    read.map_err(|found| files::faults("LINE", line, &found))
}

pub fn timeline(options: &Options) -> Or<Answer> {
    let (filed, journal) = both(options)?;
    let journal = journal.whole(options.word(1))?;
    let run = journal.run(&filed.plan);
    let picture = picture::timeline(&filed.draft, &run);
    output::text(options.value("-o"), picture)
}

/// The society that withdraws: the one that is named, or else the one in force at
/// the journal's end, or else the only one that the plan's rights name.
pub fn withdrawing(options: &Options, draft: &Draft, journal: &Journal) -> Or<u16> {
    if let Some(word) = options.value("--as") {
        let word = Word::of(word);
        let society = lookup::in_table(&word, &draft.names.societies, "society");
        return society.map_err(Answer::unfit);
    }
    let mut named: Vec<u16> = draft.records.grants.iter().map(|g| g.society).collect();
    named.sort_unstable();
    named.dedup();
    let only = match named[..] {
        [only] => Some(only),
        _ => None,
    };
    let unknown = || Answer::unfit("who withdraws? say it with --as SOCIETY");
    journal.read.society.or(only).ok_or_else(unknown)
}

pub fn withdraw(options: &Options) -> Or<Answer> {
    let (filed, journal) = both(options)?;
    let journal = journal.whole(options.word(1))?;
    let society = withdrawing(options, &filed.draft, &journal)?;
    let run = journal.run(&filed.plan);
    match withdraw::withdraw(&filed.draft, &run, society) {
        Ok(withdrawal) => Ok(Answer::done(withdrawal.text(&filed.draft))),
        Err(refusal) => Err(Answer::refused(withdraw::refused(
            &filed.draft,
            society,
            refusal,
        ))),
    }
}
