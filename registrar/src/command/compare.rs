//! The command compare.

use super::answer::{Answer, Or};
use super::files::{self, Given};
use super::limits;
use super::options::Options;
use crate::{compare, tell};
use std::path::Path;

pub fn compare(options: &Options) -> Or<Answer> {
    let Given {
        draft,
        bytes,
        judged,
    } = files::given(options.word(0))?;
    let path = options.word(1);
    let journal = files::journal(path, None, &draft);
    // Of a plan that is refused the names may be lost, and that is the fault then.
    let journal = journal.map_err(|fault| match &judged {
        Err((_, told)) => told.clone(),
        Ok(_) => fault,
    })?;
    limits::of_programs(path, journal.read.limit)?;
    let refusal = judged.as_ref().err().map(|(refusal, _)| *refusal);
    let refusal = refusal.or(journal.refused);
    let run = judged.as_ref().ok().map(|plan| journal.run(plan));
    let run = run.filter(|_| refusal.is_none());
    let told = match (&run, refusal) {
        (Some(run), _) => tell::tell(&draft, run, &journal.read.lines),
        (None, refusal) => refusal.into_iter().map(tell::refused).collect(),
    };
    let given = compare::Given {
        draft: &draft,
        plan: &bytes,
        journal: &journal.bytes,
        told: &told,
        run: run.as_ref(),
    };
    let programs = [2, 3].map(|place| Path::new(options.word(place)));
    let compared = compare::compare(&given, programs).map_err(Answer::unfit)?;
    let answer = Answer::done(compared.text);
    let right = compared.alike && compared.proved == [true; 2];
    Ok(if right {
        answer
    } else {
        answer.but_refused("")
    })
}
