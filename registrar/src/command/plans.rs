//! Commands about a plan alone: check, build, list, text, draw.

use super::answer::{Answer, Or};
use super::files::{self, Filed};
use super::options::Options;
use super::output;
use crate::{list, picture, plan_text};

pub fn check(options: &Options) -> Or<Answer> {
    let path = options.word(0);
    let Filed { draft, plan } = files::plan(path)?;
    let figures = list::figures(&draft, &plan);
    Ok(Answer::done(format!("{path}: accepted: {figures}\n")))
}

pub fn build(options: &Options) -> Or<Answer> {
    let Filed { draft, plan } = files::plan(options.word(0))?;
    let unnamed = || Answer::unfit("build writes bytes: name their file with -o");
    let file = options.value("-o").ok_or_else(unnamed)?;
    let said = format!("{file}: {}\n", list::figures(&draft, &plan));
    output::bytes(file, plan.bytes(), said)
}

pub fn list(options: &Options) -> Or<Answer> {
    let Filed { draft, plan } = files::plan(options.word(0))?;
    Ok(Answer::done(list::list(&draft, &plan)))
}

pub fn text(options: &Options) -> Or<Answer> {
    let Filed { mut draft, .. } = files::plan(options.word(0))?;
    if let Some(names) = options.value("--names") {
        let old = files::plan(names)?;
        draft = plan_text::names_from(draft.records, &old.draft);
    }
    output::text(options.value("-o"), plan_text::write(&draft))
}

pub fn draw(options: &Options) -> Or<Answer> {
    let filed = files::plan(options.word(0))?;
    output::text(options.value("-o"), picture::plan(&filed.draft))
}
