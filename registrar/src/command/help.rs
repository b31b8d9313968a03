//! Commands that say what there is to know: help and explain.

use super::answer::{Answer, Or};
use super::options::Options;
use super::{named, Command, COMMANDS};
use crate::{explain, phrase};
use std::fmt::Write;

/// Every command on a line.
#[must_use]
pub fn overview() -> String {
    let mut text = String::from(
        "plans and journals as text, with the retractions listed beside each step\n\nusage: registrar COMMAND ...\n\n",
    );
    for command in &COMMANDS {
        let _ = writeln!(text, "  {:9} {}", command.name, command.about);
    }
    text.push_str(
        "\nA plan or a journal is bytes where its name ends in .bin, and text otherwise.
--limit 8 reads a journal's bytes at the reading rooms' limit; a text tells its own.
'registrar help COMMAND' says more; registrar(1) has both texts' grammar.
Exit status: 0 done, 1 refused or different, 2 usage or a file.\n",
    );
    text
}

/// All about one command.
#[must_use]
pub fn about(command: &Command) -> String {
    let Command {
        name,
        usage,
        about,
        more,
        ..
    } = command;
    let mut text = format!("usage: registrar {name} {usage}\n\n{about}\n");
    if !more.is_empty() {
        let _ = writeln!(text, "\n{}", phrase::wrapped(more, 80, 0));
    }
    text
}

pub fn help(options: &Options) -> Or<Answer> {
    match options.words().first() {
        None => Ok(Answer::done(overview())),
        Some(name) => Ok(Answer::done(about(named(name)?))),
    }
}

pub fn explain(options: &Options) -> Or<Answer> {
    let word = options.word(0);
    let unknown = || Answer::unfit(format!("no refusal '{word}': they are numbered 1 to 29"));
    let number = word.parse().ok();
    let explained = number.and_then(explain::explain).ok_or_else(unknown)?;
    Ok(Answer::done(explained))
}
