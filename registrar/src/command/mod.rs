//! The commands of `registrar`.

mod answer;
mod compare;
mod files;
mod help;
mod journals;
mod limits;
mod options;
mod output;
mod page;
mod plans;

pub use answer::Answer;

use crate::fault::suggestion;
use answer::Or;
use options::Options;

/// A command: what it is called, how it is written, what it does.
pub struct Command {
    pub name: &'static str,
    /// What stands behind its name.
    pub usage: &'static str,
    /// One line.
    pub about: &'static str,
    /// What else there is to know.
    pub more: &'static str,
    /// The fewest and the most words behind it, options aside.
    words: (usize, usize),
    /// Its options, each with a value.
    options: &'static [&'static str],
    run: fn(&Options) -> Or<Answer>,
}

const MANY: usize = usize::MAX;

/// Every command, in the order in which help lists them.
pub const COMMANDS: [Command; 14] = [
    Command {
        name: "check",
        usage: "PLAN",
        about: "whether a plan is accepted, or its refusal in words",
        more: "A refused text is told with its line, bytes with the record and the byte. So is a text that cannot be read, \
               with its faults, the first 20, each place marked, and a suggestion for a misspelt name.",
        words: (1, 1),
        options: &[],
        run: plans::check,
    },
    Command {
        name: "build",
        usage: "PLAN -o FILE",
        about: "a plan's text to bytes",
        more: "Only what the proved reader accepts is written; what stood in FILE stays until then.",
        words: (1, 1),
        options: &["-o"],
        run: plans::build,
    },
    Command {
        name: "list",
        usage: "PLAN",
        about: "what was understood: each step with its retraction beside it",
        more: "Tracks stand nested in the states that host them, with windows, rights, and the most entries that each track \
               can ever hold. A plan with a deviation or a circle of steps has no such figure.",
        words: (1, 1),
        options: &[],
        run: plans::list,
    },
    Command {
        name: "text",
        usage: "PLAN [--names OLD] [-o FILE]",
        about: "a plan's bytes to text",
        more: "Built again, the text gives the same bytes; remarks are lost. Names are taken from an older text, OLD; without one, tracks are t0, t1 \
               and so on, states s0, s1 and so on, and everything else goes by its number.",
        words: (1, 1),
        options: &["--names", "-o"],
        run: plans::text,
    },
    Command {
        name: "draw",
        usage: "PLAN [-o FILE]",
        about: "a plan as a picture (SVG)",
        more: "Scopes are nested boxes, steps are arrows with their event and retraction, deviations are dashed.",
        words: (1, 1),
        options: &["-o"],
        run: plans::draw,
    },
    Command {
        name: "journal",
        usage: "PLAN JOURNAL [--limit 8] [-o FILE]",
        about: "a journal's text to bytes, or its bytes to text",
        more: "A text becomes bytes, in the file that -o names. The bytes of a file whose name ends in .bin become text. Bytes cannot tell the \
               reading rooms' limit: of a text at limit 8 they are written only with --limit 8, and with it they are read as such.",
        words: (2, 2),
        options: &["--limit", "-o"],
        run: journals::journal,
    },
    Command {
        name: "tell",
        usage: "PLAN JOURNAL [--limit 8]",
        about: "unwind's own lines, each with its meaning",
        more: "The first column is what unwind prints for the same plan and journal; the second is the line of the journal's text. For a \
               journal at limit 8 the first is what a reading room's unwind would print; unwind itself keeps to 32.",
        words: (2, 2),
        options: &["--limit"],
        run: journals::tell,
    },
    Command {
        name: "add",
        usage: "PLAN JOURNAL [--limit 8] LINE",
        about: "tries one line on a journal, and appends it if it is accepted",
        more: "LINE is a line of a journal's text with a call in it, such as: event banns-read. It is tried after all that stands in the \
               journal, on the day and by the society in force there, unless it has its own. What is refused is told and not \
               written.",
        words: (3, MANY),
        options: &["--limit"],
        run: journals::add,
    },
    Command {
        name: "withdraw",
        usage: "PLAN JOURNAL [--limit 8] [--as SOCIETY]",
        about: "what would be taken back now, in which rounds",
        more: "How many letters would go out, which side by side, and what waits for what. Nothing is written. The society is the one \
               in force at the journal's end, or the only one that the plan's rights name, unless it is said.",
        words: (2, 2),
        options: &["--limit", "--as"],
        run: journals::withdraw,
    },
    Command {
        name: "timeline",
        usage: "PLAN JOURNAL [--limit 8] [-o FILE]",
        about: "a journal as a picture (SVG): a row for each track, a column for each call",
        more: "Each cell has the track's state and what it holds, the newest on top.",
        words: (2, 2),
        options: &["--limit", "-o"],
        run: journals::timeline,
    },
    Command {
        name: "compare",
        usage: "PLAN JOURNAL A B",
        about: "whether two programs print the same, or the first line that differs, in words",
        more: "A and B are programs that are run as unwind is: with plan.bin in the working folder and the journal on standard \
               input. Each is run in a folder of its own, which is removed again. They keep to 32 entries for each track, so a journal at \
               limit 8 is not taken.",
        words: (4, 4),
        options: &[],
        run: compare::compare,
    },
    Command {
        name: "page",
        usage: "PLAN [JOURNAL] [--limit 8] [--as SOCIETY] [-o FILE]",
        about: "all of it in one HTML file",
        more: "The listing, the picture, and with a journal its telling, its timeline and what would be taken back now. The page needs \
               no network and has no script.",
        words: (1, 2),
        options: &["--limit", "--as", "-o"],
        run: page::page,
    },
    Command {
        name: "explain",
        usage: "NUMBER",
        about: "what a refusal means, and how to mend it",
        more: "The numbers are those of unwind's lines R.",
        words: (1, 1),
        options: &[],
        run: help::explain,
    },
    Command {
        name: "help",
        usage: "[COMMAND]",
        about: "this list, or more about a command",
        more: "",
        words: (0, 1),
        options: &[],
        run: help::help,
    },
];

/// The command of a name.
fn named(name: &str) -> Or<&'static Command> {
    let names = COMMANDS.iter().map(|command| command.name);
    let unknown = || {
        let suggestion = suggestion(name, names);
        Answer::unfit(format!(
            "no command '{name}'{suggestion}; 'registrar help' lists them"
        ))
    };
    let mut commands = COMMANDS.iter();
    commands
        .find(|command| command.name == name)
        .ok_or_else(unknown)
}

/// Runs the command that these words ask for.
#[must_use]
pub fn run(words: &[String]) -> Answer {
    ran(words).unwrap_or_else(|answer| answer)
}

fn ran(words: &[String]) -> Or<Answer> {
    let (name, rest) = match words {
        [] => return Err(Answer::usage(help::overview())),
        [name, rest @ ..] => (&name[..], rest),
    };
    match name {
        "-h" | "--help" => return Ok(Answer::done(help::overview())),
        "-V" | "--version" => {
            let version = env!("CARGO_PKG_VERSION");
            return Ok(Answer::done(format!("registrar {version}\n")));
        }
        _ => {}
    }
    let command = named(name)?;
    if rest.iter().any(|word| word == "-h" || word == "--help") {
        return Ok(Answer::done(help::about(command)));
    }
    let options = Options::of(rest, command.options)?;
    let (fewest, most) = command.words;
    let count = options.words().len();
    if count < fewest || count > most {
        let usage = format!("usage: registrar {} {}\n", command.name, command.usage);
        return Err(Answer::usage(usage));
    }
    let old = options.value("--names");
    let read = options.words().iter().map(String::as_str).chain(old);
    output::apart(options.value("-o"), read)?;
    (command.run)(&options)
}
