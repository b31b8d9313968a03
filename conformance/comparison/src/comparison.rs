//! Cases compared, and what happened in them counted.

use std::io;
use std::path::{Path, PathBuf};
use std::sync::mpsc::{sync_channel, SyncSender};
use std::thread;

use second::journal;
use second::limit::Limit;
use second::plan::MAX_TRACKS;
use testing::coverage::{Coverage, JOURNALS};
use testing::generate::journals::{self, Case};
use testing::generate::paths as bounds;
use testing::generate::rng::Rng;
use testing::generate::singles;

use crate::case::{self, Call, Given};
use crate::conversions;
use crate::expected::{self, Done};
use crate::guarded::{self, Answers, Requests};
use crate::journals::Runner;
use crate::paths;

/// Of so many single calls one comes with a begin and a read on the same input.
pub const BEGINS: u64 = 8;

/// Calls asked for and not yet compared.
const AHEAD: usize = 256;

/// What a comparison found.
pub enum Verdict {
    Agree,
    /// The case's line, and what each side says.
    Differ(String),
}

/// Who is compared with the second program, and what happened so far.
pub struct Comparison {
    calls: PathBuf,
    runners: Vec<Runner>,
    coverage: Coverage,
}

impl Comparison {
    /// By the programs `calls` and `unwind` of a folder.
    pub fn new(programs: &Path) -> io::Result<Comparison> {
        let unwind = Runner::program(&programs.join("unwind"), &programs.join("folder"))?;
        Ok(Comparison {
            calls: programs.join("calls"),
            runners: vec![Runner::Calls, unwind],
            coverage: Coverage::default(),
        })
    }

    /// So many journals, each at both limits.
    pub fn journals(&mut self, seed: u64, count: u64) -> io::Result<Verdict> {
        for index in 0..count {
            let case = journals::case(&mut Rng::for_case(seed, 1, index), MAX_TRACKS);
            self.coverage.journal(&case);
            for limit in Limit::SETTINGS {
                if let Verdict::Differ(text) = self.journal(limit, &case)? {
                    return Ok(Verdict::Differ(text));
                }
            }
        }
        Ok(Verdict::Agree)
    }

    /// One journal at a limit, by the calls, and at the program's by the program.
    pub fn journal(&self, limit: Limit, case: &Case) -> io::Result<Verdict> {
        let second = journal::unwind_at(limit, &case.plan, &case.journal);
        for runner in self.runners.iter().filter(|r| r.takes(limit)) {
            let first = runner.run(limit, case)?;
            if first != second {
                let text = |bytes: &[u8]| String::from_utf8_lossy(bytes).into_owned();
                let (line, name) = (case::journal_line(limit, case), runner.name());
                let (first, second) = (text(&first), text(&second));
                return Ok(Verdict::Differ(format!(
                    "{line}\n-- {name}:\n{first}-- second program:\n{second}"
                )));
            }
        }
        Ok(Verdict::Agree)
    }

    /// So many single calls, and begins among them.
    pub fn singles(&mut self, seed: u64, count: u64) -> io::Result<Verdict> {
        let coverage = &mut self.coverage;
        let calls = (0..count).flat_map(|index| {
            let single = singles::single(&mut Rng::for_case(seed, 2, index), MAX_TRACKS);
            coverage.single(&single);
            with_begin(index, Given::from(single))
        });
        compare_all(&self.calls, calls)
    }

    /// The largest numbers of entries of so many plans, for each track that there
    /// may be and some that there are not.
    pub fn plans(&mut self, seed: u64, count: u64) -> io::Result<Verdict> {
        let coverage = &mut self.coverage;
        let calls = (0..count).flat_map(|index| {
            let plan = bounds::any_plan(&mut Rng::for_case(seed, 5, index));
            coverage.plan(&plan);
            let given = move |track| Given::largest(plan.clone(), track);
            paths::tracks().map(given)
        });
        compare_all(&self.calls, calls)
    }

    /// The conversions of a seed, and how many were asked for.
    pub fn conversions(&self, seed: u64) -> io::Result<(Verdict, usize)> {
        let mut count = 0;
        let calls = conversions::all(seed).inspect(|_| count += 1);
        let verdict = compare_all(&self.calls, calls)?;
        Ok((verdict, count))
    }

    /// One single call.
    pub fn single(&self, given: &Given) -> io::Result<Verdict> {
        compare_all(&self.calls, [given.clone()].into_iter())
    }

    /// Prints what happened; whether every row reaches its floor, which is
    /// that of the default batch in proportion.
    pub fn covers(&self, journals: u64) -> bool {
        let rows = self.coverage.rows();
        let mut below = 0;
        println!("{:<45} {:>9} {:>9}", "row", "count", "floor");
        for row in &rows {
            let floor = row.floor * journals / JOURNALS;
            let mark = if row.count < floor { "  BELOW" } else { "" };
            below += usize::from(row.count < floor);
            println!("{:<45} {:>9} {:>9}{mark}", row.name, row.count, floor);
        }
        println!("{} rows, {below} below their floor", rows.len());
        below == 0
    }
}

/// The call, every eighth one after a begin and a read on the same input.
fn with_begin(index: u64, given: Given) -> Vec<Given> {
    let more: &[Call] = match index % BEGINS {
        0 => &[Call::Begin, Call::Read],
        _ => &[],
    };
    let made = |&call: &Call| Given {
        call,
        ..given.clone()
    };
    let mut calls: Vec<Given> = more.iter().map(made).collect();
    calls.push(given);
    calls
}

/// The calls, by the program and by the second program, up to a difference.
fn compare_all(program: &Path, calls: impl Iterator<Item = Given> + Send) -> io::Result<Verdict> {
    let (mut child, mut requests, mut answers) = guarded::start(program)?;
    let (to, from) = sync_channel(AHEAD);
    let verdict = thread::scope(|scope| {
        let asking = scope.spawn(move || ask(&mut requests, &to, calls));
        let verdict = from.iter().find_map(|(given, expected)| {
            let verdict = compare(&mut answers, &given, &expected);
            (!matches!(verdict, Verdict::Agree)).then_some(verdict)
        });
        drop((from, answers));
        let asked = asking.join().expect("asking does not panic");
        verdict.map_or(asked.map(|()| Verdict::Agree), Ok)
    });
    let status = child.wait()?;
    match verdict? {
        Verdict::Agree if !status.success() => {
            Err(io::Error::new(io::ErrorKind::Other, status.to_string()))
        }
        verdict => Ok(verdict),
    }
}

/// Asks for the calls, and has the second program answer them as well.
fn ask(
    requests: &mut Requests,
    to: &SyncSender<(Given, Done)>,
    calls: impl Iterator<Item = Given>,
) -> io::Result<()> {
    for given in calls {
        requests.send(&given)?;
        let expected = expected::answer(&given);
        if to.send((given, expected)).is_err() {
            return Ok(());
        }
    }
    Ok(())
}

/// Whether both answers are alike; a path is free among those with as many
/// entries.
fn agree(given: &Given, second: &Done, proved: &Done) -> bool {
    match given.call {
        Call::Largest(track) => paths::agree(&given.plan, track, second, proved),
        _ => second == proved,
    }
}

/// The answer of the proved call against the second program's.
fn compare(answers: &mut Answers, given: &Given, expected: &Done) -> Verdict {
    let line = || case::call_line(given);
    match answers.next(given) {
        Ok(done) if agree(given, expected, &done) => Verdict::Agree,
        Ok(done) => Verdict::Differ(format!(
            "{}\n-- proved: {}\n-- second program: {}\n",
            line(),
            done.text(),
            expected.text()
        )),
        Err(error) => Verdict::Differ(format!("{}\n-- no answer: {error}\n", line())),
    }
}
