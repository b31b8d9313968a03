//! Two programs compared: scripts that print what is right, or nearly so.

#[allow(dead_code)]
mod common;

use common::brothers;
use registrar::compare::{compare, Comparison, Given};
use registrar::draft::Draft;
use registrar::run::Run;
use registrar::{journal_text, tell};
use retraction::{Plan, Refusal};
use std::fs;
use std::os::unix::fs::PermissionsExt;
use std::path::{Path, PathBuf};

const JOURNAL: &str = include_str!("../../samples/brothers_and_sisters/journal.txt");
const OUTPUT: &str = include_str!("../../samples/brothers_and_sisters/output");

/// Scripts in a folder of this test's own.
struct Scripts(PathBuf);

impl Scripts {
    fn new() -> Scripts {
        let name = format!("registrar-comparing-{}", std::process::id());
        let folder = std::env::temp_dir().join(name);
        fs::create_dir_all(&folder).expect("a folder");
        fs::write(folder.join("output"), OUTPUT).expect("a file");
        Scripts(folder)
    }

    /// A script of this mode; OUTPUT in it is the file with the right output.
    fn add(&self, name: &str, body: &str, mode: u32) -> PathBuf {
        let path = self.0.join(name);
        let output = self.0.join("output");
        let body = body.replace("OUTPUT", &output.display().to_string());
        fs::write(&path, format!("#!/bin/sh\n{body}\n")).expect("a script");
        let mode = fs::Permissions::from_mode(mode);
        fs::set_permissions(&path, mode).expect("a mode");
        path
    }
}

impl Drop for Scripts {
    fn drop(&mut self) {
        let _ = fs::remove_dir_all(&self.0);
    }
}

/// Both programs on the brothers' plan and journal.
fn compared(one: &Path, other: &Path) -> Result<Comparison, String> {
    let draft = brothers();
    let plan = Plan::read(draft.records.encode()).expect("an accepted plan");
    let journal = journal_text::read(JOURNAL, &draft).expect("a journal's text");
    let run = Run::of(&plan, journal.limit, &journal.calls, None);
    let told = tell::tell(&draft, &run, &journal.lines);
    let given = Given {
        draft: &draft,
        plan: plan.bytes(),
        journal: &registrar::journal::encode(&journal.calls),
        told: &told,
        run: Some(&run),
    };
    compare(&given, [one, other])
}

/// How many folders of this process's comparisons are left.
fn folders_left() -> usize {
    let start = format!("registrar-{}-", std::process::id());
    let all = fs::read_dir(std::env::temp_dir()).expect("a folder");
    let names = all.filter_map(|entry| entry.ok()?.file_name().into_string().ok());
    names.filter(|name| name.starts_with(&start)).count()
}

// One test alone: a script that is being written cannot be run, and a process
// that another thread starts meanwhile would hold it open.
#[test]
fn programs() {
    let scripts = Scripts::new();
    let right = scripts.add("right", "cat OUTPUT", 0o755);
    let changed = scripts.add("changed", "sed 's/^F 1 139/F 3 131/' OUTPUT", 0o755);
    let also_changed = scripts.add("also", "sed 's/^F 1 139/F 3 131/' OUTPUT", 0o755);
    let early = scripts.add("early", "head -n 4 OUTPUT; exit 3", 0o755);
    let longer = scripts.add("longer", "cat OUTPUT; echo H 0 4", 0o755);
    let rubbish = scripts.add("rubbish", "echo PLAN 7 15; printf 'a\\033b\\377'", 0o755);
    let cut = scripts.add("cut", "printf %s \"$(cat OUTPUT)\"", 0o755);
    let reads = scripts.add(
        "reads",
        "test \"$(ls)\" = plan.bin && test $(wc -c <plan.bin) = 318 && test $(wc -c) = 116 && cat OUTPUT",
        0o755,
    );
    let barred = scripts.add("barred", "cat OUTPUT", 0o644);

    let same = compared(&right, &right).expect("both run");
    assert!(same.alike && same.proved == [true, true]);
    assert!(same
        .text
        .ends_with(" print the same, 15 lines, and so it is by the proved calls.\n"));
    let same = compared(&right, &reads).expect("both run");
    assert!(same.alike, "{}", same.text);

    let differs = compared(&right, &changed).expect("both run");
    assert!(!differs.alike && differs.proved == [true, false]);
    let wanted = format!(
        "\
{right} and {changed} differ, first in line 11, for record 9 of the journal, line 12 of its text, 'take back next':
  {right}    F 1 139 -  elder takes back: Send Anders's and Clara's papers back (139)
  {changed}  F 3 131 -  film-clara takes back: Call Clara's film back (131)
Before it:
  link           undoing in under-way, holds Withdraw the banns (101)
  elder          undoing in entered, holds Send Anders's and Clara's papers back (139)
  younger        undoing in papers, holds nothing
  film-dora      undoing in released, holds Call Dora's film back (141)
  baptism-bengt  undoing in unchecked, holds nothing
{right} prints what the proved calls say.
{changed} differs from the proved calls, first in line 11.
",
        right = right.display(),
        changed = changed.display()
    );
    assert_eq!(differs.text, wanted);

    let both = compared(&changed, &also_changed).expect("both run");
    assert!(both.alike && both.proved == [false, false]);
    assert!(both
        .text
        .contains("but differ from the proved calls, first in line 11"));
    assert!(
        both.text
            .contains("  proved calls   F 1 139 -  elder takes back"),
        "{}",
        both.text
    );

    let stops = compared(&early, &right).expect("both run");
    assert!(stops.text.contains("first in line 5"), "{}", stops.text);
    assert!(stops.text.contains("nothing, its output has ended"));
    assert!(stops.text.contains("early ended with exit status: 3.\n"));
    let more = compared(&right, &longer).expect("both run");
    assert!(more
        .text
        .contains("first in line 16, where there is no line any more"));

    let odd = compared(&right, &rubbish).expect("both run");
    assert!(
        odd.text.contains("first in line 1, for the plan"),
        "{}",
        odd.text
    );
    assert!(
        odd.text.contains("PLAN 7 15    no line of unwind's"),
        "{}",
        odd.text
    );
    let two_odd = compared(&rubbish, &rubbish).expect("both run");
    assert!(two_odd.alike && two_odd.text.contains("rubbish (A) and "));
    let unended = compared(&cut, &right).expect("both run");
    assert!(
        unended.text.contains("first in line 15, the last"),
        "{}",
        unended.text
    );
    assert!(unended.text.contains("went out, without its line feed"));
    assert!(unended
        .text
        .contains("At the end:\n  link  undoing in under-way, holds nothing\n"));

    for unfit in [
        &barred,
        &scripts.0.join("none"),
        &scripts.0,
        &"no-such-program".into(),
    ] {
        let told = compared(&right, unfit).expect_err("it cannot be run");
        let wanted = format!("{}: cannot be run: ", unfit.display());
        assert!(told.starts_with(&wanted), "{told}");
    }
    assert!(
        compared(Path::new("true"), Path::new("true"))
            .expect("both run")
            .alike
    );
    refused_plan(&scripts);
    big_journal(&scripts);
    assert_eq!(folders_left(), 0);
}

/// A plan that is refused: one line is due.
fn refused_plan(scripts: &Scripts) {
    let says = scripts.add("says", "echo R 8", 0o755);
    let draft = Draft::default();
    let told = [tell::refused(Refusal::NoTrack)];
    let given = Given {
        draft: &draft,
        plan: &draft.records.encode(),
        journal: &[],
        told: &told,
        run: None,
    };
    let same = compare(&given, [&says, &says]).expect("both run");
    assert!(same.alike && same.proved == [true, true], "{}", same.text);
    let other = scripts.add("other", "echo R 9", 0o755);
    let differs = compare(&given, [&says, &other]).expect("both run");
    assert!(
        differs
            .text
            .contains("R 8  refused as 8: the plan has no track"),
        "{}",
        differs.text
    );
}

/// More than a pipe holds, to a program that does not read, and to one that does.
fn big_journal(scripts: &Scripts) {
    let deaf = scripts.add("deaf", "echo", 0o755);
    let counts = scripts.add("counts", "test $(wc -c) = 1000000 && echo", 0o755);
    let draft = Draft::default();
    let given = Given {
        draft: &draft,
        plan: &[],
        journal: &vec![0; 1_000_000],
        told: &[],
        run: None,
    };
    let same = compare(&given, [&deaf, &counts]).expect("both run");
    assert!(same.alike && same.proved == [false, false], "{}", same.text);
}
