//! The program itself: exit status, what goes to standard output and what to
//! standard error, and what is written.

#[allow(dead_code)]
mod common;
mod desk;

use common::repository;
use desk::Desk;
use std::fs;
use std::path::Path;
use std::process::{Command, Stdio};

#[test]
fn usage_is_told_with_status_2() {
    let desk = Desk::new("usage");
    desk.not_done("", 2, "usage: registrar COMMAND");
    desk.not_done("lst plan.txt", 2, "no command 'lst'; did you mean 'list'?");
    desk.not_done("list", 2, "usage: registrar list PLAN");
    desk.not_done("list plan.txt plan.txt", 2, "usage: registrar list PLAN");
    desk.not_done("list plan.txt -o x", 2, "no option '-o' here");
    desk.not_done("text plan.bin --nmes x", 2, "did you mean '--names'?");
    desk.not_done(
        "text plan.bin --names",
        2,
        "--names wants a value behind it",
    );
    desk.not_done("build plan.txt", 2, "name their file with -o");
    desk.not_done("journal plan.txt halfway.txt", 2, "name their file with -o");
    desk.not_done("explain 30", 2, "no refusal '30'");
    desk.not_done("explain fourteen", 2, "no refusal 'fourteen'");
    desk.not_done("help nosuch", 2, "no command 'nosuch'");
    for command in ["withdraw", "page"] {
        let line = format!("{command} plan.txt halfway.txt --as nobody");
        desk.not_done(&line, 2, "no society 'nobody'");
    }
    desk.not_done(
        "withdraw plan.txt halfway.txt --as dsk",
        2,
        "there is no society 'dsk'; did you mean 'desk'?",
    );
}

#[test]
fn files_are_told_with_status_2() {
    let desk = Desk::new("files");
    desk.not_done(
        "check nosuch.txt",
        2,
        "registrar: nosuch.txt: No such file or directory\n",
    );
    desk.not_done("check .", 2, "registrar: .: Is a directory\n");
    desk.not_done("tell plan.txt nosuch.txt", 2, "nosuch.txt: No such file");
    desk.not_done(
        "build plan.txt -o nosuch/plan.bin",
        2,
        "nosuch/plan.bin: No such file",
    );
    desk.write("latin.txt", b"plan caf\xe9\n");
    desk.not_done(
        "check latin.txt",
        2,
        "latin.txt: no UTF-8 text, by its byte 8; save a text as UTF-8",
    );
    desk.not_done(
        "compare plan.txt halfway.txt ./nosuch ./nosuch",
        2,
        "./nosuch",
    );
}

#[test]
fn help_is_there_for_each_command() {
    let desk = Desk::new("help");
    let overview = desk.done("help");
    assert_eq!(desk.done("--help"), overview);
    assert_eq!(
        desk.done("--version"),
        format!("registrar {}\n", env!("CARGO_PKG_VERSION"))
    );
    for command in registrar::command::COMMANDS {
        assert!(overview.contains(&format!("\n  {:9} ", command.name)));
        let about = desk.done(&format!("help {}", command.name));
        let usage = format!("usage: registrar {} {}\n", command.name, command.usage);
        assert!(about.starts_with(&usage), "{about}");
        assert_eq!(desk.done(&format!("{} --help", command.name)), about);
    }
}

/// Bytes and texts go to names that tell what they are.
#[test]
fn bytes_and_texts_keep_apart() {
    let desk = Desk::new("apart");
    desk.write("other.txt", "what stood here");
    desk.not_done(
        "build plan.txt -o other.txt",
        2,
        "bytes go into a file whose name ends in .bin",
    );
    desk.not_done(
        "journal plan.txt halfway.txt -o other.txt",
        2,
        "ends in .bin",
    );
    assert_eq!(desk.read("other.txt"), b"what stood here");
    let plan = desk.read("plan.bin");
    for command in [
        "text plan.bin",
        "draw plan.txt",
        "timeline plan.txt halfway.txt",
        "page plan.txt",
    ] {
        desk.not_done(&format!("{command} -o out.bin"), 2, "does not end in .bin");
    }
    assert_eq!(desk.read("plan.bin"), plan);
    let (status, printed, said) = desk.run("build plan.txt -o /dev/null");
    assert_eq!((status, &said[..]), (0, ""), "{printed}");
}

/// What is refused is not written, and what stood there stays.
#[test]
fn a_refused_plan_is_not_built() {
    let desk = Desk::new("build");
    let text = String::from_utf8(desk.read("plan.txt")).unwrap();
    desk.write("final.txt", text.replace("then by-post", "then received"));
    desk.write("out.bin", "what stood here");
    let files = desk.files();
    desk.not_done("build final.txt -o out.bin", 1, "refused, 14:");
    assert_eq!(desk.read("out.bin"), b"what stood here");
    assert_eq!(
        desk.done("build plan.txt -o out.bin"),
        "out.bin: 2 tracks, 7 states, 5 steps, no window, 2 rights records (176 bytes, sum 351)\n"
    );
    assert_eq!(desk.read("out.bin"), desk.read("plan.bin"));
    assert_eq!(desk.files(), files, "nothing is left beside it");
    desk.not_done("check final.txt", 1, "final.txt:21: refused, 14:");
}

/// No answer takes the place of a file that the command reads, under whatever
/// name.
#[test]
fn what_is_read_is_not_written() {
    let desk = Desk::new("apart");
    let link = std::os::unix::fs::symlink(desk.path("plan.txt"), desk.path("link.txt"));
    link.expect("a link");
    let files = ["plan.txt", "plan.bin", "halfway.txt"];
    let before = files.map(|file| desk.read(file));
    for line in [
        "build plan.txt -o plan.txt",
        "build plan.txt -o link.txt",
        "build link.txt -o plan.txt",
        "draw plan.txt -o ./plan.txt",
        "text plan.bin -o plan.bin",
        "text plan.bin --names plan.txt -o plan.txt",
        "journal plan.txt halfway.txt -o halfway.txt",
        "timeline plan.txt halfway.txt -o halfway.txt",
        "page plan.txt halfway.txt -o plan.txt",
    ] {
        desk.not_done(line, 2, ": is read here; name another file with -o\n");
    }
    assert_eq!(files.map(|file| desk.read(file)), before);
}

/// A link stays one, and what goes to standard output is the answer alone.
#[test]
fn links_and_standard_output() {
    let desk = Desk::new("links");
    let plan = desk.read("plan.bin");
    desk.write("real.bin", "what stood here");
    let link = std::os::unix::fs::symlink("real.bin", desk.path("link.bin"));
    link.expect("a link");
    desk.done("build plan.txt -o link.bin");
    assert_eq!(desk.read("real.bin"), plan);
    let link = fs::symlink_metadata(desk.path("link.bin")).expect("a link");
    assert!(link.file_type().is_symlink());
    let printed = desk.command("build plan.txt -o /dev/stdout").output();
    assert_eq!(printed.expect("the program runs").stdout, plan);
    assert_eq!(
        desk.done("draw plan.txt -o /dev/stdout"),
        desk.done("draw plan.txt")
    );
}

#[test]
fn text_and_bytes_there_and_back() {
    let desk = Desk::new("back");
    desk.done("text plan.bin -o again.txt");
    desk.done("build again.txt -o again.bin");
    assert_eq!(desk.read("again.bin"), desk.read("plan.bin"));
    desk.done("text plan.bin --names plan.txt -o named.txt");
    assert_eq!(desk.done("list named.txt"), desk.done("list plan.txt"));
    desk.done("journal plan.txt halfway.txt -o out.bin");
    assert_eq!(desk.read("out.bin"), desk.read("halfway.bin"));
    desk.done("journal plan.txt journal.bin -o journal.txt");
    desk.done("journal plan.txt journal.txt -o out.bin");
    assert_eq!(desk.read("out.bin"), desk.read("journal.bin"));
    assert_eq!(
        desk.done("tell plan.txt journal.txt").lines().count(),
        desk.done("tell plan.bin journal.bin").lines().count()
    );
}

/// A line that is accepted is appended as it is; one that is not leaves the file.
#[test]
fn add_appends_what_is_accepted() {
    let desk = Desk::new("add");
    let text = desk.read("halfway.txt");
    let (status, printed, said) = desk.run("add plan.txt halfway.txt take back film");
    assert_eq!(status, 1);
    assert!(printed.starts_with("R 22 "), "{printed}");
    assert_eq!(said, "halfway.txt: nothing added\n");
    desk.not_done(
        "add plan.txt halfway.txt event film-cme",
        1,
        "did you mean 'film-came'?",
    );
    desk.not_done(
        "add plan.txt halfway.txt on 1921-05-03",
        1,
        "a call is wanted here",
    );
    assert_eq!(desk.read("halfway.txt"), text);
    let told = desk.done("add plan.txt halfway.txt on 1921-05-03 event film-came");
    assert!(told.starts_with("E 2 1 0 "), "{told}");
    let longer = [&text[..], b"on 1921-05-03 event film-came\n"].concat();
    assert_eq!(desk.read("halfway.txt"), longer);

    // A last line without its end is ended first; bytes grow by the record.
    desk.write("open.txt", "journal\non 1921-05-02 as desk");
    desk.done("add plan.txt open.txt event film-asked");
    assert_eq!(
        desk.read("open.txt"),
        b"journal\non 1921-05-02 as desk\nevent film-asked\n"
    );
    // A day may have a sign.
    desk.write("begun.txt", "journal\n");
    desk.done("add plan.txt begun.txt on -30 as desk event film-asked");
    desk.not_done("add plan.txt begun.txt -x", 2, "no option '-x' here");
    // What is no journal yet is not added to.
    desk.write("empty.txt", "");
    let line = "add plan.txt empty.txt on 0 as desk event film-asked";
    desk.not_done(
        line,
        1,
        "empty.txt:1: a journal begins with the line: journal",
    );
    assert_eq!(desk.read("empty.txt"), b"");
    let bytes = desk.read("halfway.bin");
    desk.done("add plan.txt halfway.bin event film-came");
    let record = [12, 0, 20, 0, 2, 0];
    assert_eq!(
        desk.read("halfway.bin")[..bytes.len() + 6],
        [&bytes[..], &record].concat()
    );
    assert_eq!(desk.read("halfway.bin").len(), bytes.len() + 12);
}

#[test]
fn broken_and_long_journals_are_refused() {
    let desk = Desk::new("broken");
    let bytes = desk.read("halfway.bin");
    desk.write("broken.bin", [&bytes[..], &[6, 0, 16, 0]].concat());
    let (status, printed, said) = desk.run("tell plan.txt broken.bin");
    assert_eq!(status, 1);
    assert!(
        printed.contains("\nR 23 ") && printed.contains("\nH 2 0 "),
        "{printed}"
    );
    assert!(
        said.contains("record 2, at byte 24: kind 16 was withdrawn"),
        "{said}"
    );
    for command in ["journal", "withdraw", "timeline", "page", "add"] {
        let line = if command == "add" { " withdraw" } else { "" };
        desk.not_done(
            &format!("{command} plan.txt broken.bin{line}"),
            1,
            "refused, 23:",
        );
    }
    let record = [6, 0, 17, 0, 1, 0];
    desk.write("full.bin", record.repeat(5461));
    desk.not_done("add plan.txt full.bin withdraw", 1, "full.bin: refused, 1:");
    assert_eq!(desk.read("full.bin").len(), 5461 * 6);
    desk.write("long.bin", record.repeat(5462));
    let (status, printed, said) = desk.run("tell plan.txt long.bin");
    assert_eq!((status, &printed[..4]), (1, "R 1 "));
    assert!(said.starts_with("long.bin: refused, 1:"), "{said}");
    desk.write("cut.bin", &desk.read("plan.bin")[..100]);
    let (status, printed, said) = desk.run("tell cut.bin halfway.bin");
    assert_eq!((status, &printed[..4]), (1, "R 5 "));
    assert!(said.contains("record 10, at byte 96"), "{said}");
    // A text says nothing about a plan whose names are lost.
    desk.not_done(
        "compare cut.bin halfway.txt ./nosuch ./nosuch",
        1,
        "cut.bin: refused, 5:",
    );
}

#[test]
fn faults_that_are_left_out_are_told() {
    let desk = Desk::new("faults");
    desk.write("many.txt", "stat\n".repeat(21));
    desk.not_done(
        "check many.txt",
        1,
        "many.txt: these are the first 20 faults",
    );
}

/// Two programs that agree and two that do not.
#[test]
fn compare_tells_by_its_status() {
    let desk = Desk::new("compare");
    let output = repository().join("samples/film_by_post/output");
    let script = |change: &str| format!("#!/bin/sh\nsed '{change}' {}\n", output.display());
    for (name, change) in [("one", ""), ("other", "s/^F 1 14/F 1 15/")] {
        desk.write(name, script(change));
        let done = Command::new("chmod")
            .arg("+x")
            .arg(desk.path(name))
            .status();
        assert!(done.expect("chmod").success());
    }
    let alike = desk.done("compare plan.bin journal.bin ./one ./one");
    assert!(alike.contains("print the same, 10 lines"), "{alike}");
    let (status, printed, said) = desk.run("compare plan.txt journal.bin ./one ./other");
    assert_eq!((status, &said[..]), (1, ""));
    assert!(
        printed.contains("./other") && printed.contains("F 1 15 -"),
        "{printed}"
    );
}

/// Output that cannot be written is a fault; a reader that has gone away is none.
#[test]
fn lost_output_is_told() {
    let desk = Desk::new("lost");
    if Path::new("/dev/full").exists() {
        let full = fs::OpenOptions::new().write(true).open("/dev/full");
        let output = desk.command("list plan.txt").stdout(full.unwrap()).output();
        let output = output.expect("the program runs");
        assert_eq!(output.status.code(), Some(2));
        assert!(String::from_utf8_lossy(&output.stderr).contains("standard output: No space"));
    }
    let mut gone = desk.command("list plan.txt");
    gone.stdout(Stdio::piped()).stderr(Stdio::piped());
    let mut gone = gone.spawn().expect("the program runs");
    drop(gone.stdout.take());
    let output = gone.wait_with_output().expect("it ends");
    assert_eq!((output.status.code(), output.stderr.len()), (Some(0), 0));
}

#[test]
fn a_page_asks_for_nothing() {
    let desk = Desk::new("page");
    assert_eq!(
        desk.done("page plan.txt halfway.txt -o out.html"),
        "out.html: written\n"
    );
    let page = String::from_utf8(desk.read("out.html")).unwrap();
    assert!(!page.contains("<script") && !page.contains("<link") && !page.contains("<img"));
    assert!(page.contains(
        &desk
            .done("list plan.txt")
            .lines()
            .nth(1)
            .unwrap()
            .to_string()
    ));
    assert!(desk.done("page plan.bin").starts_with("<!DOCTYPE html>"));
    assert!(desk.done("draw plan.bin").starts_with("<svg "));
    assert!(desk
        .done("timeline plan.txt journal.bin")
        .starts_with("<svg "));
}
