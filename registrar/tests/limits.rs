//! The program at the reading rooms' limit: that it is said, that no bytes lose it,
//! and that no program is run where it would not be kept.

#[allow(dead_code)]
mod common;
mod desk;

use desk::Desk;

/// A plan whose track takes the same step again and again, and journals of so many of
/// them, at the main limit and at that of the reading rooms.
fn rooms(desk: &Desk, steps: usize) {
    let plan = "plan loops\nevent 1 again\nsociety 1 desk\ntrack a\n  right desk move signal fire\n  state s\n    on again go s undo 91\n";
    desk.write("loops.txt", plan);
    let calls = "  event again\n".repeat(steps);
    desk.write("main.txt", format!("journal\non 0 as desk\n{calls}"));
    let rooms = format!("journal of loops at limit 8\non 1900-01-01 as desk\n{calls}");
    desk.write("rooms.txt", rooms);
}

/// Each command says the limit where it is 8, and nothing of it where it is 32.
#[test]
fn the_reading_rooms_limit_is_said() {
    let desk = Desk::new("rooms");
    rooms(&desk, 9);
    let limit = "at the reading rooms' limit of 8 entries for each track";
    for command in ["tell", "withdraw", "timeline", "page"] {
        let said = desk.done(&format!("{command} loops.txt rooms.txt"));
        assert!(said.replace("&#39;", "'").contains(limit), "{said}");
        let main = desk.done(&format!("{command} loops.txt main.txt"));
        assert!(!main.contains("limit"), "{main}");
        assert_eq!(
            desk.done(&format!("{command} loops.txt main.txt --limit 32")),
            main
        );
    }
    let told = desk.done("tell loops.txt rooms.txt");
    assert_eq!(told.matches("\nE 1 1 0 ").count(), 8, "{told}");
    assert!(
        told.contains("\nR 21 ") && told.contains("a holds 8 already"),
        "{told}"
    );
    let due = desk.done("withdraw loops.txt rooms.txt");
    assert!(due.contains("8 letters would go out, exactly"), "{due}");
    let drawn = desk.done("timeline loops.txt rooms.txt");
    assert!(drawn.contains(">begin at limit 8<"), "{drawn}");
    // One more line is tried at the journal's own limit.
    let journal = desk.read("rooms.txt");
    let (status, printed, said) = desk.run("add loops.txt rooms.txt event again");
    assert_eq!((status, &said[..]), (1, "rooms.txt: nothing added\n"));
    assert!(printed.starts_with("R 21 "), "{printed}");
    assert_eq!(desk.read("rooms.txt"), journal);
    desk.done("add loops.txt main.txt event again");
    desk.not_done(
        "add loops.txt main.txt at limit 8",
        1,
        "LINE:1: the limit stands on the first line",
    );
}

/// Bytes cannot tell the limit. They are not written of a text that has another than
/// the main one, unless it is said.
#[test]
fn a_limit_is_not_lost_in_bytes() {
    let desk = Desk::new("lost-limit");
    rooms(&desk, 9);
    desk.write("out.bin", "what stood here");
    let files = desk.files();
    desk.not_done(
        "journal loops.txt rooms.txt -o out.bin",
        2,
        "rooms.txt: is at limit 8, which bytes cannot tell; --limit 8 writes them all the same\n",
    );
    desk.not_done(
        "journal loops.txt rooms.txt --limit 32 -o out.bin",
        2,
        "rooms.txt: is at limit 8 by its first line, and --limit says 32\n",
    );
    assert_eq!(desk.read("out.bin"), b"what stood here");
    assert_eq!(desk.files(), files, "nothing is written");
    assert_eq!(
        desk.done("journal loops.txt rooms.txt --limit 8 -o out.bin"),
        "out.bin: 9 records, 108 bytes, to be read with --limit 8\n"
    );
    assert_eq!(
        desk.done("journal loops.txt main.txt -o main.bin"),
        "main.bin: 9 records, 108 bytes\n"
    );
    assert_eq!(desk.read("out.bin"), desk.read("main.bin"));
}

/// Bytes are read at 32 unless another limit is said, and become a text that tells it.
#[test]
fn bytes_at_the_limit_that_is_said() {
    let desk = Desk::new("said-limit");
    rooms(&desk, 9);
    desk.done("journal loops.txt rooms.txt --limit 8 -o out.bin");
    let rooms = String::from_utf8(desk.read("rooms.txt")).unwrap();
    assert_eq!(desk.done("journal loops.txt out.bin --limit 8"), rooms);
    let main = rooms.replace(" at limit 8", "");
    assert_eq!(desk.done("journal loops.txt out.bin"), main);
    assert_eq!(desk.done("journal loops.txt out.bin --limit 32"), main);
    let told = |line: &str| desk.done(&format!("tell loops.txt {line}"));
    assert!(told("out.bin --limit 8").contains("\nR 21 "));
    assert!(!told("out.bin").contains("\nR 21 "));
    for command in ["withdraw", "timeline", "page"] {
        let of_bytes = desk.done(&format!("{command} loops.txt out.bin --limit 8"));
        assert_eq!(
            of_bytes,
            desk.done(&format!("{command} loops.txt rooms.txt"))
        );
    }
    let (status, printed, _) = desk.run("add loops.txt out.bin --limit 8 event again");
    assert_eq!((status, &printed[..5]), (1, "R 21 "));
    desk.done("add loops.txt out.bin event again");
    assert_eq!(desk.read("out.bin").len(), 10 * 12);
}

/// A limit that there is not, and one that a text contradicts.
#[test]
fn limits_that_do_not_fit() {
    let desk = Desk::new("unfit-limit");
    rooms(&desk, 1);
    let before = desk.read("rooms.txt");
    for command in ["journal", "tell", "add", "withdraw", "timeline", "page"] {
        let line = if command == "add" { " event again" } else { "" };
        let run = |rest: &str| format!("{command} loops.txt {rest}{line}");
        let none = "--limit: a limit is 8, the reading rooms', or 32, the main program's; did you mean '8'?";
        desk.not_done(&run("rooms.txt --limit 9"), 2, none);
        desk.not_done(
            &run("rooms.txt --limit 32"),
            2,
            "is at limit 8 by its first line",
        );
        desk.not_done(
            &run("main.txt --limit 8"),
            2,
            "is at limit 32 by its first line",
        );
        let slip = "no option '--limt' here; did you mean '--limit'?";
        desk.not_done(&run("rooms.txt --limt 8"), 2, slip);
    }
    desk.not_done(
        "tell loops.txt rooms.txt --limit",
        2,
        "--limit wants a value",
    );
    assert_eq!(desk.read("rooms.txt"), before);
    desk.write("nine.txt", "journal at limit 9\n");
    desk.not_done(
        "tell loops.txt nine.txt",
        1,
        "nine.txt:1: a limit is 8, the reading rooms', or 32, the main program's; did you mean '8'?\n  journal at limit 9\n                   ^\n",
    );
}

/// Programs keep to 32 entries, and are not compared on a journal at 8.
#[test]
fn programs_are_compared_at_their_limit() {
    let desk = Desk::new("compare-limit");
    rooms(&desk, 9);
    desk.not_done(
        "compare loops.txt rooms.txt ./nosuch ./nosuch",
        2,
        "rooms.txt: is at limit 8, and programs are compared at 32\n",
    );
    desk.not_done(
        "compare loops.txt main.txt ./nosuch ./nosuch",
        2,
        "./nosuch",
    );
    desk.not_done(
        "compare loops.txt main.txt --limit 8 ./nosuch ./nosuch",
        2,
        "no option '--limit' here",
    );
}
