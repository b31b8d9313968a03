//! The paper's sample plan through the raw calls, and through plans and ledgers.

mod sample_plan;

use retraction::raw::{begin, entries, event, fire, read, ready, signal};
use retraction::{Counts, Entry, Limit, Moved, Plan, Refusal};
use retraction::{FIRST_DAY, LAST_DAY, LEADING_WORDS, NONE};
use sample_plan::{begun, plan, SOCIETY, TRACKS};

/// The options of a call at the main program's limit, and the words that a ledger of plan P has at it.
const MAIN: u32 = Limit::Main.options();
const WORDS: usize = Limit::Main.ledger_words(TRACKS);

fn fired(code: u16) -> Result<Entry, Refusal> {
    let deviation = None;
    Ok(Entry { code, deviation })
}

fn moved(moved: u16, closed: u16) -> Result<Moved, Refusal> {
    Ok(Moved { moved, closed })
}

#[test]
fn the_sample_is_taken_back() {
    let (plan, mut ledger) = begun(Limit::Main);
    for number in [10, 11, 12] {
        assert_eq!(
            event(&plan, &mut ledger, number, 0, SOCIETY, MAIN),
            moved(1, 0)
        );
    }
    assert_eq!(entries(&plan, &ledger, 1, MAIN), [51, NONE]);
    assert_eq!(signal(&plan, &mut ledger, SOCIETY, MAIN), Ok(3));
    assert_eq!(ready(&plan, &mut ledger, MAIN), Ok(0b110));
    assert_eq!(
        fire(&plan, &mut ledger, 0, SOCIETY, MAIN),
        Err(Refusal::NotReady)
    );
    for (track, code) in [(1, 51), (2, 52), (0, 50)] {
        assert_eq!(fire(&plan, &mut ledger, track, SOCIETY, MAIN), fired(code));
    }
    assert_eq!(ready(&plan, &mut ledger, MAIN), Ok(0));
}

/// The entries that all tracks hold.
fn held(plan: &[u8], ledger: &[u16]) -> usize {
    (0..3)
        .map(|t| entries(plan, ledger, t, MAIN).len() / 2)
        .sum()
}

#[test]
fn as_many_firings_are_due_as_entries_are_held() {
    let (plan, mut ledger) = begun(Limit::Main);
    for number in [10, 11, 12] {
        assert_eq!(
            event(&plan, &mut ledger, number, 0, SOCIETY, MAIN),
            moved(1, 0)
        );
    }
    assert_eq!(held(&plan, &ledger), 3);
    assert_eq!(signal(&plan, &mut ledger, SOCIETY, MAIN), Ok(3));
    for order in [[1, 2, 0], [2, 1, 0]] {
        let mut ledger = ledger.clone();
        for (done, track) in order.into_iter().enumerate() {
            assert_eq!(held(&plan, &ledger), 3 - done);
            assert_ne!(ready(&plan, &mut ledger, MAIN), Ok(0));
            assert!(fire(&plan, &mut ledger, track, SOCIETY, MAIN).is_ok());
        }
        assert_eq!(held(&plan, &ledger), 0);
        assert_eq!(ready(&plan, &mut ledger, MAIN), Ok(0));
    }
}

#[test]
fn a_scope_that_closes_leaves_its_replacement() {
    let (plan, mut ledger) = begun(Limit::Main);
    for number in [10, 11, 12] {
        assert_eq!(
            event(&plan, &mut ledger, number, 0, SOCIETY, MAIN),
            moved(1, 0)
        );
    }
    assert_eq!(event(&plan, &mut ledger, 14, 0, SOCIETY, MAIN), moved(1, 1));
    assert_eq!(entries(&plan, &ledger, 0, MAIN), [50, NONE, 90, NONE]);
    assert_eq!(entries(&plan, &ledger, 1, MAIN), []);
    assert_eq!(event(&plan, &mut ledger, 13, 0, SOCIETY, MAIN), moved(1, 0));
    assert_eq!(
        signal(&plan, &mut ledger, SOCIETY, MAIN),
        Err(Refusal::Over)
    );
    assert_eq!(ledger[..LEADING_WORDS], [182, 633, 0, 0]);
    let tracks = &ledger[LEADING_WORDS..WORDS];
    assert!(tracks.iter().all(|&word| word == 0));
}

#[test]
fn refused_calls_change_no_word() {
    let (plan, mut ledger) = begun(Limit::Main);
    let before = ledger.clone();
    let short = &mut ledger.clone()[..WORDS - 1];
    assert_eq!(begin(&[], &mut ledger, MAIN), Err(Refusal::NoRecord));
    assert_eq!(
        event(&plan, &mut ledger, 0, 0, SOCIETY, MAIN),
        Err(Refusal::EventZero)
    );
    assert_eq!(
        event(&plan, short, 10, 0, SOCIETY, MAIN),
        Err(Refusal::FewWords)
    );
    assert_eq!(
        signal(&plan[..45], &mut ledger, SOCIETY, MAIN),
        Err(Refusal::CutShort)
    );
    assert_eq!(
        fire(&plan, &mut ledger, 3, SOCIETY, MAIN),
        Err(Refusal::NotReady)
    );
    assert_eq!(
        ready(&[4, 0, 4, 0], &mut ledger, MAIN),
        Err(Refusal::NoTrack)
    );
    assert_eq!(entries(&plan, &ledger, 3, MAIN), []);
    assert_eq!(short[..], before[..WORDS - 1]);
    assert_eq!(ledger, before);
    ledger[LEADING_WORDS] = 3;
    assert_eq!(ready(&plan, &mut ledger, MAIN), Err(Refusal::Unsound));
}

#[test]
fn a_plan_tells_its_counts() {
    let counts = Counts {
        tracks: 3,
        states: 8,
        transitions: 5,
    };
    assert_eq!(read(&plan()), Ok(counts));
    assert_eq!(read(&plan()[..181]), Err(Refusal::NoRecord));
    let plan = Plan::read(plan()).expect("the sample");
    assert_eq!(plan.counts(), counts);
    assert_eq!(plan.ledger_words(Limit::Main), 205);
    assert_eq!(plan.ledger_words(Limit::ReadingRoom), 61);
}

#[test]
fn a_ledger_is_stored_and_read_again() -> Result<(), Refusal> {
    let plan = Plan::read(plan())?;
    let mut ledger = plan.begin(Limit::Main);
    for number in [10, 11, 12] {
        assert_eq!(ledger.event(number, 0, SOCIETY), moved(1, 0));
    }
    let mut again = plan.ledger(ledger.words(), Limit::Main)?;
    assert_eq!(again, ledger);
    assert_eq!(again.signal(SOCIETY), Ok(3));
    assert_eq!(again.ready().collect::<Vec<u16>>(), [1, 2]);
    assert_eq!(again.entries(2).collect::<Vec<Entry>>(), [fired(52)?]);
    while let Some(track) = again.ready().next() {
        let _ = again.fire(track, SOCIETY)?;
    }
    assert!(!again.is_over() && !ledger.is_over());
    assert_eq!(ledger.event(14, 0, SOCIETY), moved(1, 1));
    assert_eq!(ledger.event(13, 0, SOCIETY), moved(1, 0));
    assert!(ledger.is_over());
    Ok(())
}

#[test]
fn a_refusal_has_its_number_and_its_words() {
    let checked: Vec<u16> = (1..=16)
        .chain([25, 27, 29, 17, 24, 18, 19, 26, 20, 28])
        .chain(21..=23)
        .collect();
    let numbers: Vec<u16> = Refusal::ALL
        .iter()
        .map(|refusal| refusal.number())
        .collect();
    assert_eq!(numbers, checked);
    for &refusal in Refusal::ALL {
        let number = refusal.number();
        assert_eq!(Refusal::from_number(number), Some(refusal));
        assert_eq!(refusal.to_string(), format!("{number}: {}", refusal.text()));
    }
}

/// A file of the repository.
fn file(name: &str) -> String {
    let path = format!("{}/../../{name}", env!("CARGO_MANIFEST_DIR"));
    std::fs::read_to_string(path).expect("a file of the repository")
}

/// The numbers of one of the header's enumerations, in its order.
fn enumeration(header: &str, name: &str) -> Vec<u32> {
    let starts = |line: &&str| *line != format!("enum {name} {{");
    let lines = header.lines().skip_while(starts).skip(1);
    lines
        .take_while(|line| *line != "};")
        .filter_map(|line| line.trim_end_matches(',').split_once(" = "))
        .map(|(_, number)| number.parse().expect("a number"))
        .collect()
}

/// The header has the same refusals in the same order, and says the same of each.
#[test]
fn the_header_has_the_refusals() {
    let header = file("include/retraction.h");
    let numbers = Refusal::ALL.iter().map(|refusal| refusal.number().into());
    let numbers: Vec<u32> = numbers.collect();
    assert_eq!(enumeration(&header, "retraction_refusals"), numbers);
    for refusal in Refusal::ALL {
        assert!(header.contains(&format!("return \"{}\";", refusal.text())));
    }
}

/// The header has the same options and no other.
#[test]
fn the_header_has_the_limits() {
    let header = file("include/retraction.h");
    let options = [Limit::Main, Limit::ReadingRoom].map(Limit::options);
    assert_eq!(enumeration(&header, "retraction_options"), options);
}

/// The header says the same of a ledger's words, of the range of days and of the version; so do the manual pages of the version.
#[test]
fn the_header_agrees() {
    let header = file("include/retraction.h");
    let line = |line: &str| header.lines().any(|found| found == line);
    assert!(line(&format!(
        "#define RETRACTION_LEADING_WORDS {LEADING_WORDS}"
    )));
    assert!(line(&format!("#define RETRACTION_FIRST_DAY ({FIRST_DAY})")));
    assert!(line(&format!("#define RETRACTION_LAST_DAY {LAST_DAY}")));
    let version = env!("CARGO_PKG_VERSION");
    let part = |part: &str| part.parse::<u32>().expect("a number");
    let number = version
        .split('.')
        .fold(0, |number, next| 100 * number + part(next));
    assert!(line(&format!("#define RETRACTION_VERSION {number}")));
    assert!(line(&format!(
        "#define RETRACTION_VERSION_TEXT \"{version}\""
    )));
    for page in ["unwind.1", "registrar.1", "retraction.3", "plan.5"] {
        assert!(file(&format!("man/{page}")).contains(&format!("\"retraction {version}\"")));
    }
    assert!(file("registrar/Cargo.toml").contains(&format!("version = \"{version}\"\n")));
}
