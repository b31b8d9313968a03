//! Which number each record has: the written ones, and for the others the lowest
//! that are left, in the order of the text.

use super::heads::Given;
use super::lines::Text;
use crate::fault::Fault;
use std::collections::BTreeMap;

/// The most records of a sort that 16 bits number.
const MOST: usize = 65_535;

/// The number of each record, each sort in the order of the text.
pub struct Numbers {
    pub tracks: Vec<u16>,
    pub states: Vec<u16>,
    pub steps: Vec<u16>,
    pub windows: Vec<u16>,
    pub grants: Vec<u16>,
}

impl Numbers {
    pub fn of(text: &Text, faults: &mut Vec<Fault>) -> Numbers {
        let mut sort = |what, given: Vec<&Given>| of_sort(what, &given, faults);
        Numbers {
            tracks: sort("track", text.tracks.iter().map(|t| &t.head.given).collect()),
            states: sort("state", text.states.iter().map(|s| &s.head.given).collect()),
            steps: sort("step", text.steps.iter().map(|x| &x.given).collect()),
            windows: sort("window", text.windows.iter().map(|w| &w.given).collect()),
            grants: sort("right", text.grants.iter().map(|g| &g.given).collect()),
        }
    }
}

fn of_sort(what: &str, given: &[&Given], faults: &mut Vec<Fault>) -> Vec<u16> {
    if let Some(first) = given.get(MOST) {
        let what = format!("this is {what} number {MOST}, and the highest number is 65534");
        let (line, mark) = (first.line, None);
        faults.push(Fault { line, mark, what });
    }
    let taken = taken(what, given, faults);
    let mut left = (0..=u16::MAX).filter(|number| !taken.contains_key(number));
    let number = |given: &&Given| match &given.number {
        Some((number, _)) => *number,
        None => left.next().unwrap_or(u16::MAX),
    };
    given.iter().map(number).collect()
}

/// The written numbers with their lines. Where another line is faulty, records
/// are missing, and nothing is said about numbers that seem too high.
fn taken(what: &str, given: &[&Given], faults: &mut Vec<Fault>) -> BTreeMap<u16, usize> {
    let count = given.len();
    let whole = faults.is_empty();
    let mut taken = BTreeMap::new();
    for given in given {
        let (number, word) = match &given.number {
            Some((number, word)) => (*number, word),
            None => continue,
        };
        if let Some(above) = taken.insert(number, given.line) {
            let what = format!("line {above} has {what} number {number} already");
            faults.push(word.fault(given.line, what));
        } else if whole && usize::from(number) >= count {
            let most = count - 1;
            let range = match most {
                0 => format!("the only {what} has number 0"),
                _ => format!("the {count} {what}s have the numbers 0 to {most}"),
            };
            let what = format!("{what} number {number} is too high: {range}");
            faults.push(word.fault(given.line, what));
        }
    }
    taken
}
