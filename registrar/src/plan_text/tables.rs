//! The lines that name events, retractions and societies.

use super::forms::form;
use super::heads::name;
use crate::draft::Table;
use crate::fault::Fault;
use crate::lookup;
use crate::words::Line;
use std::collections::BTreeMap;

/// A table with the lines of its numbers and names.
#[derive(Default)]
pub struct Rows {
    pub table: Table,
    numbers: BTreeMap<u16, usize>,
    names: BTreeMap<String, usize>,
}

impl Rows {
    pub fn row(&mut self, line: &mut Line, first: &str) -> Result<(), Fault> {
        let thing = match first {
            "retract" => "retraction",
            other => other,
        };
        let the = format!("the {thing}");
        let start = line.clone();
        let number = lookup::number(line, &the)?;
        let word = lookup::new_name(line, &the)?;
        let name = name(line, &word);
        let above = self.names.get(&name.name);
        if let Some(above) = above {
            let what = format!("line {above} gives the name '{}' already", name.name);
            return Err(word.fault(line.number, what));
        }
        self.names.insert(name.name.clone(), line.number);
        if let Some(above) = self.numbers.get(&number) {
            let what = format!("line {above} gives {thing} {number} a name already");
            return Err(start.fault(what));
        }
        self.numbers.insert(number, line.number);
        self.table.names.insert(number, name);
        line.end(&[], form(first))
    }
}
