//! How a line of a plan's text begins: the number that is written, the name and
//! its words.

use crate::draft::Name;
use crate::fault::Fault;
use crate::lookup;
use crate::words::{Line, Word};

/// The line of a record, and the number that is written for it, if one is.
#[derive(Clone, Debug, Default)]
pub struct Given {
    pub line: usize,
    pub number: Option<(u16, Word)>,
}

#[derive(Clone, Debug, Default)]
pub struct Head {
    pub given: Given,
    pub word: Word,
    pub name: Name,
}

/// The optional number, the name and the words of a track or a state.
pub fn head(line: &mut Line, of: &str) -> Result<Head, Fault> {
    let number = match line.peek().filter(|word| word.is_number()) {
        Some(_) => Some(written(line, of)?),
        None => None,
    };
    let word = lookup::new_name(line, of)?;
    Ok(Head {
        given: at(line, number),
        name: name(line, &word),
        word,
    })
}

/// A head without a name where there is a fault in it, so that what stands
/// under it has its place.
pub fn or_nameless(head: &Result<Head, Fault>, line: &Line) -> Head {
    let nameless = |_| Head {
        given: at(line, None),
        ..Head::default()
    };
    head.clone().unwrap_or_else(nameless)
}

pub fn name(line: &mut Line, word: &Word) -> Name {
    Name {
        name: word.text.clone(),
        words: line.take_words(),
    }
}

pub fn at(line: &Line, number: Option<(u16, Word)>) -> Given {
    Given {
        line: line.number,
        number,
    }
}

/// A number that is written, with its word.
pub fn written(line: &mut Line, of: &str) -> Result<(u16, Word), Fault> {
    let word = line.peek().cloned().unwrap_or_default();
    let number = lookup::number(line, of)?;
    Ok((number, word))
}
