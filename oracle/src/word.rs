//! Request A14, the word under the pointer: the answer that document 02 gives for one call. The word and the place of its LaTeX are
//! each found in two ways, which must agree.

use super::judge::refused_inputs;
use super::table::Record;
use std::ops::Range;

/// Number 16: the place is at or past the formula's end, or on a character that is neither a letter nor a digit.
const NO_WORD: u8 = 16;

/// Names of one byte stand for nothing, as in definitions.
const SHORTEST_NAME: usize = 2;

/// What a call answers: a number, 0 where nothing is refused, and a part of the formula or of the table.
#[derive(Clone, Copy, Debug, PartialEq)]
pub struct Word {
    pub number: u8,
    pub in_table: bool,
    pub start: usize,
    pub length: usize,
}

impl Word {
    /// A refusal hands back the formula's empty beginning.
    pub fn refused(number: u8) -> Self {
        Word { number, in_table: false, start: 0, length: 0 }
    }

    fn found(in_table: bool, part: Range<usize>) -> Self {
        Word { number: 0, in_table, start: part.start, length: part.len() }
    }

    /// The bytes of the part.
    pub fn text<'a>(&self, formula: &'a [u8], table: &'a [u8]) -> &'a [u8] {
        let whole = if self.in_table { table } else { formula };
        &whole[self.start..][..self.length]
    }
}

pub fn word_at(formula: &[u8], table: &[u8], place: usize) -> Word {
    let records = match refused_inputs(formula, table) {
        Ok(records) => records,
        Err(number) => return Word::refused(number),
    };
    let run = run_around(formula, place);
    assert_eq!(run, run_that_covers(formula, place), "two ways to the word at {place} of {formula:?}");
    let Some(run) = run else {
        return Word::refused(NO_WORD);
    };
    match latex_of(&formula[run.clone()], table, &records) {
        Some(latex) => Word::found(true, latex),
        None => Word::found(false, run),
    }
}

/// The longest run of letters and digits around the place, step by step to the left and to the right.
pub fn run_around(formula: &[u8], place: usize) -> Option<Range<usize>> {
    let in_word = |at: usize| formula.get(at).is_some_and(u8::is_ascii_alphanumeric);
    if !in_word(place) {
        return None;
    }
    let (mut start, mut end) = (place, place + 1);
    while start > 0 && in_word(start - 1) {
        start -= 1;
    }
    while in_word(end) {
        end += 1;
    }
    Some(start..end)
}

/// The one that covers the place among the runs into which all other characters part the formula.
fn run_that_covers(formula: &[u8], place: usize) -> Option<Range<usize>> {
    let mut start = 0;
    for run in formula.split(|b| !matches!(b, b'0'..=b'9' | b'A'..=b'Z' | b'a'..=b'z')) {
        let run = start..start + run.len();
        if run.contains(&place) {
            return Some(run);
        }
        start = run.end + 1;
    }
    None
}

/// Where the LaTeX of the record lies whose name is the word exactly, or None where the word is no defined name.
fn latex_of(word: &[u8], table: &[u8], records: &[Record]) -> Option<Range<usize>> {
    if word.len() < SHORTEST_NAME {
        return None;
    }
    let places = record_places(table);
    assert_eq!(places.len(), records.len(), "two ways to the records of {table:?}");
    let index = records.iter().position(|record| record.name.as_bytes() == word);
    assert_eq!(index, places.iter().position(|place| &table[place.name.clone()] == word), "two ways to the name {word:?}");
    let latex = places[index?].latex.clone();
    assert_eq!(&table[latex.clone()], records[index?].latex.as_bytes(), "two ways to the LaTeX of {word:?}");
    Some(latex)
}

/// Where the name and the LaTeX of a record lie in the table.
struct RecordPlace {
    name: Range<usize>,
    latex: Range<usize>,
}

/// The places of a good table's records. The headers are read off their bytes here, apart from `table.rs`.
fn record_places(table: &[u8]) -> Vec<RecordPlace> {
    let byte = |at: usize| usize::from(table[at]);
    let wide = table.first() == Some(&0);
    let mut at = usize::from(wide);
    let mut places = Vec::new();
    while at < table.len() {
        let (header, name_length, latex_length) = if wide {
            (3, byte(at) * 8 + byte(at + 1) / 32, byte(at + 1) % 32 * 256 + byte(at + 2))
        } else {
            (2, byte(at) / 4, byte(at) % 4 * 256 + byte(at + 1))
        };
        let name_start = at + header;
        let latex_start = name_start + name_length;
        at = latex_start + latex_length;
        places.push(RecordPlace { name: name_start..latex_start, latex: latex_start..at });
    }
    places
}
