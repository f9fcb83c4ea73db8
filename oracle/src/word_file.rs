//! The file of cases of request A14, and what is written for it: the lines of the program `word_places`, and lines for
//! `oracle/compute`.
//!
//! A case in the file: formula length (2 bytes, most significant first), table length (2), the formula's bytes, the table's bytes.
//! Each place of the formula is asked, and the one past its end.

use super::cases::{hex, number, take};
use super::word::word_at;
use std::io::{BufWriter, Read, Write};

/// A formula and a table. With a place they are a call.
#[derive(Clone, Debug, PartialEq)]
pub struct Inputs {
    pub formula: Vec<u8>,
    pub table: Vec<u8>,
}

pub fn to_bytes(cases: &[Inputs]) -> Vec<u8> {
    let length = |part: &[u8]| u16::try_from(part.len()).expect("a length of two bytes").to_be_bytes();
    let mut bytes = Vec::new();
    for Inputs { formula, table } in cases {
        bytes.extend(length(formula));
        bytes.extend(length(table));
        bytes.extend(formula);
        bytes.extend(table);
    }
    bytes
}

pub fn from_bytes(bytes: &[u8]) -> Option<Vec<Inputs>> {
    let mut rest = bytes;
    let mut cases = Vec::new();
    while !rest.is_empty() {
        let (formula, table) = (number(&mut rest, 2)?, number(&mut rest, 2)?);
        let formula = take(&mut rest, formula)?.to_vec();
        cases.push(Inputs { formula, table: take(&mut rest, table)?.to_vec() });
    }
    Some(cases)
}

/// The cases on standard input.
fn read() -> Option<Vec<Inputs>> {
    let mut bytes = Vec::new();
    std::io::stdin().lock().read_to_end(&mut bytes).expect("standard input can be read");
    let cases = from_bytes(&bytes);
    if cases.is_none() {
        eprintln!("not a file of cases");
    }
    cases
}

/// A line for each place of each case: `PLACE ok PART` or `PLACE refused NUMBER`.
pub fn words() -> bool {
    let Some(cases) = read() else { return false };
    let mut out = BufWriter::new(std::io::stdout().lock());
    for Inputs { formula, table } in &cases {
        for place in 0..=formula.len() {
            let word = word_at(formula, table, place);
            let line = match word.number {
                0 => [format!("{place} ok ").as_bytes(), word.text(formula, table), b"\n"].concat(),
                number => format!("{place} refused {number}\n").into_bytes(),
            };
            out.write_all(&line).expect("the line can be written");
        }
    }
    true
}

/// Lines for `oracle/compute`: `index formula-hex table-hex place number side start length`. The index is the case's.
pub fn dump() -> bool {
    let Some(cases) = read() else { return false };
    let mut out = BufWriter::new(std::io::stdout().lock());
    for (index, Inputs { formula, table }) in cases.iter().enumerate() {
        for place in dumped_places(formula.len()) {
            let word = word_at(formula, table, place);
            let side = if word.in_table { "table" } else { "formula" };
            let (start, length) = (word.start, word.length);
            let inputs = format!("{} {}", hex(formula), hex(table));
            if writeln!(out, "{index} {inputs} {place} {} {side} {start} {length}", word.number).is_err() {
                return false;
            }
        }
    }
    true
}

/// Every place, or some of a long formula: at its beginning, in its middle and at its end.
fn dumped_places(length: usize) -> Vec<usize> {
    if length <= 64 {
        (0..=length).collect()
    } else {
        vec![0, 1, length / 2, length / 2 + 1, length - 1, length]
    }
}
