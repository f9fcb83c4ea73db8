//! The cases written by hand, from traps.txt: every line of the list of traps, with near misses, the tables of document 01,
//! and wide tables, whole and damaged.

use super::cases::unhex;
use super::generate::family_number;
use super::table::Form;
use std::sync::OnceLock;

pub struct Line {
    pub family: u8,
    pub formula: String,
    pub table: Vec<u8>,
}

pub fn lines() -> Vec<&'static Line> {
    static LINES: OnceLock<Vec<Line>> = OnceLock::new();
    LINES.get_or_init(|| parse(include_str!("traps.txt"))).iter().collect()
}

fn parse(text: &str) -> Vec<Line> {
    let mut lines = Vec::new();
    let mut family = 0;
    for line in text.lines() {
        if let Some(name) = line.strip_prefix("@ ") {
            family = family_number(name).unwrap_or_else(|| panic!("no family {name}"));
            continue;
        }
        if line.starts_with('#') {
            continue;
        }
        let plain = line.replace('¶', "\n").replace('⇥', "\t").replace('·', " ");
        let mut parts = plain.split('§');
        let formula = parts.next().unwrap_or_default().to_string();
        let mut table = Vec::new();
        for part in parts {
            // What stands already says which form a record has.
            table.extend(bytes_of(part, Form::of(&table)));
        }
        lines.push(Line { family, formula, table });
    }
    lines
}

/// What a part of a line adds to its table.
fn bytes_of(part: &str, form: Form) -> Vec<u8> {
    if part.is_empty() {
        return vec![0];
    }
    if let Some(hexadecimal) = part.strip_prefix('#') {
        return unhex(&hexadecimal.replace(' ', "")).expect("bytes in hexadecimal");
    }
    if let Some(text) = part.strip_prefix('\'') {
        return text.as_bytes().to_vec();
    }
    let (name, latex) = part.split_once('=').expect("name=latex");
    form.record_bytes(name.as_bytes(), latex.as_bytes())
}
