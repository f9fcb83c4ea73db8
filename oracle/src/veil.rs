//! A8: parentheses between quotes. The searches of the test copy's calls read a text in which a parenthesis that lies between a
//! quote and the next one is veiled: another letter stands for it, of one byte too, which no formula holds. A closing search that
//! reads such a letter passes over a parenthesis, and that is noted.

use std::cell::Cell;

const VEILED: [(char, char); 2] = [('(', '\u{1}'), (')', '\u{2}')];

/// The text with each parenthesis between paired quotes veiled. They are paired from the start on; the last of an odd number has no
/// partner and is an ordinary symbol.
pub fn veiled(text: &str) -> String {
    let parts: Vec<&str> = text.split('"').collect();
    let last = parts.len() - 1;
    let part = |(k, part): (usize, &&str)| {
        let quoted = k % 2 == 1 && k < last;
        if quoted { with(part, |(parenthesis, letter)| (parenthesis, letter)) } else { part.to_string() }
    };
    parts.iter().enumerate().map(part).collect::<Vec<_>>().join("\"")
}

pub fn unveiled(text: &str) -> String {
    with(text, |(parenthesis, letter)| (letter, parenthesis))
}

fn with(text: &str, change: impl Fn((char, char)) -> (char, char)) -> String {
    VEILED.into_iter().map(change).fold(text.to_string(), |text, (old, new)| text.replace(old, &new.to_string()))
}

thread_local! {
    static PASSED: Cell<bool> = const { Cell::new(false) };
}

/// A closing search reads this symbol, which is no parenthesis to it.
pub fn read(symbol: char) {
    if VEILED.iter().any(|&(_, letter)| letter == symbol) {
        PASSED.set(true);
    }
}

/// What a rewriting gives, and whether one of its closing searches passed over a parenthesis.
pub fn watched<T>(rewriting: impl FnOnce() -> T) -> (T, bool) {
    PASSED.set(false);
    let result = rewriting();
    (result, PASSED.get())
}
