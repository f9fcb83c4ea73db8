//! Typst math in, LaTeX out: the proved converter, with the shape of the Rust module that it is a port of.
//!
//! `math_conv::typst_to_latex(text, &definitions, display)` becomes
//! `jistranu::typst_to_latex(text, &definitions, display)?`. Which commands enlarge the delimiters around them can be chosen:
//! [`typst_to_latex_sized`].

pub mod raw;
mod refusal;
mod tall;

pub use refusal::Refusal;
pub use tall::Tall;

use std::cell::RefCell;
use std::collections::HashMap;
use std::ops::RangeInclusive;

/// A formula has at most this many bytes.
pub const FORMULA_BYTES: usize = 4_096;
/// The least work buffer.
pub const WORK_BYTES: usize = 32_768;
/// No answer is longer.
pub const OUTPUT_BYTES: usize = 8_192;

/// How a table holds definitions: what it begins with, the bytes of a record's header, the lengths that a header has room for.
/// A header is a number, the length of the name times `latex_bytes + 1` plus that of the LaTeX, most significant byte first.
struct Form {
    begin: &'static [u8],
    header_bytes: usize,
    name_bytes: RangeInclusive<usize>,
    latex_bytes: usize,
}

/// An empty name is left to the wide form: with it, a narrow table may begin as a wide one does.
const NARROW: Form = Form { begin: &[], header_bytes: 2, name_bytes: 1..=63, latex_bytes: 1_023 };
const WIDE: Form = Form { begin: &[0], header_bytes: 3, name_bytes: 0..=127, latex_bytes: 8_191 };
/// A wide table that ends within a header.
const CUT_OFF: [u8; 2] = [0, 0];

/// What a call is lent. One for each thread, so that a call allocates its answer only.
struct Buffers {
    work: Box<[u8]>,
    output: Box<[u8]>,
}

thread_local! {
    static BUFFERS: RefCell<Buffers> = RefCell::new(Buffers {
        work: vec![0; WORK_BYTES].into(),
        output: vec![0; OUTPUT_BYTES].into(),
    });
}

/// The LaTeX of a formula, or why there is none. `display`: whether `a/b` becomes `\frac{a}{b}`.
///
/// Definitions are applied longer names first and, among names of equal length, in the order of their bytes, so equal calls have
/// equal answers. Definitions that fit no table are [`Refusal::FaultyTable`]: a name has at most 127 bytes, its LaTeX at most
/// 8,191. Text that is not ASCII is [`Refusal::ForeignByte`]. `NarrowWork`, `ShortOutput` and `TallField` don't occur.
pub fn typst_to_latex(
    typst_math: &str,
    definitions: &HashMap<String, String>,
    display: bool,
) -> Result<String, Refusal> {
    typst_to_latex_sized(typst_math, definitions, display, Tall::ALL)
}

/// [`typst_to_latex`] with a choice of the commands that enlarge the delimiters around them. They do so with `display` only.
pub fn typst_to_latex_sized(
    typst_math: &str,
    definitions: &HashMap<String, String>,
    display: bool,
    tall: Tall,
) -> Result<String, Refusal> {
    let table = table(definitions);
    BUFFERS.with_borrow_mut(|Buffers { work, output }| {
        let latex = convert(typst_math.as_bytes(), &table, display, tall, work, output)?;
        Ok(String::from_utf8(latex.to_vec()).expect("LaTeX is ASCII text"))
    })
}

/// The library's own call: a table in its bytes, narrow or wide, and lent buffers. The LaTeX is the start of `output`, of which
/// no other byte is written; all of `work` is zero afterwards, or untouched where it is too narrow.
pub fn convert<'a>(
    formula: &[u8],
    table: &[u8],
    display: bool,
    tall: Tall,
    work: &mut [u8],
    output: &'a mut [u8],
) -> Result<&'a [u8], Refusal> {
    let mut count = 0;
    // SAFETY: the pointers and lengths are those of slices, and a slice that is borrowed mutably overlaps no other.
    let answer = unsafe {
        raw::jistranu_typst_to_latex(
            formula.as_ptr(),
            formula.len(),
            table.as_ptr(),
            table.len(),
            display,
            tall.bits().into(),
            work.as_mut_ptr(),
            work.len(),
            output.as_mut_ptr(),
            output.len(),
            &mut count,
        )
    };
    match Refusal::of_number(answer) {
        None => Ok(&output[..count]),
        Some(refusal) => Err(refusal),
    }
}

/// The atoms of a plain formula, one-byte scripts not counted; None where the formula is not plain.
///
/// The check takes 272 bytes of stack for each parenthesis that is open, 1.2 MB at most: a thread's usual 2 MiB are enough.
pub fn plain_check(formula: &[u8]) -> Option<usize> {
    let mut atoms = 0;
    // SAFETY: as above.
    let plain = unsafe { raw::jistranu_plain_check(formula.as_ptr(), formula.len(), &mut atoms) };
    plain.then_some(atoms)
}

/// What a word of a formula stands for.
#[derive(Clone, Copy, Debug, PartialEq, Eq, Hash)]
pub struct Word<'a> {
    /// The LaTeX within the table where `defined`, possibly empty; else the word within the formula.
    pub text: &'a [u8],
    /// Whether the word is a defined name of two or more bytes.
    pub defined: bool,
}

impl<'a> Word<'a> {
    /// The text as it is shown. A word is letters and digits, and a table's LaTeX is ASCII text.
    pub fn as_str(&self) -> &'a str {
        std::str::from_utf8(self.text).expect("a word and LaTeX are ASCII text")
    }
}

/// What the word at a byte place of a formula stands for, or why there is none. A word is the longest run of letters and digits
/// around the place; [`table`] makes a table of definitions.
///
/// The whole word is compared with the names, which is not the conversion's rule. With a definition of `gain`, `gain2` is one word
/// and not defined, but a conversion rewrites the `gain` in it; in `x_gain` the word at 2 is `gain` and defined, but a conversion
/// does not rewrite it.
pub fn word_at<'a>(formula: &'a [u8], table: &'a [u8], place: usize) -> Result<Word<'a>, Refusal> {
    let (mut defined, mut start, mut length) = (false, 0, 0);
    // SAFETY: as above.
    let answer = unsafe {
        raw::jistranu_word_at(
            formula.as_ptr(),
            formula.len(),
            table.as_ptr(),
            table.len(),
            place,
            &mut defined,
            &mut start,
            &mut length,
        )
    };
    if let Some(refusal) = Refusal::of_number(answer) {
        return Err(refusal);
    }
    let lent = if defined { table } else { formula };
    Ok(Word { text: &lent[start..][..length], defined })
}

/// The definitions as a table, which [`convert`] and [`word_at`] take; hold it as long as a [`Word`], which may lie in it. It is
/// narrow where that form has room for each definition, and else wide. Where neither has, it is cut off, which is a fault like any
/// other: the library decides which refusal comes first.
pub fn table(definitions: &HashMap<String, String>) -> Vec<u8> {
    [NARROW, WIDE].iter().find_map(|form| table_in(form, definitions)).unwrap_or_else(|| CUT_OFF.to_vec())
}

/// The table in one form, in the map's order, which does not matter; None where a header has no room for a definition.
fn table_in(form: &Form, definitions: &HashMap<String, String>) -> Option<Vec<u8>> {
    let mut table = form.begin.to_vec();
    for (name, latex) in definitions {
        if !form.name_bytes.contains(&name.len()) || latex.len() > form.latex_bytes {
            return None;
        }
        let header = (name.len() * (form.latex_bytes + 1) + latex.len()).to_be_bytes();
        table.extend(&header[header.len() - form.header_bytes..]);
        table.extend(name.as_bytes());
        table.extend(latex.as_bytes());
    }
    Some(table)
}

#[cfg(test)]
mod tests;
