//! Tables with long names and long LaTeX, around the limits of the wide form, and narrow ones that have 00 in a header.

use super::judge::{roomy, Case, FORMULA_BYTES, STAGE_SYMBOLS};
use super::table::{Form, TABLE_BYTES};
use super::{lengths, tables};

/// The table of these names with their LaTeX.
pub fn table_in(form: Form, definitions: &[(&str, &str)]) -> Vec<u8> {
    let records = definitions.iter().flat_map(|(name, latex)| form.record_bytes(name.as_bytes(), latex.as_bytes()));
    form.beginning().iter().copied().chain(records).collect()
}

fn wide(formula: &str, definitions: &[(&str, &str)]) -> Case {
    roomy(formula, &table_in(Form::Wide, definitions), true)
}

/// LaTeX of this length that no stage changes and that is nowhere the same, so that a byte at a wrong place shows.
fn counted(length: usize) -> String {
    let mut text: String = (0..length).map(|number| format!("{number}+")).collect();
    text.truncate(length);
    text
}

/// Long tables are few: they make the file of recorded cases long.
pub fn cases() -> Vec<Case> {
    [long_names(), lengths_in_headers(), matrix(), longest_latex(), of_blocks(), greatest()].concat()
}

pub fn long_names() -> Vec<Case> {
    let name = |length: usize| "n".repeat(length);
    let mut cases = Vec::new();
    for length in [63, 64, 127] {
        // The name itself, with a byte more before it and behind it.
        let (own, latex) = (name(length), "\\mathrm{G}");
        cases.push(wide(&format!("{own}/2 n{own} {own}1"), &[(&own, latex)]));
        cases.push(wide(&format!("{own}/2"), &[(&own, "")]));
    }
    // A length of 128 is cut to 0, and the name is empty.
    cases.push(wide("n", &[(&name(128), "x")]));
    let all = [name(2), name(63), name(64), name(126), name(127)];
    let definitions = [(&*all[2], "C"), (&*all[0], "A"), (&*all[4], "E"), (&*all[1], "B"), (&*all[3], "D")];
    cases.push(wide(&all.join("/"), &definitions));
    // Names of one length that differ in their last byte: each stands for the next.
    for length in [64, 127] {
        let [first, second, third] = ["1", "B", "a"].map(|last| name(length - 1) + last);
        let definitions = [(&*third, &*first), (&*first, &*second), (&*second, &*third)];
        cases.push(wide(&format!("{first}/{second} + {third}"), &definitions));
    }
    cases
}

/// Lengths of LaTeX around those for which a byte of the header is 00, each with another record behind it.
pub fn lengths_in_headers() -> Vec<Case> {
    let mut cases = Vec::new();
    for form in [Form::Narrow, Form::Wide] {
        for length in [255, 256, 257, 768] {
            let definitions = [("gain", &*counted(length)), ("ab", "x")];
            cases.push(roomy("ab/gain", &table_in(form, &definitions), true));
        }
    }
    for length in [1_023, 1_024] {
        cases.push(wide("ab/gain", &[("gain", &*counted(length)), ("ab", "x")]));
    }
    // The narrow form cuts 1,024 to 0: the LaTeX itself is then read as records.
    let definitions = [("gain", &*counted(1_024)), ("ab", "x")];
    cases.push(roomy("ab/gain", &table_in(Form::Narrow, &definitions), true));
    cases.push(wide("ab/2", &[("gain", &*counted(4_096)), ("ab", "x")]));
    cases
}

/// A matrix as a shop may define it, of more than 1,023 bytes.
fn matrix() -> Vec<Case> {
    let row = |row: usize| [0, 1, 2, 3, 4, 5, 6, 7, 8, 9].map(|column| format!("s_({row} {column})")).join(" & ");
    let rows: Vec<String> = (0..10).map(row).collect();
    let latex = format!("\\begin{{pmatrix}} {} \\text{{port}} \\end{{pmatrix}}", rows.join(" \\\\ "));
    let case = wide("S = scatter/2", &[("scatter", &*latex), ("port", "P")]);
    vec![Case { display: false, ..case.clone() }, case]
}

/// The longest LaTeX: alone, with one symbol more and with two. Then 8,190 bytes that a later definition makes short again, and such
/// LaTeX as often as a formula can use it, where number 5 comes first: a text of eleven million symbols.
fn longest_latex() -> Vec<Case> {
    let (_, longest) = Form::Wide.longest();
    let definitions = [("gain", &*counted(longest))];
    let mut cases = vec![wide("gain", &definitions), wide("gain+", &definitions), wide("gain++", &definitions)];
    cases[0].output = longest;
    let latex = "x1 ".repeat(longest / 3);
    cases.push(wide("ab++", &[("x1", ""), ("ab", &*latex)]));
    let often = "ab+".repeat(FORMULA_BYTES / 3) + "+";
    cases.push(wide(&often, &[("x1", ""), ("ab", &*(latex + "+"))]));
    cases
}

/// LaTeX with hundreds of blocks, which words hold out. A `mu` behind them grows by a symbol.
fn of_blocks() -> Vec<Case> {
    let (_, longest) = Form::Wide.longest();
    let (piece, formula) = (lengths::BLOCKS[0].to_string() + "0", "\\text{gain}0 gain\\text{b}1");
    let room = STAGE_SYMBOLS - (formula.len() - "gain".len()) - "\\mu".len();
    let latex = piece.repeat(room / piece.len()) + &"+".repeat(room % piece.len()) + "mu";
    assert!(latex.len() <= longest);
    vec![wide(formula, &[("gain", &*latex)]), wide(&(formula.to_string() + "+"), &[("gain", &*latex)])]
}

/// The greatest table, whose last record is used, and one byte more.
pub fn greatest() -> Vec<Case> {
    let last = Form::Wide.record_bytes(b"gain", b"\\mathrm{G}");
    [TABLE_BYTES, TABLE_BYTES + 1]
        .map(|bytes| roomy("gain/2", &[tables::full(bytes - last.len(), Form::Wide), last.clone()].concat(), true))
        .to_vec()
}
