//! Cases of request A14, the word under the pointer: those of the program `word_places`, first written by hand and then generated.
//! They stay short, since every place is asked and has a line of its own: a formula of 4,096 bytes has short words.

use super::judge::{Case, FORMULA_BYTES};
use super::long_tables::{self, table_in};
use super::rng::Rng;
use super::table::{is_own_byte, record_bytes, Form, TABLE_BYTES, TABLE_RECORDS};
use super::tables;
use super::word_file::Inputs;

/// How many cases of the file are generated.
const GENERATED: u64 = 120;

pub const FORMS: [Form; 2] = [Form::Narrow, Form::Wide];

/// A defined name, a name of one byte, and one that stands for nothing.
const DEFINED: [(&str, &str); 3] = [("gain", "\\mathrm{G}"), ("g", "X"), ("zz", "")];

/// A fault of number 3 whose names have one byte.
const REPEATED: [(&str, &str); 2] = [("g", "X"), ("g", "Y")];

/// Bytes that no formula has.
const FOREIGN: [u8; 9] = [0x00, 0x08, 0x0B, 0x0D, 0x1F, 0x7F, 0x80, 0xE9, 0xFF];

const EXAMPLES: [&str; 40] = [
    "gain/2", "x_gain", "2gain", "again", "Gain", "GAIN", "g", "a zz", "gain2", "\"gain zz\"", "\\gain", "\\\\gain", "", "gain",
    "zz", "zz + gain", "gain zz", "gai", "ain", "gaingain", "gain_gain", "zzz", "z", "zz2", "g/gain", "g2 + gg", "\\text{gain}",
    "op(\"gain)\")", "(gain)", "2", "23 + 4", "/", " ", "\n", "  gain  ", "sqrt(gain)/(zz g)", "zzgain", "x^gain", "gain\tzz\ngain",
    "gain2gain zz",
];

fn case(formula: &str, table: Vec<u8>) -> Inputs {
    Inputs { formula: formula.as_bytes().to_vec(), table }
}

/// The same definitions in both forms.
fn in_both_forms(formula: &str, definitions: &[(&str, &str)]) -> [Inputs; 2] {
    FORMS.map(|form| case(formula, table_in(form, definitions)))
}

pub fn cases(seed: u64) -> Vec<Inputs> {
    let mut cases = [
        EXAMPLES.iter().flat_map(|formula| in_both_forms(formula, &DEFINED)).collect(),
        neighbours(),
        parts_of_names(),
        short_and_long_names(),
        many_records(),
        latex_that_misleads(),
        no_records(),
        letters_around(),
        refusals(),
        long_formulas(),
        of_long_tables(),
        faults(seed),
    ]
    .concat();
    cases.extend((0..GENERATED).map(|index| generated(&mut Rng::new(seed, index))));
    cases
}

/// Names next to each character that ends a word. The forms take turns.
fn neighbours() -> Vec<Inputs> {
    let others = (0..=u8::MAX).filter(|b| is_own_byte(*b) && !b.is_ascii_alphanumeric()).map(char::from);
    let formula = |other: char| format!("{other}gain{other}zz{other}g{other}");
    others.zip(FORMS.into_iter().cycle()).map(|(other, form)| case(&formula(other), table_in(form, &DEFINED))).collect()
}

/// Names that are the beginning or the end of others, in several orders: the word is one of them exactly, or none.
fn parts_of_names() -> Vec<Inputs> {
    let definitions = [("ab", "A"), ("abc", "B"), ("abcd", "C"), ("bcd", "D")];
    let orders = [[0, 1, 2, 3], [3, 2, 1, 0], [2, 0, 3, 1], [1, 3, 0, 2]];
    let formula = "a ab abc abcd abcde bcd cd xabc 1ab ab1 abcd/abc Ab aB";
    orders.iter().flat_map(|order| in_both_forms(formula, &order.map(|i| definitions[i]))).collect()
}

fn short_and_long_names() -> Vec<Inputs> {
    let mut cases = Vec::new();
    for length in [1, 2, 3] {
        let name = "n".repeat(length);
        cases.extend(in_both_forms("n nn nnn nnnn 1n n1", &[(&name, "N"), ("m", "M")]));
    }
    let longest = "n".repeat(63);
    cases.extend(in_both_forms(&format!("{longest}/{}", &longest[1..]), &[(&longest, "N"), ("nn", "M")]));
    cases
}

/// As many records as a table may have, and one more: the first, one in the middle, the last.
fn many_records() -> Vec<Inputs> {
    let rows = |count: usize| (1..=count).map(|i| (format!("n{i}"), format!("N_{i}"))).collect::<Vec<_>>();
    let mut cases = Vec::new();
    for count in [TABLE_RECORDS - 1, TABLE_RECORDS, TABLE_RECORDS + 1] {
        let rows = rows(count);
        let mut definitions: Vec<_> = rows.iter().map(|(name, latex)| (&**name, &**latex)).collect();
        cases.extend(in_both_forms("n1/n32 + n63/n64 + n65 n6 n", &definitions));
        definitions.reverse();
        cases.extend(in_both_forms("n1/n32 + n63/n64", &definitions));
    }
    cases
}

/// LaTeX that holds other names, that looks like a record with its header, or like a line of what is written.
fn latex_that_misleads() -> Vec<Inputs> {
    let narrow = format!("  sideways{}", "y".repeat(32));
    let wide = format!("\t  {}{}", "n".repeat(73), "y".repeat(32));
    let formula = format!("ab sideways cd {}", "n".repeat(73));
    [
        in_both_forms("ab/gain + zz", &[("ab", "gain"), ("gain", "ab zz"), ("zz", "gain gain")]),
        in_both_forms(&formula, &[("ab", &narrow), ("cd", "x")]),
        in_both_forms(&formula, &[("ab", &wide), ("cd", "x")]),
        in_both_forms("ab cd", &[("ab", "x\n0 ok y\n1 refused 16"), ("cd", "\n")]),
        in_both_forms("ab cd ef", &[("ab", " "), ("cd", "\t~"), ("ef", "ef")]),
    ]
    .concat()
}

fn no_records() -> Vec<Inputs> {
    let formulas = ["", "gain", "x_gain/2", "/", "a"];
    formulas.iter().flat_map(|formula| in_both_forms(formula, &[])).collect()
}

/// In the file a formula lies between the last byte of the table's length and the table. Here both are letters or digits: a word
/// that is read past the formula's beginning or end goes on with them.
fn letters_around() -> Vec<Inputs> {
    let (name, latex) = ("n".repeat(12), "y".repeat(49));
    let table = table_in(Form::Narrow, &[(&name, &latex), ("ab", &latex[..30])]);
    assert!(table.len() == usize::from(b'a') && table.starts_with(b"01"));
    ["a", "ab", "ab cd", &name].map(|formula| case(formula, table.clone())).to_vec()
}

/// Each number, and which of two comes first: 1 before 3, both before 16. For 2 see the long formulas.
fn refusals() -> Vec<Inputs> {
    let mut cases = Vec::new();
    for formula in ["gain/2", "g", "", "/"] {
        cases.extend(in_both_forms(formula, &REPEATED));
    }
    for (byte, form) in FOREIGN.into_iter().zip(FORMS.into_iter().cycle()) {
        let formulas: [&[u8]; 3] = [&[b'g', byte, b'n'], &[byte, b'/'], &[b'/', b'g', byte]];
        for formula in formulas {
            cases.push(Inputs { formula: formula.to_vec(), table: table_in(form, &DEFINED) });
        }
        cases.push(Inputs { formula: formulas[0].to_vec(), table: table_in(form, &REPEATED) });
    }
    cases
}

/// The longest formula, and one byte more: by itself, and with a foreign byte and a faulty table.
fn long_formulas() -> Vec<Inputs> {
    let formula = |bytes: usize| "gain zz 2/g ".chars().cycle().take(bytes).collect::<String>();
    let mut foreign = case(&formula(FORMULA_BYTES + 1), table_in(Form::Wide, &REPEATED));
    foreign.formula[0] = FOREIGN[0];
    vec![
        case(&formula(FORMULA_BYTES), table_in(Form::Narrow, &DEFINED)),
        case(&formula(FORMULA_BYTES + 1), table_in(Form::Narrow, &DEFINED)),
        foreign,
    ]
}

/// Long names and long LaTeX, around the limits of the wide form, and the greatest tables of both forms with a byte more.
fn of_long_tables() -> Vec<Inputs> {
    let cases = [long_tables::long_names(), long_tables::lengths_in_headers(), long_tables::greatest()].concat();
    let mut cases: Vec<_> = cases.into_iter().map(|Case { formula, table, .. }| Inputs { formula, table }).collect();
    cases.extend([TABLE_BYTES, TABLE_BYTES + 1].map(|bytes| case("maa/zz", tables::full(bytes, Form::Narrow))));
    cases
}

/// Every fault of `tables.rs`, and tables just short of one. The greatest tables are among the long ones.
fn faults(seed: u64) -> Vec<Inputs> {
    let mut cases = Vec::new();
    for form in FORMS {
        for fault in (0..tables::faults(form)).filter(|fault| !of_greatest_size(*fault)) {
            let table = tables::faulty(&mut Rng::new(seed, GENERATED + fault as u64), fault, form);
            let names = tables::names(&table);
            let formula = match &names[..] {
                [first, .., last] => format!("{first}/{last}"),
                [only] => format!("{only}/2"),
                [] => "gain/2".to_string(),
            };
            cases.push(case(&formula, table));
        }
    }
    cases
}

/// The numbers of `tables::faulty` that make a table of the greatest size, or just above it.
fn of_greatest_size(fault: usize) -> bool {
    matches!(fault, 10 | 13)
}

/// Short words, many of them names of the table, which has either form and is at times faulty.
pub fn generated(rng: &mut Rng) -> Inputs {
    let table = table(rng);
    let mut formula = formula(rng, &tables::names(&table)).into_bytes();
    if rng.once_in(15) {
        let at = rng.below(formula.len() + 1);
        formula.insert(at, rng.pick(&FOREIGN));
    }
    Inputs { formula, table }
}

/// A table of either form, at times faulty, and none of the greatest.
pub fn table(rng: &mut Rng) -> Vec<u8> {
    let form = rng.pick(&FORMS);
    if rng.once_in(8) {
        let fault = rng.below(tables::faults(form));
        return tables::faulty(rng, if of_greatest_size(fault) { 1 } else { fault }, form);
    }
    let narrow = match rng.below(4) {
        0 => tables::good(rng),
        1 => tables::of_one_length(rng),
        _ => of_parts(rng),
    };
    let mut table = match form {
        Form::Narrow => narrow,
        Form::Wide => tables::widened(&narrow),
    };
    if rng.once_in(30) {
        table.extend(repeated(rng, &tables::names(&table), form));
    }
    table
}

/// One more record for one of the names, which may have one byte: a fault of number 3.
fn repeated(rng: &mut Rng, names: &[String], form: Form) -> Vec<u8> {
    match names {
        [] => Vec::new(),
        _ => form.record_bytes(names[rng.below(names.len())].as_bytes(), b"x"),
    }
}

/// A good table whose names are parts of one word: beginnings and ends of each other, some of one byte. LaTeX is often empty.
fn of_parts(rng: &mut Rng) -> Vec<u8> {
    let whole = rng.pick(&["abcdef", "gain2x", "aaaaaa", "x1x1x1", "Gaingain"]);
    let mut names: Vec<&str> = Vec::new();
    for _ in 0..rng.between(1, 6) {
        let start = rng.below(whole.len());
        let name = &whole[start..rng.between(start + 1, whole.len())];
        if name.as_bytes()[0].is_ascii_alphabetic() && !names.contains(&name) {
            names.push(name);
        }
    }
    let latex = ["", "", "X", "\\mathrm{G}", "x_1 + 2", whole, &whole[..2], "\\text{a b}", "\n"];
    names.iter().flat_map(|name| record_bytes(name.as_bytes(), rng.pick(&latex).as_bytes())).collect()
}

/// One to six words with other characters between them, or none.
pub fn formula(rng: &mut Rng, names: &[String]) -> String {
    let others = [
        "", " ", " ", " + ", "/", "_", "^", "(", ")", "\\", "\"", ".", "-", "\t", "\n", "~", "@", "[", "`", "{", ":", "  ",
    ];
    let mut text = rng.pick(&others).to_string();
    for _ in 0..rng.between(0, 6) {
        text.push_str(&word(rng, names));
        text.push_str(rng.pick(&others));
    }
    text
}

/// A name as it is, with a byte more or less on one side, or with another case; at times a word that is no name of this table.
fn word(rng: &mut Rng, names: &[String]) -> String {
    let name = if names.is_empty() || rng.once_in(5) {
        rng.pick(&["gain", "a", "x1", "2", "b23", "zz"]).to_string()
    } else {
        names[rng.below(names.len())].clone()
    };
    let more = rng.pick(&["a", "z", "A", "Z", "0", "9", "g"]);
    match rng.below(12) {
        0 => name + more,
        1 => more.to_string() + &name,
        2 => name[..name.len() - 1].to_string(),
        3 => name[1..].to_string(),
        4 => name.to_uppercase(),
        _ => name,
    }
}
