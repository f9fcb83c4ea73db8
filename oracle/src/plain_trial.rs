//! The library's plain check against the parser of `grammar.rs`, on plain and nearly plain texts; and what plain formulas
//! print under a tall field: the LaTeX of the parser's tree, and no two alike.

use super::grammar::{self, Sum};
use super::judge::{FORMULA_BYTES, STAGE_SYMBOLS, WORK_BYTES};
use super::rng::Rng;
use super::sizing::{tall_commands, ALL_TALL};
use super::word_tables::GREEK_LETTERS;
use super::{pieces, plain, workers};
use jistranu::Tall;
use std::collections::HashMap;
use std::sync::Mutex;

/// The most fractions within each other that the rounds settle.
const NESTED: usize = 64;

/// What a nearly plain text is made of.
const PARTS: [&str; 28] = [
    "a", "b", "1", "23", " ", " ", " + ", " - ", "+", "-", "(", ")", "(", ")", "/", "/", "_", "^", "_(", "^(", "pi", "eta", "x",
    "alpha", "(a/", ")/", "/(", "/b",
];

fn text(rng: &mut Rng) -> String {
    let depth = rng.between(1, 5);
    match rng.below(200) {
        0..=89 => plain::plain(rng, depth),
        90..=149 => {
            let text = plain::plain(rng, depth);
            damaged(rng, text)
        }
        150..=159 => {
            let text = plain::plain(rng, depth);
            pieces::mutate(rng, &text)
        }
        160..=197 => (0..rng.between(0, 9)).map(|_| rng.pick(&PARTS)).collect(),
        198 => nested(rng),
        _ => long(rng),
    }
}

/// One to three places changed: a part put in, a byte taken out, doubled or exchanged.
fn damaged(rng: &mut Rng, mut text: String) -> String {
    for _ in 0..rng.between(1, 3) {
        let at = rng.below(text.len() + 1);
        let end = text.len().min(at + 1);
        match rng.below(5) {
            0 | 1 => text.insert_str(at, rng.pick(&PARTS)),
            2 => text.replace_range(at..end, ""),
            3 => text.insert_str(at, &text[at..end].to_string()),
            _ => text.replace_range(at..end, rng.pick(&PARTS)),
        }
    }
    text
}

/// Fractions, parentheses or both within each other, around the limit of rounds and far above it.
pub fn nested(rng: &mut Rng) -> String {
    let ways = [
        ("a/(b + ", ")"), ("a/((", "))"), ("(", ")"), ("a/(b (1 - ", "))"), ("(x_1 + ", ")"), ("(", ")/b"), ("(x - ", ")/2"),
        ("((", " + 1) c)/b"), ("(1/b ", ")/(c/d)"), ("(a/(", "))/b"),
    ];
    // In one way, or in one that is drawn for each level.
    let (one_way, mixed) = (rng.pick(&ways), rng.once_in(3));
    let mut text = format!("a/{}", rng.pick(&GREEK_LETTERS).0);
    for _ in 0..rng.pick(&[1, 10, 31, 32, 33, 62, 63, 64, 65, 66, 100, 300]) {
        let (head, tail) = if mixed { rng.pick(&ways) } else { one_way };
        text = format!("{head}{text}{tail}");
    }
    text
}

/// A sum of 4,090 to 4,100 bytes, mostly.
pub fn long(rng: &mut Rng) -> String {
    let bytes = rng.between(FORMULA_BYTES - 6, FORMULA_BYTES + 4);
    let mut text = plain::plain(rng, 2);
    while text.len() + 4 <= bytes {
        let depth = rng.between(1, 3);
        let more = plain::plain(rng, depth);
        let left = bytes - text.len() - 3;
        text.push_str(" + ");
        text.push_str(if more.len() + 13 <= left { &more } else { &"123456789"[..left.min(9)] });
    }
    text
}

#[derive(Default)]
struct Findings {
    plain: u64,
    refused: u64,
    atoms: u64,
    differences: Vec<(u64, String)>,
}

/// Outputs met so far, with whether `\frac` was tall, and the formula of each.
type Printed = Mutex<HashMap<(bool, Vec<u8>), String>>;

impl Findings {
    /// A plain text is printed under the field and under its complement: so once with `\frac` tall and once without.
    fn check(&mut self, index: u64, formula: String, field: u32, printed: &Printed) {
        let mut differences = Vec::new();
        match same_tree(&formula) {
            Err(what) => differences.push(what),
            Ok(None) => {}
            Ok(Some(tree)) => {
                self.plain += 1;
                self.atoms += tree.atoms() as u64;
                // Two tables have no records, and they take turns.
                let table: &[u8] = if self.plain % 2 == 0 { b"" } else { b"\0" };
                for field in [field, ALL_TALL - field] {
                    match print(&tree, &formula, table, field, printed) {
                        Err(what) => differences.push(format!("{what}\nfield   {field}")),
                        Ok(accepted) => self.refused += u64::from(!accepted),
                    }
                }
            }
        }
        self.differences.extend(differences.into_iter().map(|what| (index, format!("{what}\nformula {formula:?}"))));
    }
}

/// The tree of a text, if it is plain. The check must agree with the parser.
fn same_tree(formula: &str) -> Result<Option<Sum>, String> {
    let tree = grammar::parse(formula);
    let atoms = tree.as_ref().map(Sum::atoms);
    let checked = jistranu::plain_check(formula.as_bytes());
    if checked == atoms { Ok(tree) } else { Err(format!("parser {atoms:?}, plain check {checked:?}")) }
}

/// Whether a plain formula is accepted. It must print its tree's LaTeX, as no other does.
fn print(tree: &Sum, formula: &str, table: &[u8], field: u32, printed: &Printed) -> Result<bool, String> {
    let (mut work, mut output) = (vec![0; WORK_BYTES], vec![0; STAGE_SYMBOLS]);
    let frac_counts = tall_commands(field).contains(&"\\frac");
    let latex = tree.latex(frac_counts);
    let accepted = tree.nested_fractions() <= NESTED && latex.len() <= STAGE_SYMBOLS;
    let tall = Tall::try_from(field as u8).expect("a field of at most 31");
    match jistranu::convert(formula.as_bytes(), table, true, tall, &mut work, &mut output) {
        Ok(answer) if !accepted || answer != latex.as_bytes() => {
            Err(format!("tree    {latex:?}\nlibrary {:?}", String::from_utf8_lossy(answer)))
        }
        Ok(answer) => match printed.lock().unwrap().insert((frac_counts, answer.to_vec()), formula.to_string()) {
            Some(other) if other != formula => Err(format!("prints as another formula does\nother   {other:?}")),
            _ => Ok(true),
        },
        Err(refusal) if accepted => Err(format!("tree    {latex:?}\nlibrary {refusal:?}")),
        Err(_) => Ok(false),
    }
}

pub fn trial(seed: u64, n: u64) -> bool {
    let printed = Printed::default();
    let parts = workers::parts(|worker, workers| {
        let mut findings = Findings::default();
        for index in (worker as u64..n).step_by(workers) {
            let mut rng = Rng::new(seed, index);
            let formula = text(&mut rng);
            findings.check(index, formula, rng.below(32) as u32, &printed);
        }
        findings
    });
    let mut differences: Vec<(u64, String)> = Vec::new();
    let (mut plain, mut refused, mut atoms) = (0, 0, 0);
    for part in parts {
        plain += part.plain;
        refused += part.refused;
        atoms += part.atoms;
        differences.extend(part.differences);
    }
    println!("{n} texts, seed {seed}: {} differences", differences.len());
    println!("{plain} plain with {atoms} atoms, {} not plain", n - plain);
    println!("{refused} times a plain one refused, each with more than {NESTED} fractions within each other or too long an answer");
    let outputs = |frac_counts: bool| printed.lock().unwrap().keys().filter(|key| key.0 == frac_counts).count();
    println!("{} different outputs with \\frac tall and {} without, each of one formula", outputs(true), outputs(false));
    if let Some((index, what)) = differences.iter().min() {
        println!("\nthe first difference: text {index}\n{what}");
    }
    if let Some((index, what)) = differences.iter().min_by_key(|(index, what)| (what.len(), *index)) {
        println!("\nthe shortest difference: text {index}\n{what}");
    }
    differences.is_empty()
}
