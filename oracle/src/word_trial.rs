//! The library's word under the pointer (request A14) against the judge's, call by call: the number, and the part by its side, its
//! place and its length. The library's function and the wrapper's are both called, and neither may change what it is lent, so
//! the part's bytes are the judge's too.

use super::cases::hex;
use super::judge::FORMULA_BYTES;
use super::rng::Rng;
use super::table::{Form, TABLE_BYTES};
use super::word::{run_around, word_at, Word};
use super::word_cases::{self, FORMS};
use super::word_file::Inputs;
use super::{pieces, tables, traps, workers};
use std::collections::BTreeMap;
use std::panic::catch_unwind;

/// Bytes before and behind what the library's function is lent. They are letters: with them a word would go on.
const MARGIN: [u8; 16] = [b'a'; 16];

struct Call {
    inputs: Inputs,
    place: usize,
}

fn call(rng: &mut Rng) -> Call {
    let inputs = inputs(rng);
    let place = place(rng, &inputs.formula);
    Call { inputs, place }
}

fn inputs(rng: &mut Rng) -> Inputs {
    match rng.below(100) {
        0..=7 => using_names(rng, tables::long),
        8..=9 => using_names(rng, greatest),
        10..=12 => long(rng),
        13..=19 => {
            let depth = rng.between(1, 4);
            Inputs { formula: pieces::expression(rng, depth).into_bytes(), table: word_cases::table(rng) }
        }
        20..=25 => {
            let line = rng.pick(&traps::lines());
            Inputs { formula: line.formula.clone().into_bytes(), table: line.table.clone() }
        }
        _ => word_cases::generated(rng),
    }
}

fn using_names(rng: &mut Rng, table: fn(&mut Rng) -> Vec<u8>) -> Inputs {
    let table = table(rng);
    Inputs { formula: word_cases::formula(rng, &tables::names(&table)).into_bytes(), table }
}

/// A table about the greatest.
fn greatest(rng: &mut Rng) -> Vec<u8> {
    let bytes = rng.between(TABLE_BYTES - 1, TABLE_BYTES + 1);
    tables::full(bytes, rng.pick(&FORMS))
}

/// A formula about the longest: many words, or a single one.
fn long(rng: &mut Rng) -> Inputs {
    let bytes = rng.between(FORMULA_BYTES - 2, FORMULA_BYTES + 2);
    let table = word_cases::table(rng);
    let names = tables::names(&table);
    let between = rng.pick(&[" ", "a"]);
    let mut formula = Vec::new();
    while formula.len() < bytes {
        let more = if between == "a" { "gain".to_string() } else { word_cases::formula(rng, &names) };
        formula.extend([more.as_bytes(), between.as_bytes()].concat());
    }
    formula.truncate(bytes);
    Inputs { formula, table }
}

/// Mostly a place in a word; else any place of the formula, its end, one past it, or far past it.
fn place(rng: &mut Rng, formula: &[u8]) -> usize {
    let length = formula.len();
    let in_words: Vec<usize> = (0..length).filter(|at| formula[*at].is_ascii_alphanumeric()).collect();
    match rng.below(16) {
        0 => length,
        1 => length + 1,
        2 => rng.pick(&[length + 2, 4_096, 4_097, 32_768, 65_535, 65_536, 1 << 31, 1 << 32, usize::MAX / 2, usize::MAX - 1]),
        3 => usize::MAX,
        4..=12 if !in_words.is_empty() => rng.pick(&in_words),
        _ => rng.below(length.max(1)),
    }
}

/// What the library's function answers, or in words what it did wrong whatever the answer should be.
fn library(Call { inputs: Inputs { formula, table }, place }: &Call, judge: &Word) -> Result<Word, String> {
    let lent = |part: &[u8]| [&MARGIN, part, &MARGIN].concat();
    let (lent_formula, lent_table) = (lent(formula), lent(table));
    let (formula_part, table_part) = (&lent_formula[MARGIN.len()..][..formula.len()], &lent_table[MARGIN.len()..][..table.len()]);
    // They begin with what is wrong, so that it shows where nothing is written.
    let (mut defined, mut start, mut length) = (u8::from(!judge.in_table), usize::MAX, usize::MAX);
    let number = unsafe {
        jistranu::raw::jistranu_word_at(
            formula_part.as_ptr(),
            formula_part.len(),
            table_part.as_ptr(),
            table_part.len(),
            *place,
            (&raw mut defined).cast(),
            &mut start,
            &mut length,
        )
    };
    if lent_formula != lent(formula) || lent_table != lent(table) {
        return Err("the formula or the table is written to".to_string());
    }
    match (u8::try_from(number), defined) {
        (Ok(number), 0 | 1) => Ok(Word { number, in_table: defined == 1, start, length }),
        _ => Err(format!("number {number}, defined {defined}")),
    }
}

/// The same for the wrapper. Its part must lie in memory where the answer says.
fn wrapper(Call { inputs: Inputs { formula, table }, place }: &Call) -> Result<Word, String> {
    let lent = Inputs { formula: formula.clone(), table: table.clone() };
    let answer = match catch_unwind(|| jistranu::word_at(&lent.formula, &lent.table, *place)) {
        Err(_) => return Err("it panics".to_string()),
        Ok(Err(refusal)) => Word::refused(refusal.number()),
        Ok(Ok(word)) => {
            let whole = if word.defined { &lent.table } else { &lent.formula };
            let start = (word.text.as_ptr() as usize).wrapping_sub(whole.as_ptr() as usize);
            let end = start.wrapping_add(word.text.len());
            if start > end || end > whole.len() {
                return Err(format!("a part of {} bytes outside of what is lent", word.text.len()));
            }
            Word { number: 0, in_table: word.defined, start, length: word.text.len() }
        }
    };
    if lent.formula != *formula || lent.table != *table {
        return Err("the formula or the table is written to".to_string());
    }
    Ok(answer)
}

/// What a call has met, each counted by itself.
fn met(Call { inputs: Inputs { formula, table }, place }: &Call, judge: &Word) -> Vec<&'static str> {
    let mut met = vec![match Form::of(table) {
        Form::Narrow => "a narrow table",
        Form::Wide => "a wide table",
    }];
    match judge.number {
        0 if judge.in_table => met.push(if judge.length == 0 { "LaTeX of no bytes" } else { "LaTeX of some bytes" }),
        0 => met.extend(nearly_names(formula, table, *place)),
        16 if *place < formula.len() => met.push("no word: on another character"),
        16 if *place == formula.len() => met.push("no word: at the end"),
        16 => met.push("no word: past the end"),
        _ => {}
    }
    if *place == usize::MAX {
        met.push("the greatest place");
    }
    met
}

/// How a word that stands for nothing is like the names of the table.
fn nearly_names(formula: &[u8], table: &[u8], place: usize) -> Vec<&'static str> {
    let run = run_around(formula, place).expect("a word");
    let word = std::str::from_utf8(&formula[run]).expect("letters and digits");
    let names = tables::names(table);
    let like: [(&str, fn(&str, &str) -> bool); 6] = [
        ("a name of one byte", |word, name| word == name),
        ("a word that begins with a name", |word, name| word != name && word.starts_with(name)),
        ("a word that ends with a name", |word, name| word != name && word.ends_with(name)),
        ("a word that begins a name", |word, name| word != name && name.starts_with(word)),
        ("a word that ends a name", |word, name| word != name && name.ends_with(word)),
        ("a name but for its case", |word, name| word != name && word.eq_ignore_ascii_case(name)),
    ];
    like.iter().filter(|(_, like)| names.iter().any(|name| like(word, name))).map(|(what, _)| *what).collect()
}

struct Difference {
    index: u64,
    call: Call,
    judge: Word,
    library: Result<Word, String>,
    wrapper: Result<Word, String>,
}

#[derive(Default)]
struct Findings {
    in_formula: u64,
    in_table: u64,
    refused: BTreeMap<u8, u64>,
    met: BTreeMap<&'static str, u64>,
    differences: Vec<Difference>,
}

impl Findings {
    fn check(&mut self, index: u64, call: Call) {
        let judge = word_at(&call.inputs.formula, &call.inputs.table, call.place);
        match judge.number {
            0 if judge.in_table => self.in_table += 1,
            0 => self.in_formula += 1,
            number => *self.refused.entry(number).or_default() += 1,
        }
        for what in met(&call, &judge) {
            *self.met.entry(what).or_default() += 1;
        }
        let library = library(&call, &judge);
        // The wrapper takes a part of what it is lent, which a wrong place may not leave.
        let asked = library.as_ref() == Ok(&judge);
        let wrapper = if asked { wrapper(&call) } else { Err("not asked, since the library differs".to_string()) };
        if wrapper.as_ref() != Ok(&judge) {
            self.differences.push(Difference { index, call, judge, library, wrapper });
        }
    }

    fn join(&mut self, other: Findings) {
        self.in_formula += other.in_formula;
        self.in_table += other.in_table;
        other.refused.into_iter().for_each(|(number, calls)| *self.refused.entry(number).or_default() += calls);
        other.met.into_iter().for_each(|(what, calls)| *self.met.entry(what).or_default() += calls);
        self.differences.extend(other.differences);
    }
}

pub fn trial(seed: u64, n: u64) -> bool {
    let parts = workers::parts(|worker, workers| {
        let mut findings = Findings::default();
        for index in (worker as u64..n).step_by(workers) {
            findings.check(index, call(&mut Rng::new(seed, index)));
        }
        findings
    });
    let mut findings = Findings::default();
    for part in parts {
        findings.join(part);
    }
    print(seed, n, &findings);
    findings.differences.is_empty()
}

fn print(seed: u64, n: u64, findings: &Findings) {
    println!("{n} calls, seed {seed}: {} differences", findings.differences.len());
    let refused = [2, 1, 3, 16].map(|number| format!("{} refused {number}", findings.refused.get(&number).unwrap_or(&0)));
    println!("{} parts of the formula, {} of the table, {}\n", findings.in_formula, findings.in_table, refused.join(", "));
    println!("| met | calls |\n|---|---|");
    for (what, calls) in &findings.met {
        println!("| {what} | {calls} |");
    }
    let differences = &findings.differences;
    if let Some(first) = differences.iter().min_by_key(|d| d.index) {
        show("the first difference", first);
    }
    let bytes = |inputs: &Inputs| inputs.formula.len() + inputs.table.len();
    if let Some(shortest) = differences.iter().min_by_key(|d| (bytes(&d.call.inputs), d.index)) {
        show("the shortest difference", shortest);
    }
}

fn show(title: &str, Difference { index, call, judge, library, wrapper }: &Difference) {
    let Call { inputs: Inputs { formula, table }, place } = call;
    println!("\n{title}: call {index}, place {place}");
    println!("formula {:?}", String::from_utf8_lossy(formula));
    println!("formula in hexadecimal {}", hex(formula));
    println!("table   {}", hex(table));
    println!("judge   {}", shown(judge));
    if judge.number == 0 {
        println!("        {:?}", String::from_utf8_lossy(judge.text(formula, table)));
    }
    println!("library {}", library.as_ref().map_or_else(Clone::clone, shown));
    println!("wrapper {}", wrapper.as_ref().map_or_else(Clone::clone, shown));
}

/// In full, since what comes with a refusal is compared too.
fn shown(Word { number, in_table, start, length }: &Word) -> String {
    let side = if *in_table { "table" } else { "formula" };
    format!("number {number}, {length} bytes of the {side} from {start} on")
}
