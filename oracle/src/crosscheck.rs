//! The cross-check: the judge's answers against what the unchanged functions of `math_conv.rs` really do.

use super::definitions::{one_order, DEFINITIONS_MARK};
use super::fractions::ROUNDS;
use super::judge::{self, refused_before_stages, typst_to_latex, Case, LostBlock, Stages, Trouble};
use super::sizing::{size_delimiters_to_content, tall_commands};
use super::table::{self, Form};
use super::words::WORDS_MARK;
use super::{chains, grammar, passing, tall};
use std::collections::{BTreeMap, HashMap};
use std::panic::{catch_unwind, AssertUnwindSafe};

/// What was found: a count for each check, and each disagreement in words.
#[derive(Default)]
pub struct Findings {
    pub counts: BTreeMap<String, usize>,
    /// The shortest formula met for each check that is an exception.
    pub shortest: BTreeMap<String, Vec<u8>>,
    pub disagreements: Vec<String>,
}

impl Findings {
    fn count(&mut self, check: &str) {
        self.add(check, 1);
    }

    fn add(&mut self, check: &str, times: usize) {
        *self.counts.entry(check.to_string()).or_insert(0) += times;
    }

    fn exception(&mut self, check: &str, case: &Case) {
        self.count(check);
        let shortest = self.shortest.entry(check.to_string()).or_insert_with(|| case.formula.clone());
        if case.formula.len() < shortest.len() {
            *shortest = case.formula.clone();
        }
    }

    fn disagree(&mut self, what: &str, case: &Case) {
        self.count(&format!("DISAGREE {what}"));
        self.disagreements.push(format!(
            "{what}: display {} field {} formula {:?} table {:?}",
            case.display,
            case.field,
            String::from_utf8_lossy(&case.formula),
            String::from_utf8_lossy(&case.table)
        ));
    }

    pub fn join(&mut self, other: Findings) {
        for (check, count) in other.counts {
            *self.counts.entry(check).or_insert(0) += count;
        }
        for (check, formula) in other.shortest {
            let shortest = self.shortest.entry(check).or_insert_with(|| formula.clone());
            if formula.len() < shortest.len() {
                *shortest = formula;
            }
        }
        self.disagreements.extend(other.disagreements);
    }
}

/// What a function of the Rust gives, or None where it panics.
pub fn unless_panic<T>(f: impl FnOnce() -> T) -> Option<T> {
    catch_unwind(AssertUnwindSafe(f)).ok()
}

/// The most symbols to which an overgrown text is followed.
pub const FOLLOWED: usize = 60_000;

/// What the Rust is asked with: its definitions, whether the unchanged Rust has one order of them only, and what the stages noted. The
/// test copy is always asked, the unchanged Rust where it has one order, loses no block, no search of a call passes over a parenthesis,
/// no round leaves a slash and no delimiters stay small that it sizes.
struct Asked<'a> {
    case: &'a Case,
    formula: &'a str,
    map: HashMap<String, String>,
    one_order: bool,
    stages: Stages,
}

impl Asked<'_> {
    /// What the test copy gives for the case, or None where it panics.
    fn copy(&self) -> Option<String> {
        let Asked { case, formula, map, .. } = self;
        unless_panic(|| tall::under(case.field, || crate::changed::typst_to_latex(formula, map, case.display)))
    }
}

pub fn check(case: &Case, findings: &mut Findings) {
    both_forms(case, findings);
    let records = match refused_before_stages(case) {
        Ok(records) => records,
        Err(number) => return findings.count(&format!("{number} before the stages")),
    };
    let formula = std::str::from_utf8(&case.formula).expect("only own bytes");
    let map = records.iter().map(|r| (r.name.clone(), r.latex.clone())).collect();
    let run = |limit: usize| {
        let mut stages = Stages::new(limit);
        let converted = typst_to_latex(formula, &records, case.display, case.field, &mut stages);
        (converted, stages)
    };
    let (mut converted, mut stages) = run(judge::STAGE_SYMBOLS);
    if stages.lost.is_some() && !stages.passed_over {
        findings.count("the base refuses 6");
    }
    if records.is_empty() && case.display {
        plain_formula(case, formula, converted.as_ref().ok(), findings);
    }
    let overgrown = matches!(&converted, Err(trouble) if trouble.number == 5);
    if overgrown {
        // The same stages with more room must still be the Rust's.
        findings.count("5 overgrown");
        (converted, stages) = run(FOLLOWED);
    }
    let asked = Asked { case, formula, map, one_order: one_order(&records), stages };
    findings.count(if asked.one_order { "one order only" } else { "several orders, asked of the test copy" });
    call_stages(&asked, findings);
    lost_block(&asked, findings);
    rounds(&asked, findings);
    sizing(&asked, findings);
    match converted {
        Ok(latex) if overgrown => same_text("overgrown, followed to its end", &asked, &latex, findings),
        Ok(latex) => {
            let short = latex.len() > case.output;
            findings.count(if short { "10 after a finished text" } else { "0 accepted" });
            let wide = Form::of(&case.table) == Form::Wide;
            same_text(if wide { "accepted with a wide table" } else { "accepted" }, &asked, &latex, findings);
        }
        Err(other) if other.number == 5 => findings.count("5: above 60,000 symbols, not followed"),
        Err(other) if overgrown => {
            findings.count(&format!("5: another number ({}) waits behind", other.number));
            check_trouble(&other, &asked, findings);
        }
        Err(trouble) => {
            findings.count(&format!("{} on the way", trouble.number));
            check_trouble(&trouble, &asked, findings);
        }
    }
}

/// A plain formula prints the LaTeX of its tree, unless more than 64 fractions stand one within another or it has more than 8,192 bytes.
fn plain_formula(case: &Case, formula: &str, latex: Option<&String>, findings: &mut Findings) {
    let Some(tree) = grammar::parse(formula) else { return };
    let written = tree.latex(tall_commands(case.field).contains(&"\\frac"));
    let accepted = tree.nested_fractions() <= ROUNDS && written.len() <= judge::STAGE_SYMBOLS;
    if latex != accepted.then_some(&written) {
        findings.disagree("plain: not as its tree", case);
    } else if accepted {
        findings.count("plain: the LaTeX of its tree");
    } else {
        findings.count("plain: refused, more than 64 fractions one within another or too long a writing");
    }
}

/// The two forms of a table (A6): its records written in the other form, where they fit it, are read back and have the same answer.
/// No table that begins with 00 is a good narrow one.
fn both_forms(case: &Case, findings: &mut Findings) {
    let form = Form::of(&case.table);
    if form == Form::Wide {
        match table::read_as(Form::Narrow, &case.table) {
            Some(_) => findings.disagree("two forms: a good narrow table begins with 00", case),
            None => findings.count("two forms: begins with 00, no good narrow table"),
        }
    }
    let Some(records) = table::read(&case.table) else {
        return;
    };
    let what = if form == Form::Wide { "a wide table" } else { "a narrow table" };
    let Some(table) = form.other().table_of(&records) else {
        return findings.count(&format!("two forms: {what} does not fit the other form"));
    };
    let other = Case { table, ..case.clone() };
    if table::read(&other.table).as_ref() != Some(&records) {
        findings.disagree(&format!("two forms: {what} has other records in the other form"), case);
    } else if judge::judge(&other) != judge::judge(case) {
        findings.disagree(&format!("two forms: {what} has another answer in the other form"), case);
    } else {
        findings.count(&format!("two forms: {what} has the same answer in the other form"));
    }
}

fn same_text(what: &str, asked: &Asked, latex: &str, findings: &mut Findings) {
    let Asked { case, formula, map, one_order, stages } = asked;
    let same = |rust: &Option<String>| rust.as_deref() == Some(latex);
    match asked.copy() {
        None => findings.disagree(&format!("{what}: the test copy panics"), case),
        copy if same(&copy) => findings.count(&format!("{what}: the test copy's bytes")),
        Some(_) => findings.disagree(&format!("{what}: other bytes than the test copy's"), case),
    }
    if *one_order && stages.as_the_base() {
        match unless_panic(|| crate::typst_to_latex(formula, map, case.display)) {
            None => findings.disagree(&format!("{what}: the Rust panics"), case),
            rust if same(&rust) => findings.count(&format!("{what}: the Rust's bytes")),
            Some(_) => findings.disagree(&format!("{what}: other bytes"), case),
        }
    }
}

fn check_trouble(trouble: &Trouble, asked: &Asked, findings: &mut Findings) {
    let case = asked.case;
    match trouble.number {
        7 => unsettled(trouble, case, findings),
        8 => {
            if unless_panic(|| crate::convert_lr(&trouble.text)).is_none() && asked.copy().is_none() {
                findings.count("8: convert_lr panics, and so does the whole");
            } else {
                findings.disagree("8: no panic", case);
            }
        }
        9 => barred_solidus(trouble, case, findings),
        number => findings.disagree(&format!("no such trouble {number}"), case),
    }
}

/// The call stages one by one: where nothing is passed over, the unchanged function gives the same text.
fn call_stages(asked: &Asked, findings: &mut Findings) {
    let found = passing::call_stages(asked.formula);
    if let Some(wrong) = found.disagreement {
        return findings.disagree(&format!("calls: {wrong}"), asked.case);
    }
    if asked.stages.passed_over != (found.passing > 0) {
        return findings.disagree("calls: passed over in one run only", asked.case);
    }
    findings.count(match (found.passing, found.other_text) {
        (0, _) => "calls: each stage gives the unchanged function's text",
        (_, 0) => "a search passes over a parenthesis: each stage gives the unchanged function's text all the same",
        _ => "a search passes over a parenthesis: a stage gives another text",
    });
}

/// The rounds one by one, from the text that entered them: where no slash is left, the unchanged round gives the same text.
fn rounds(asked: &Asked, findings: &mut Findings) {
    let Some(text) = &asked.stages.before_rounds else { return };
    let found = chains::rounds(text);
    if let Some(wrong) = found.disagreement {
        return findings.disagree(&format!("rounds: {wrong}"), asked.case);
    }
    findings.add("rounds in which no slash is left: the unchanged round's text", found.nothing_left);
    findings.add("rounds in which a slash is left: another text than the unchanged round's", found.other_text);
    findings.add("rounds in which a slash is left: the unchanged round's text all the same", found.same_text);
    if asked.stages.left {
        findings.count("a round leaves a slash");
    }
}

/// Sizing, from the text that entered it: where no delimiters stay small that the unchanged function sizes, and only there, it gives the
/// same text.
fn sizing(asked: &Asked, findings: &mut Findings) {
    let Some(text) = &asked.stages.before_sizing else { return };
    let (case, mut left_small) = (asked.case, false);
    let sized = size_delimiters_to_content(text, &tall_commands(case.field), &mut left_small);
    let unchanged = sized == crate::size_delimiters_to_content(text);
    if sized != tall::under(case.field, || crate::changed::size_delimiters_to_content(text)) {
        findings.disagree("sizing: another text than the test copy's", case);
    } else if unchanged == left_small {
        findings.disagree("sizing: the unchanged function's text and delimiters left small, or neither", case);
    } else if left_small {
        findings.count("sizing: delimiters stay small that the unchanged function sizes");
    } else {
        findings.count("sizing: the unchanged function's text");
    }
}

/// Where a block is lost, the unchanged function leaves the mark in its text.
fn lost_block(asked: &Asked, findings: &mut Findings) {
    let Asked { case, map, one_order, stages, .. } = asked;
    match &stages.lost {
        None => {}
        Some(lost) if lost.mark == WORDS_MARK => lost_in_words(lost, asked, findings),
        Some(_) if !one_order => findings.count("a lost block: several orders, not asked"),
        Some(lost) => {
            if crate::apply_definitions_outside_text(&lost.text, map).contains(DEFINITIONS_MARK) {
                findings.count("a lost block: definitions leave U+FFFE");
            } else {
                findings.disagree("a lost block: definitions leave no mark", case);
            }
        }
    }
}

/// Behind the put-back of words other stages follow. Of these `lr` can panic (it would be 8), and a round, since a mark has three
/// bytes; and where a round leaves a slash, the unchanged rounds may go on for ever. Then `lr(` is spelled otherwise and display is off,
/// which no stage up to the put-back notices.
fn lost_in_words(lost: &LostBlock, asked: &Asked, findings: &mut Findings) {
    let case = asked.case;
    if !asked.stages.left {
        match unless_panic(|| crate::convert_syntax(&lost.text, case.display)) {
            Some(text) if text.contains(WORDS_MARK) => return findings.count("a lost block: words leave U+FFFD"),
            Some(_) => findings.exception("a lost block: a later stage drops the mark", case),
            None => findings.exception("a lost block: a later stage panics", case),
        }
    }
    let without_lr = lost.text.replace("lr(", "zr(");
    match unless_panic(|| crate::convert_syntax(&without_lr, false)) {
        Some(text) if text.contains(WORDS_MARK) => {
            findings.count("a lost block: words leave U+FFFD without lr and fractions");
        }
        _ => findings.disagree("a lost block: words leave no mark", case),
    }
}

/// The test copy's round still changes the text (or panics) when 64 rounds have.
fn unsettled(trouble: &Trouble, case: &Case, findings: &mut Findings) {
    let mut text = trouble.text.clone();
    for round in 1..=200 {
        let Some(next) = unless_panic(|| crate::changed::convert_regular_fractions(&text)) else {
            if round <= 64 {
                findings.disagree("7: a panic before round 65", case);
            } else {
                findings.exception("7: a later round panics", case);
            }
            return;
        };
        if next == text {
            if round <= 65 {
                findings.disagree("7: settled", case);
            } else {
                findings.count("7: settles between round 66 and 200");
            }
            return;
        }
        text = next;
        if text.len() > 1_000_000 {
            return findings.exception("7: above 1,000,000 bytes", case);
        }
    }
    findings.count("7: not settled after 200 rounds");
}

/// The search of a denominator gives another index than the one counted in symbols. That one is what the search gives when the
/// mark is a symbol of one byte. That the test copy's round does make this search is seen with such a mark too (`chains.rs`).
fn barred_solidus(trouble: &Trouble, case: &Case, findings: &mut Findings) {
    let chars: Vec<char> = trouble.text.chars().collect();
    let narrow: Vec<char> = chains::narrow(&trouble.text).chars().collect();
    let rust = unless_panic(|| crate::changed::find_fraction_part_after(&chars, trouble.at));
    let in_symbols = crate::changed::find_fraction_part_after(&narrow, trouble.at);
    let past_the_end = matches!(rust, Some(Some((_, end))) if end > chars.len());
    if rust == Some(in_symbols) {
        findings.exception("9: the index is right by chance", case);
    } else if rust.is_none() || past_the_end {
        findings.count("9: the index is past the end, the round panics");
    } else {
        findings.count("9: the index is wrong");
    }
}
