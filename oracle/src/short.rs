//! The list of all short plain formulas, with their atom counts and their LaTeX: what the program `plain_short` writes.
//!
//! The trees are built rule by rule from document 01's grammar, with slashes in numerators too (A4), shorter parts first. Before
//! the list is given out, the parser is run on every short text: it must find these trees and no others. And the Rust must print each
//! as written here. Both are asked of somewhat longer formulas too, which are not on the list: there numerators begin to hold slashes.

use super::grammar::{parse, Factor, Operand, Product, Script, Sum};
use super::judge::{judge, roomy, Answer};
use std::collections::{BTreeSet, HashMap};

/// In the order of the list.
const SYMBOLS: &str = "ab1+-()/_^ ";
const LONGEST: usize = 5;
/// `((a/b))/c` has so many bytes.
const LONGEST_ASKED: usize = 9;

/// A line for each formula: the formula, its atoms, its LaTeX, with tabs between them; then the totals.
pub fn list() -> String {
    let formulas = formulas(LONGEST);
    let (mut texts, mut lines) = (0, String::new());
    let mut printed = BTreeSet::new();
    for text in (0..=LONGEST).flat_map(all_texts) {
        texts += 1;
        let tree = formulas.get(&text);
        assert_eq!(parse(&text).as_ref(), tree, "the parser and the rules agree on {text:?}");
        let Some(tree) = tree else { continue };
        let latex = tree.latex(true);
        assert!(printed.insert(latex.clone()), "no other formula prints as {text:?}");
        lines += &format!("{text}\t{}\t{latex}\n", tree.atoms());
    }
    assert_eq!(printed.len(), formulas.len(), "each formula is one of the texts");
    ask_all(&self::formulas(LONGEST_ASKED));
    format!("{lines}{texts} texts, {} plain, {} different LaTeX texts\n", formulas.len(), printed.len())
}

/// Each text has this tree by the parser too, prints as written here, and as no other does.
fn ask_all(formulas: &HashMap<String, Sum>) {
    let mut printed = BTreeSet::new();
    for (text, tree) in formulas {
        assert_eq!(parse(text).as_ref(), Some(tree), "the parser and the rules agree on {text:?}");
        let latex = tree.latex(true);
        assert_eq!(judge(&roomy(text, &[], true)), Answer::Done(latex.clone().into_bytes()), "what the Rust prints for {text:?}");
        assert!(printed.insert(latex), "no other formula prints as {text:?}");
    }
}

/// All texts of n symbols.
fn all_texts(n: usize) -> Vec<String> {
    match n {
        0 => vec![String::new()],
        _ => all_texts(n - 1).iter().flat_map(|text| SYMBOLS.chars().map(move |c| format!("{text}{c}"))).collect(),
    }
}

/// The trees by their texts of up to so many bytes, of which no two are alike.
fn formulas(longest: usize) -> HashMap<String, Sum> {
    let mut formulas = HashMap::new();
    for n in 0..=longest {
        for sum in sums(n) {
            let text = sum.text();
            assert_eq!(text.len(), n);
            assert_eq!(formulas.insert(text, sum), None, "no text has two trees");
        }
    }
    formulas
}

/// All sums whose text has n bytes; and so on, rule by rule.
fn sums(n: usize) -> Vec<Sum> {
    let mut sums: Vec<Sum> = products(n).into_iter().map(|first| Sum { first, others: Vec::new() }).collect();
    for (first, rest) in pairs(n, 3, products, self::sums) {
        for sign in ['+', '-'] {
            let others = [vec![(sign, rest.first.clone())], rest.others.clone()].concat();
            sums.push(Sum { first: first.clone(), others });
        }
    }
    sums
}

fn products(n: usize) -> Vec<Product> {
    let mut products: Vec<Product> = factors(n).into_iter().map(|factor| vec![factor]).collect();
    products.extend(pairs(n, 1, factors, self::products).into_iter().map(|(first, rest)| [vec![first], rest].concat()));
    products
}

fn factors(n: usize) -> Vec<Factor> {
    let fractions = pairs(n, 1, operands, operands).into_iter();
    let mut factors: Vec<Factor> = fractions.map(|(numerator, denominator)| Factor::Fraction(numerator, denominator)).collect();
    factors.extend(enclosed(n).into_iter().map(Factor::Group));
    for (atom, (low, high)) in pairs(n, 0, atoms, |n| pairs(n, 0, optional_scripts, optional_scripts)) {
        factors.push(Factor::Scripted(atom, low, high));
    }
    factors
}

/// Sums in parentheses.
fn enclosed(n: usize) -> Vec<Sum> {
    if n < 2 { Vec::new() } else { sums(n - 2) }
}

fn operands(n: usize) -> Vec<Operand> {
    let sums = enclosed(n).into_iter().filter(|sum| !sum.is_lone_atom());
    atoms(n).into_iter().map(Operand::Atom).chain(sums.map(Operand::Enclosed)).collect()
}

/// A script and its mark, or nothing.
fn optional_scripts(n: usize) -> Vec<Option<Script>> {
    if n == 0 { vec![None] } else { scripts(n - 1).into_iter().map(Some).collect() }
}

fn scripts(n: usize) -> Vec<Script> {
    if n == 1 {
        return SYMBOLS.chars().filter(char::is_ascii_alphanumeric).map(Script::Symbol).collect();
    }
    enclosed(n).into_iter().filter(|sum| !sum.has_script()).map(Script::Enclosed).collect()
}

/// A letter, or 1 to 9 digits. No Greek name can be spelled with these symbols.
fn atoms(n: usize) -> Vec<String> {
    let letters = SYMBOLS.chars().filter(|c| n == 1 && c.is_ascii_alphabetic()).map(String::from);
    let digits = (1..=9).contains(&n).then(|| "1".repeat(n));
    letters.chain(digits).collect()
}

/// All pairs whose texts have n bytes together with the `gap` bytes between them.
fn pairs<A: Clone, B>(n: usize, gap: usize, first: fn(usize) -> Vec<A>, second: fn(usize) -> Vec<B>) -> Vec<(A, B)> {
    let lengths = (0..=n).filter(|k| k + gap <= n);
    let of_lengths = |k: usize| {
        let seconds = move |a: A| second(n - gap - k).into_iter().map(move |b| (a.clone(), b));
        first(k).into_iter().flat_map(seconds)
    };
    lengths.flat_map(of_lengths).collect()
}
