//! Plain formulas by document 01's grammar, with slashes in numerators too (A4): the tree, its text, its LaTeX writing, its atom count,
//! and a parser.
//!
//! Nothing here knows how a formula is converted. The parser splits a text at its outermost signs, spaces, slashes and
//! script marks, and asks of the tree what the rules ask besides.

use super::judge::FORMULA_BYTES;
use super::word_tables::GREEK_LETTERS;

/// Products joined by ` + ` or ` - `: each but the first has its sign.
#[derive(Clone, Debug, PartialEq)]
pub struct Sum {
    pub first: Product,
    pub others: Vec<(char, Product)>,
}

/// Factors joined by one space.
pub type Product = Vec<Factor>;

#[derive(Clone, Debug, PartialEq)]
pub enum Factor {
    Scripted(String, Option<Script>, Option<Script>),
    Fraction(Operand, Operand),
    Group(Sum),
}

#[derive(Clone, Debug, PartialEq)]
pub enum Operand {
    Atom(String),
    Enclosed(Sum),
}

#[derive(Clone, Debug, PartialEq)]
pub enum Script {
    Symbol(char),
    Enclosed(Sum),
}

impl Sum {
    fn products(&self) -> impl Iterator<Item = &Product> {
        std::iter::once(&self.first).chain(self.others.iter().map(|(_, product)| product))
    }

    fn factors(&self) -> impl Iterator<Item = &Factor> {
        self.products().flatten()
    }

    pub fn is_lone_atom(&self) -> bool {
        self.others.is_empty() && matches!(self.first[..], [Factor::Scripted(_, None, None)])
    }

    fn has_slash(&self) -> bool {
        self.text().contains('/')
    }

    pub fn has_script(&self) -> bool {
        self.text().contains(['_', '^'])
    }

    /// One-byte scripts don't count.
    pub fn atoms(&self) -> usize {
        self.factors().map(Factor::atoms).sum()
    }

    /// How many fractions stand one within the other, at most.
    pub fn nested_fractions(&self) -> usize {
        self.factors().map(Factor::nested_fractions).max().unwrap_or(0)
    }

    pub fn text(&self) -> String {
        self.joined(Factor::text)
    }

    /// `sizing`: whether parentheses with a fraction in them are sized. They are where `\frac` counts as tall (A13), outside scripts.
    pub fn latex(&self, sizing: bool) -> String {
        self.joined(|factor| factor.latex(sizing))
    }

    fn joined(&self, factor: impl Fn(&Factor) -> String) -> String {
        let product = |p: &Product| p.iter().map(&factor).collect::<Vec<_>>().join(" ");
        let others = self.others.iter().map(|(sign, p)| format!(" {sign} {}", product(p)));
        product(&self.first) + &others.collect::<String>()
    }
}

impl Factor {
    fn atoms(&self) -> usize {
        match self {
            Factor::Scripted(_, low, high) => {
                1 + [low, high].into_iter().flatten().map(Script::atoms).sum::<usize>()
            }
            Factor::Fraction(numerator, denominator) => numerator.atoms() + denominator.atoms(),
            Factor::Group(sum) => sum.atoms(),
        }
    }

    fn nested_fractions(&self) -> usize {
        match self {
            Factor::Scripted(_, low, high) => {
                [low, high].into_iter().flatten().map(Script::nested_fractions).max().unwrap_or(0)
            }
            Factor::Fraction(numerator, denominator) => {
                1 + numerator.nested_fractions().max(denominator.nested_fractions())
            }
            Factor::Group(sum) => sum.nested_fractions(),
        }
    }

    fn text(&self) -> String {
        match self {
            Factor::Scripted(atom, low, high) => {
                atom.clone() + &marked("_", low, Script::text) + &marked("^", high, Script::text)
            }
            Factor::Fraction(numerator, denominator) => format!("{}/{}", numerator.text(), denominator.text()),
            Factor::Group(sum) => format!("({})", sum.text()),
        }
    }

    fn latex(&self, sizing: bool) -> String {
        match self {
            Factor::Scripted(atom, low, high) => {
                atom_latex(atom) + &marked("_", low, Script::latex) + &marked("^", high, Script::latex)
            }
            Factor::Fraction(numerator, denominator) => {
                format!("\\frac{{{}}}{{{}}}", numerator.latex(sizing), denominator.latex(sizing))
            }
            Factor::Group(sum) if sizing && sum.has_slash() => format!("\\left({}\\right)", sum.latex(sizing)),
            Factor::Group(sum) => format!("({})", sum.latex(sizing)),
        }
    }
}

impl Operand {
    fn atoms(&self) -> usize {
        match self {
            Operand::Atom(_) => 1,
            Operand::Enclosed(sum) => sum.atoms(),
        }
    }

    fn nested_fractions(&self) -> usize {
        match self {
            Operand::Atom(_) => 0,
            Operand::Enclosed(sum) => sum.nested_fractions(),
        }
    }

    fn text(&self) -> String {
        match self {
            Operand::Atom(atom) => atom.clone(),
            Operand::Enclosed(sum) => format!("({})", sum.text()),
        }
    }

    fn latex(&self, sizing: bool) -> String {
        match self {
            Operand::Atom(atom) => atom_latex(atom),
            Operand::Enclosed(sum) => sum.latex(sizing),
        }
    }
}

impl Script {
    fn atoms(&self) -> usize {
        match self {
            Script::Symbol(_) => 0,
            Script::Enclosed(sum) => sum.atoms(),
        }
    }

    fn nested_fractions(&self) -> usize {
        match self {
            Script::Symbol(_) => 0,
            Script::Enclosed(sum) => sum.nested_fractions(),
        }
    }

    fn text(&self) -> String {
        match self {
            Script::Symbol(symbol) => symbol.to_string(),
            Script::Enclosed(sum) => format!("({})", sum.text()),
        }
    }

    fn latex(&self) -> String {
        match self {
            Script::Symbol(symbol) => symbol.to_string(),
            Script::Enclosed(sum) => format!("{{{}}}", sum.latex(false)),
        }
    }
}

fn marked(mark: &str, script: &Option<Script>, write: impl Fn(&Script) -> String) -> String {
    script.as_ref().map_or(String::new(), |script| mark.to_string() + &write(script))
}

fn atom_latex(atom: &str) -> String {
    let greek = GREEK_LETTERS.iter().any(|(name, _)| *name == atom);
    if greek { format!("\\{atom}") } else { atom.to_string() }
}

fn is_atom(text: &str) -> bool {
    let letter = text.len() == 1 && text.chars().all(|c| c.is_ascii_alphabetic());
    let number = (1..=9).contains(&text.len()) && text.chars().all(|c| c.is_ascii_digit());
    letter || number || GREEK_LETTERS.iter().any(|(name, _)| *name == text)
}

/// The tree of a plain text.
pub fn parse(text: &str) -> Option<Sum> {
    if text.len() > FORMULA_BYTES || !text.is_ascii() { None } else { sum(text) }
}

/// The offsets of a pattern outside all parentheses.
fn outermost<'a>(text: &'a str, pattern: &'a str) -> impl Iterator<Item = usize> + 'a {
    let mut depth = 0;
    text.bytes().enumerate().filter_map(move |(at, byte)| {
        let here = depth == 0 && text[at..].starts_with(pattern);
        depth += i32::from(byte == b'(') - i32::from(byte == b')');
        here.then_some(at)
    })
}

fn sum(text: &str) -> Option<Sum> {
    let mut signs: Vec<usize> = outermost(text, " + ").chain(outermost(text, " - ")).collect();
    signs.sort();
    let ends = signs.iter().copied().skip(1).chain([text.len()]);
    let others = signs.iter().zip(ends).map(|(&at, end)| {
        Some((char::from(text.as_bytes()[at + 1]), product(text.get(at + 3..end)?)?))
    });
    let first = product(&text[..signs.first().copied().unwrap_or(text.len())])?;
    Some(Sum { first, others: others.collect::<Option<_>>()? })
}

fn product(text: &str) -> Option<Product> {
    match outermost(text, " ").next() {
        None => Some(vec![factor(text)?]),
        Some(at) => {
            let mut factors = vec![factor(&text[..at])?];
            factors.extend(product(&text[at + 1..])?);
            Some(factors)
        }
    }
}

fn factor(text: &str) -> Option<Factor> {
    if let Some(at) = outermost(text, "/").next() {
        return Some(Factor::Fraction(operand(&text[..at])?, operand(&text[at + 1..])?));
    }
    match enclosed(text) {
        Some(inner) => Some(Factor::Group(sum(inner)?)),
        None => scripted(text),
    }
}

fn enclosed(text: &str) -> Option<&str> {
    text.strip_prefix('(')?.strip_suffix(')')
}

fn operand(text: &str) -> Option<Operand> {
    match enclosed(text) {
        Some(inner) => sum(inner).filter(|sum| !sum.is_lone_atom()).map(Operand::Enclosed),
        None => is_atom(text).then(|| Operand::Atom(text.to_string())),
    }
}

fn scripted(text: &str) -> Option<Factor> {
    let (rest, high) = split_script(text, "^")?;
    let (atom, low) = split_script(rest, "_")?;
    is_atom(atom).then(|| Factor::Scripted(atom.to_string(), low, high))
}

/// What stands before the mark, and the script behind it.
fn split_script<'a>(text: &'a str, mark: &'a str) -> Option<(&'a str, Option<Script>)> {
    match outermost(text, mark).next() {
        None => Some((text, None)),
        Some(at) => Some((&text[..at], Some(script(&text[at + 1..])?))),
    }
}

fn script(text: &str) -> Option<Script> {
    match enclosed(text) {
        Some(inner) => sum(inner).filter(|sum| !sum.has_script()).map(Script::Enclosed),
        None => match text.as_bytes() {
            [byte] if byte.is_ascii_alphanumeric() => Some(Script::Symbol(char::from(*byte))),
            _ => None,
        },
    }
}
