//! The three converters on one text, display on, no definitions and all commands tall; and the floor, what any call has to do: clear the work buffer.

use super::clock::seconds;
use crate::{as_is, kept};
use std::collections::HashMap;
use std::hint::black_box;
use std::panic::{catch_unwind, AssertUnwindSafe};

/// Repetitions of which the fastest counts; the three and the floor take turns.
pub const TURNS: usize = 7;
/// Of the typical formulas, which are short and have a target each.
pub const TYPICAL_TURNS: usize = 21;
/// A turn has as many calls as fit in so many seconds.
const TURN: f64 = 0.004;
/// Where one call of the Rust takes longer than this, two turns are enough.
const LONG_CALL: f64 = 0.05;

pub struct Converters {
    work: Vec<u8>,
    output: Vec<u8>,
    none: HashMap<String, String>,
}

impl Default for Converters {
    fn default() -> Self {
        Converters { work: vec![0; jistranu::WORK_BYTES], output: vec![0; jistranu::OUTPUT_BYTES], none: HashMap::new() }
    }
}

/// Seconds of a call and of clearing the work buffer, and the number of the library's refusal, or 0.
#[derive(Clone, Copy)]
pub struct Times {
    pub floor: f64,
    pub ours: f64,
    pub kept: f64,
    pub as_is: f64,
    pub refused: u8,
}

/// Whether a call's search may pass over a parenthesis, which the Rust's does not (A8): it stands between two quotes, or `attach`,
/// which puts its arguments in another order, brings it there.
fn may_pass_over(formula: &str) -> bool {
    match (formula.find('"'), formula.rfind('"')) {
        (Some(first), Some(last)) if first < last => {
            formula[first..last].contains(['(', ')']) || formula.contains("attach(")
        }
        _ => false,
    }
}

/// Whether a round may leave a slash, which the Rust's does not (A4). It leaves none where each slash but the first has an operand
/// before it that stands apart from other fractions.
fn may_leave_a_slash(formula: &str) -> bool {
    let slashes = formula.match_indices('/').filter(|&(at, _)| !formula[..at].ends_with('\\'));
    slashes.skip(1).any(|(at, _)| !ends_apart(formula[..at].trim_end()))
}

/// Whether a text ends with a word or a sum in parentheses, of letters, digits, scripts and signs alone, behind a blank that no slash
/// stands before.
fn ends_apart(text: &str) -> bool {
    let in_word = |c: char| c.is_ascii_alphanumeric() || "_^.".contains(c);
    let before = match text.strip_suffix(')') {
        Some(rest) => rest.trim_end_matches(|c| in_word(c) || " +-".contains(c)).strip_suffix('(').unwrap_or_default(),
        None => text.trim_end_matches(in_word),
    };
    before.ends_with(' ') && before.len() < text.len() && !before.trim_end().ends_with('/')
}

impl Converters {
    fn ours(&mut self, formula: &str) -> Result<&[u8], jistranu::Refusal> {
        jistranu::convert(formula.as_bytes(), b"", true, jistranu::Tall::ALL, &mut self.work, &mut self.output)
    }

    /// The number of the refusal, or 0.
    pub fn refused(&mut self, formula: &str) -> u8 {
        self.ours(formula).map_or_else(jistranu::Refusal::number, |_| 0)
    }

    fn kept(&self, formula: &str) -> String {
        kept::typst_to_latex(formula, &self.none, true)
    }

    fn as_is(&self, formula: &str) -> String {
        as_is::typst_to_latex(formula, &self.none, true)
    }

    /// All three must give the same LaTeX, unless the library refuses the text, the Rust loses a block, whose mark is then in its
    /// LaTeX or makes it panic, a parenthesis may be passed over, or a slash may be left. None where the Rust panics.
    fn compared(&mut self, formula: &str) -> Option<u8> {
        let as_is = unless_panic(|| self.as_is(formula));
        let kept = unless_panic(|| self.kept(formula));
        assert!(kept == as_is, "kept expressions change the answer to {formula:?}");
        let other = may_pass_over(formula) || may_leave_a_slash(formula);
        let rust = as_is.as_ref().filter(|latex| !latex.contains(['\u{FFFD}', '\u{FFFE}']) && !other);
        let same = self.ours(formula).map(|latex| rust.is_none_or(|rust| rust.as_bytes() == latex));
        assert!(same != Ok(false), "another answer to {formula:?}");
        as_is.map(|_| self.refused(formula))
    }

    pub fn time_floor(&mut self, calls: u32) -> f64 {
        seconds(calls, || black_box(&mut self.work).fill(0))
    }

    pub fn time_ours(&mut self, calls: u32, formula: &str) -> f64 {
        seconds(calls, || {
            let _ = black_box(self.ours(black_box(formula)));
        })
    }

    pub fn time_kept(&self, calls: u32, formula: &str) -> f64 {
        seconds(calls, || drop(black_box(self.kept(black_box(formula)))))
    }

    fn time_as_is(&self, calls: u32, formula: &str) -> f64 {
        seconds(calls, || drop(black_box(self.as_is(black_box(formula)))))
    }

    /// None where the Rust panics.
    fn once(&mut self, formula: &str) -> Option<Times> {
        let refused = self.compared(formula)?;
        Some(Times {
            floor: self.time_floor(1),
            ours: self.time_ours(1, formula),
            kept: self.time_kept(1, formula),
            as_is: self.time_as_is(1, formula),
            refused,
        })
    }

    fn turn(&mut self, formula: &str, best: &mut Times) {
        let calls = |once: f64| (TURN / once).clamp(1.0, 2_000.0) as u32;
        best.floor = best.floor.min(self.time_floor(calls(best.floor)));
        best.ours = best.ours.min(self.time_ours(calls(best.ours), formula));
        best.kept = best.kept.min(self.time_kept(calls(best.kept), formula));
        best.as_is = best.as_is.min(self.time_as_is(calls(best.as_is), formula));
    }

    /// A turn of every text before the next turn of the first, so that where the machine changes its speed all texts have had
    /// both. None where the Rust panics.
    pub fn times_of(&mut self, turns: usize, formulas: &[String]) -> Vec<Option<Times>> {
        let mut all: Vec<Option<Times>> = formulas.iter().map(|formula| self.once(formula)).collect();
        for turn in 0..turns {
            for (formula, best) in formulas.iter().zip(&mut all) {
                if let Some(best) = best.as_mut().filter(|best| turn < 2 || best.as_is <= LONG_CALL) {
                    self.turn(formula, best);
                }
            }
        }
        all
    }

    pub fn times(&mut self, turns: usize, formula: &str) -> Option<Times> {
        self.times_of(turns, &[formula.to_string()])[0]
    }
}

/// What a function of the Rust gives, or None where it panics.
pub fn unless_panic<T>(f: impl FnOnce() -> T) -> Option<T> {
    let hook = std::panic::take_hook();
    std::panic::set_hook(Box::new(|_| {}));
    let result = catch_unwind(AssertUnwindSafe(f)).ok();
    std::panic::set_hook(hook);
    result
}
