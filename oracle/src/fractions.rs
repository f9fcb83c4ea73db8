//! `convert_fractions` with its checks: each round is a stage, 9 within a round, 7 behind round 64. The transcribed lines
//! come from `math_conv.rs` (MIT licence, see judge.rs), but for the slashes that a round leaves (A4).

use super::judge::{Stages, Trouble};
use super::left::Done;
use std::collections::HashMap;
use std::fmt::Write;

pub const ROUNDS: usize = 64;

pub fn convert_fractions(input: &str, stages: &mut Stages) -> Result<String, Trouble> {
    let mut result = input.to_string();
    stages.before_rounds = Some(result.clone());
    for round in 1..=ROUNDS {
        let next = noted_round(&result, stages)?;
        if next == result {
            return Ok(result);
        }
        result = stages.finished(&format!("round {round}"), next)?;
    }
    // The 65th round is only asked whether it would change the text or meet 9.
    match noted_round(&result, stages) {
        Ok(next) if next == result => Ok(result),
        _ => Err(Trouble { number: 7, text: input.to_string(), at: 0 }),
    }
}

fn noted_round(text: &str, stages: &mut Stages) -> Result<String, Trouble> {
    let mut done = Done::default();
    let next = convert_regular_fractions(text, &mut done);
    stages.left |= done.left > 0;
    next
}

/// One round: the Rust's, but asked about 9 before each denominator, and with the slashes of a chain left whose beginning is rewritten
/// already. What the round did is counted, also where it meets 9.
pub fn convert_regular_fractions(input: &str, done: &mut Done) -> Result<String, Trouble> {
    let chars: Vec<char> = input.chars().collect();
    let beginnings = chain_beginnings(&chars);
    let mut result = String::new();
    let mut i = 0;
    let mut rewritten_end = 0;

    while i < chars.len() {
        if chars[i] == '/' {
            if crate::is_inside_subscript_context(&chars, i) {
                result.push(chars[i]);
                i += 1;
                continue;
            }
            if let Some((num_start, num_end)) = crate::find_fraction_part_before(&chars, i) {
                if beginnings[&i] < rewritten_end {
                    done.left += 1;
                    result.push('/');
                    i += 1;
                    continue;
                }
                if jump_passes_solidus(&chars, i + 1) {
                    return Err(Trouble { number: 9, text: input.to_string(), at: i + 1 });
                }
                if let Some((den_start, den_end)) = crate::find_fraction_part_after(&chars, i + 1) {
                    let chars_to_remove = i - num_start;
                    for _ in 0..chars_to_remove {
                        result.pop();
                    }
                    let num: String = chars[num_start..num_end].iter().collect();
                    let den: String = chars[den_start..den_end].iter().collect();
                    let num = crate::strip_outer_parens(&num);
                    let den = crate::strip_outer_parens(&den);
                    let _ = write!(result, "\\frac{{{num}}}{{{den}}}");
                    i = den_end;
                    rewritten_end = den_end;
                    done.rewritten += 1;
                    continue;
                }
            }
            result.push('/');
            i += 1;
            continue;
        }
        result.push(chars[i]);
        i += 1;
    }
    Ok(result)
}

/// A4, without a memory of what was left: slashes form a chain where the numerator of each begins, whitespace apart, right after the one
/// before it. Here is, for each slash with a numerator, where the numerator of its chain's first slash begins. Numerators begin ever
/// further to the left along a chain. So a slash is left just where its chain begins before the end of the text rewritten last: then some
/// numerator of the chain overlaps that text, and the slashes behind it are left one after the other.
fn chain_beginnings(chars: &[char]) -> HashMap<usize, usize> {
    let mut beginnings = HashMap::new();
    for slash in (0..chars.len()).filter(|&i| chars[i] == '/' && !crate::is_inside_subscript_context(chars, i)) {
        if let Some((num_start, _)) = crate::find_fraction_part_before(chars, slash) {
            let before = (0..num_start).rev().find(|&i| !chars[i].is_whitespace());
            let beginning = before.and_then(|at| beginnings.get(&at)).copied().unwrap_or(num_start);
            beginnings.insert(slash, beginning);
        }
    }
    beginnings
}

/// Number 9: `find_fraction_part_after` up to its jump from `\lvert` to `\rvert`, whose width it counts in bytes. A solidus
/// mark in between makes that count wrong.
fn jump_passes_solidus(chars: &[char], start_pos: usize) -> bool {
    let mut start = start_pos;
    while start < chars.len() && chars[start].is_whitespace() {
        start += 1;
    }
    if start >= chars.len() || chars[start] == '(' {
        return false;
    }
    let mut end = start;
    while end < chars.len()
        && (chars[end].is_alphanumeric()
            || chars[end] == '_'
            || chars[end] == '\\'
            || (chars[end] == '.'
                && end > start
                && chars[end - 1].is_ascii_digit()
                && end + 1 < chars.len()
                && chars[end + 1].is_ascii_digit()))
    {
        end += 1;
    }
    let collected: String = chars[start..end].iter().collect();
    if !collected.ends_with("\\lvert") {
        return false;
    }
    let remaining: String = chars[end..].iter().collect();
    let jump = remaining.find("\\rvert").unwrap_or(0);
    remaining[..jump].contains(crate::LITERAL_SOLIDUS)
}
