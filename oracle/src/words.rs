//! `convert_syntax` and `convert_greek_capitals` with their checks: each replacement entry is a stage, 7 and 9 come in the
//! rounds, 8 in `lr`. The transcribed lines come from `math_conv.rs` (MIT licence, see judge.rs), but for the closing mark of
//! a placeholder and the put-back (A2).

use super::definitions::{base_loses_block, full_length, in_full};
use super::fractions;
use super::judge::{Stages, Trouble};
use super::sizing::{size_delimiters_to_content, tall_commands};
use super::word_tables::{FUNCTION_MAPPINGS, GREEK_LETTERS, OPERATOR_REPLACEMENTS, WORD_MAPPINGS};
use std::sync::OnceLock;

pub const WORDS_MARK: char = '\u{FFFD}';

/// The Rust compiles a pattern for each entry on each call; here once.
struct Patterns {
    greek_letters: Vec<regex::Regex>,
    /// None for the dotted entries, which the Rust replaces literally.
    word_mappings: Vec<Option<regex::Regex>>,
    greek_capitals: Vec<regex::Regex>,
}

fn patterns() -> &'static Patterns {
    static PATTERNS: OnceLock<Patterns> = OnceLock::new();
    let new = |pattern: &str| regex::Regex::new(pattern).expect("a pattern of the Rust");
    PATTERNS.get_or_init(|| Patterns {
        greek_letters: GREEK_LETTERS.iter().map(|row| new(&regex::escape(row.0))).collect(),
        word_mappings: WORD_MAPPINGS
            .iter()
            .map(|(typst, _)| {
                let literal = typst.contains('(') || typst.contains('|') || typst.contains('.');
                (!literal).then(|| new(&format!(r"\b{}", regex::escape(typst))))
            })
            .collect(),
        greek_capitals: GREEK_CAPITALS.iter().map(|row| new(&format!(r"\b{}\b", row.0))).collect(),
    })
}

const GREEK_CAPITALS: [(&str, &str); 2] = [("Phi", "\\Phi"), ("Psi", "\\Psi")];

pub fn convert_syntax(input: &str, display: bool, field: u32, stages: &mut Stages) -> Result<String, Trouble> {
    let mut result = stages.finished("sqrt", crate::convert_sqrt(input))?;
    for (typst, latex) in FUNCTION_MAPPINGS.into_iter().chain(OPERATOR_REPLACEMENTS) {
        result = stages.finished(typst, result.replace(typst, latex))?;
    }
    result = outside_blocks(&result, input, stages)?;
    result = convert_greek_capitals(&result, stages)?;

    result = stages.finished("_(", convert_paren_to_brace(&result, "_"))?;
    result = stages.finished("_\\text{", crate::wrap_text_subscripts(&result, "_"))?;
    result = stages.finished("_", crate::wrap_multichar_scripts(&result, "_"))?;
    result = stages.finished("^(", convert_paren_to_brace(&result, "^"))?;
    result = stages.finished("^\\text{", crate::wrap_text_subscripts(&result, "^"))?;
    result = stages.finished("^", crate::wrap_multichar_scripts(&result, "^"))?;

    if display {
        result = fractions::convert_fractions(&result, stages)?;
    }
    result = stages.finished("solidus back", result.replace(crate::LITERAL_SOLIDUS, "/"))?;
    result = stages.finished("braces", crate::escape_set_braces(&result))?;
    refuse_bare_delimiter(&result)?;
    result = stages.finished("lr", crate::convert_lr(&result))?;
    if display {
        stages.before_sizing = Some(result.clone());
        let sized = size_delimiters_to_content(&result, &tall_commands(field), &mut stages.left_small);
        result = stages.finished("sizing", sized)?;
    }
    stages.finished("percent", result.replace('%', "\\%"))
}

/// The text with each `\text{` and `\mathrm{` block held out, a numbered placeholder in its stead, and the blocks.
fn hold_out(input: &str) -> (String, Vec<String>) {
    let mut result = input.to_string();
    let mut text_blocks_syntax: Vec<String> = Vec::new();
    let protected_commands = ["\\text{", "\\mathrm{"];
    loop {
        let mut found = false;
        for cmd in &protected_commands {
            if let Some(start) = result.find(cmd) {
                let cmd_len = cmd.len();
                let after_cmd = &result[start + cmd_len..];
                if let Some(end) = crate::find_matching_brace(after_cmd) {
                    let block_content = &result[start..=start + cmd_len + end];
                    let placeholder =
                        format!("\u{FFFD}{len}\u{FFFF}", len = text_blocks_syntax.len());
                    text_blocks_syntax.push(block_content.to_string());
                    result = format!(
                        "{}{}{}",
                        &result[..start],
                        placeholder,
                        &result[start + cmd_len + end + 1..]
                    );
                    found = true;
                    break;
                }
            }
        }
        if !found {
            return (result, text_blocks_syntax);
        }
    }
}

/// Greek names and words outside the held blocks. `syntax_input` is what `convert_syntax` was given.
fn outside_blocks(input: &str, syntax_input: &str, stages: &mut Stages) -> Result<String, Trouble> {
    let (mut result, text_blocks_syntax) = hold_out(input);
    for ((typst, latex), re) in GREEK_LETTERS.into_iter().zip(&patterns().greek_letters) {
        result = replace_matches(&result, re, latex, |bytes, start, end| {
            let preceded_by_backslash = start > 0 && bytes[start - 1] == b'\\';
            let preceded_by_letter = start > 0 && bytes[start - 1].is_ascii_alphabetic();
            let followed_by_letter = end < bytes.len() && bytes[end].is_ascii_alphabetic();
            preceded_by_backslash || preceded_by_letter || followed_by_letter
        });
        stages.finished_length(typst, full_length(&result, WORDS_MARK, &text_blocks_syntax))?;
    }
    for ((typst, latex), re) in WORD_MAPPINGS.into_iter().zip(&patterns().word_mappings) {
        result = match re {
            None => result.replace(typst, latex),
            Some(re) => replace_matches(&result, re, latex, |bytes, start, end| {
                let preceded_by_backslash = start > 0 && bytes[start - 1] == b'\\';
                let inside_identifier = bytes.get(end).is_some_and(u8::is_ascii_alphanumeric);
                preceded_by_backslash || inside_identifier
            }),
        };
        stages.finished_length(typst, full_length(&result, WORDS_MARK, &text_blocks_syntax))?;
    }

    if base_loses_block(&result, WORDS_MARK, &text_blocks_syntax) {
        stages.base_loses(WORDS_MARK, syntax_input);
    }
    stages.finished("words put back", in_full(&result, WORDS_MARK, &text_blocks_syntax))
}

/// The Rust's loop over the matches of one entry: a kept match is copied whole, any other gives way to `latex`.
fn replace_matches(
    result: &str,
    re: &regex::Regex,
    latex: &str,
    is_kept: impl Fn(&[u8], usize, usize) -> bool,
) -> String {
    let mut new_result = String::new();
    let mut last_end = 0;
    for m in re.find_iter(result) {
        new_result.push_str(&result[last_end..m.start()]);
        if is_kept(result.as_bytes(), m.start(), m.end()) {
            new_result.push_str(m.as_str());
        } else {
            new_result.push_str(latex);
        }
        last_end = m.end();
    }
    new_result.push_str(&result[last_end..]);
    new_result
}

fn convert_greek_capitals(input: &str, stages: &mut Stages) -> Result<String, Trouble> {
    let mut result = input.to_string();
    for ((greek, latex), re) in GREEK_CAPITALS.into_iter().zip(&patterns().greek_capitals) {
        let next = replace_matches(&result, re, latex, |bytes, start, _| {
            start > 0 && bytes[start - 1] == b'\\'
        });
        result = stages.finished(greek, next)?;
    }
    Ok(result)
}

/// The Rust's function takes a copy of the rest at every symbol; where there is nothing to find, that time is saved.
fn convert_paren_to_brace(input: &str, prefix: &str) -> String {
    if !input.contains(&format!("{prefix}(")) {
        return input.to_string();
    }
    crate::convert_paren_to_brace(input, prefix)
}

/// Number 8, by the walk of `convert_lr`: a call that it reaches and whose inside is one opening delimiter alone. The slice
/// `inner[1..inner.len() - 1]` of the Rust has no meaning there.
pub fn refuse_bare_delimiter(input: &str) -> Result<(), Trouble> {
    let mut i = 0;
    while i < input.len() {
        if input[i..].starts_with("lr(") {
            let start = i + 3;
            if let Some(end) = crate::find_matching_paren(&input[start..]) {
                if matches!(&input[start..start + end], "(" | "|" | "[" | "{") {
                    return Err(Trouble { number: 8, text: input.to_string(), at: i });
                }
                i = start + end + 1;
                continue;
            }
        }
        let c = input[i..].chars().next().expect("i is a char boundary");
        i += c.len_utf8();
    }
    Ok(())
}
