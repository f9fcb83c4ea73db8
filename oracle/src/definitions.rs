//! `apply_definitions_outside_text` with its checks: each single definition is a stage. The transcribed lines come from
//! `math_conv.rs` (MIT licence, see judge.rs), but for the closing mark of a placeholder and the put-back (A2).

use super::judge::{Stages, Trouble};
use super::table::Record;
use std::cell::RefCell;
use std::collections::HashMap;

pub const DEFINITIONS_MARK: char = '\u{FFFE}';

/// Ends a placeholder, so that no typed number reads as one. No formula and no table holds it.
const CLOSING_MARK: char = '\u{FFFF}';

/// The text with each placeholder (mark, number, closing mark) replaced by the block that it stands for, and so within the block.
pub fn in_full(text: &str, mark: char, blocks: &[String]) -> String {
    let mut parts = text.split(mark);
    let mut full = parts.next().unwrap_or_default().to_string();
    for part in parts {
        let (number, rest) = part.split_once(CLOSING_MARK).expect("a placeholder has two marks");
        let block = &blocks[number.parse::<usize>().expect("a number stands between them")];
        full.push_str(&in_full(block, mark, blocks));
        full.push_str(rest);
    }
    full
}

/// The length of a text in symbols, held blocks in full.
pub fn full_length(text: &str, mark: char, blocks: &[String]) -> usize {
    in_full(text, mark, blocks).chars().count()
}

/// Whether a mark remains after the put-back of the unchanged Rust: its placeholders end with the mark that they begin with, and
/// the block held first goes back first.
pub fn base_loses_block(text: &str, mark: char, blocks: &[String]) -> bool {
    let of_one_mark = |text: &str| text.replace(CLOSING_MARK, &mark.to_string());
    let mut result = of_one_mark(text);
    for (i, block) in blocks.iter().enumerate() {
        let placeholder = format!("{mark}{i}{mark}");
        result = result.replace(&placeholder, &of_one_mark(block));
    }
    result.contains(mark)
}

/// Longer names first, names of equal length in ascending byte order (A1).
pub fn in_order(records: &[Record]) -> Vec<&Record> {
    let mut sorted_defs: Vec<&Record> = records.iter().collect();
    sorted_defs.sort_by(|a, b| b.name.len().cmp(&a.name.len()).then_with(|| a.name.as_bytes().cmp(b.name.as_bytes())));
    sorted_defs
}

/// Whether the unchanged Rust has one order only: no two names of two bytes or more have one length.
pub fn one_order(records: &[Record]) -> bool {
    let lengths: Vec<usize> = in_order(records).iter().map(|r| r.name.len()).filter(|&n| n > 1).collect();
    lengths.windows(2).all(|pair| pair[0] != pair[1])
}

/// The text with each `\text{` block held out, a numbered placeholder in its stead, and the blocks.
fn hold_out(input: &str) -> (String, Vec<String>) {
    let mut result = input.to_string();
    let mut text_blocks: Vec<String> = Vec::new();
    loop {
        if let Some(start) = result.find("\\text{") {
            let after_text = &result[start + 6..];
            if let Some(end) = crate::find_matching_brace(after_text) {
                let text_content = &result[start..=start + 6 + end];
                let placeholder = format!("\u{FFFE}{len}\u{FFFF}", len = text_blocks.len());
                text_blocks.push(text_content.to_string());
                result = format!(
                    "{}{}{}",
                    &result[..start],
                    placeholder,
                    &result[start + 6 + end + 1..]
                );
                continue;
            }
        }
        return (result, text_blocks);
    }
}

pub fn apply_definitions_outside_text(
    input: &str,
    records: &[Record],
    stages: &mut Stages,
) -> Result<String, Trouble> {
    let (mut result, text_blocks) = hold_out(input);
    for Record { name, latex } in in_order(records) {
        if name.len() == 1 {
            continue;
        }
        let replacement = format!("{latex}$1");
        result = with_pattern(name, |re| {
            re.replace_all(&result, replacement.as_str()).to_string()
        });
        let length = full_length(&result, DEFINITIONS_MARK, &text_blocks);
        stages.finished_length(&format!("definition {name}"), length)?;
    }

    if base_loses_block(&result, DEFINITIONS_MARK, &text_blocks) {
        stages.base_loses(DEFINITIONS_MARK, input);
    }
    stages.finished("definitions put back", in_full(&result, DEFINITIONS_MARK, &text_blocks))
}

/// The Rust's pattern for a name, compiled once.
fn with_pattern<T>(name: &str, use_it: impl FnOnce(&regex::Regex) -> T) -> T {
    thread_local! {
        static PATTERNS: RefCell<HashMap<String, regex::Regex>> = RefCell::new(HashMap::new());
    }
    PATTERNS.with(|patterns| {
        let mut patterns = patterns.borrow_mut();
        // Generated tables bring ever new names: start again before they fill the memory.
        if patterns.len() > 2_000 && !patterns.contains_key(name) {
            patterns.clear();
        }
        let re = patterns.entry(name.to_string()).or_insert_with(|| {
            let pattern = format!(r"\b{}([^a-zA-Z]|$)", regex::escape(name));
            regex::Regex::new(&pattern).expect("a name of letters and digits makes a pattern")
        });
        use_it(re)
    })
}
