//! Functions of the Rust, each by itself, on lines of standard input: what the program `stage_lines` has to write. A line that
//! begins with `#` is a heading, and begins the next section. The byte 01 stands for the solidus mark. The call rewritings
//! and their searches are the test copy's (A8), the rounds of fractions the judge's (A4), the others are the Rust's own.

use super::super as rust;
use super::judge::{Stages, Trouble, STAGE_SYMBOLS};
use super::veil::veiled;
use super::{fractions, grammar, words};
use crate::changed as copy;
use std::io::BufRead;

pub fn stages() -> bool {
    let mut section = 0;
    for line in std::io::stdin().lock().lines() {
        let line = line.expect("a line of text").replace('\u{1}', rust::LITERAL_SOLIDUS);
        if line.starts_with('#') {
            section += 1;
            println!("{line}");
        } else {
            println!("{}", answer(section, &line).replace(rust::LITERAL_SOLIDUS, "\u{1}"));
        }
    }
    true
}

fn answer(section: usize, s: &str) -> String {
    match section {
        1 => copy::convert_op(s),
        2 => copy::convert_cases(s),
        3 => copy::convert_attach(s),
        4 => copy::convert_bb(s),
        5 => copy::convert_bold(s),
        6 => copy::convert_binom(s),
        7 => copy::convert_upright(s),
        8 => copy::convert_floor_ceil_abs(s),
        9 => rust::convert_text_quotes(s),
        10 => rust::convert_sqrt(s),
        11 => rust::convert_greek_capitals(s),
        12 => rust::convert_subscripts(s),
        13 => rust::convert_superscripts(s),
        14 => text_or_refusal(fractions::convert_fractions(s, &mut Stages::new(STAGE_SYMBOLS))),
        15 => rust::escape_set_braces(s),
        16 => text_or_refusal(words::refuse_bare_delimiter(s).map(|()| rust::convert_lr(s))),
        17 => rust::size_delimiters_to_content(s),
        18 => rust::convert_alignment(s),
        19 => rust::drop_thin_space_after_commands(s),
        20 => place(rust::find_matching_paren(s)),
        21 => place(rust::find_matching_brace(s)),
        22 => place(rust::matching_delimiter(s, 0, '(', ')')),
        23 => place(copy::find_comma_in_args(s)),
        24 => place(rust::find_unescaped_comma(s)),
        25 => copy::split_top_level_commas(&veiled(s))[0].len().to_string(),
        26 => place(copy::find_matching_paren(s)),
        _ => grammar::parse(s).map_or("no".into(), |sum| sum.atoms().to_string()),
    }
}

fn text_or_refusal(converted: Result<String, Trouble>) -> String {
    converted.unwrap_or_else(|trouble| format!("refused {}", trouble.number))
}

fn place(found: Option<usize>) -> String {
    found.map_or("nothing".into(), |at| at.to_string())
}
