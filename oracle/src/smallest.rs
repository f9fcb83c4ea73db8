//! The shortest texts that the numbers 5 and 7 to 9 refuse, and under 6 those in which the Rust loses a block, with no definitions
//! and display on. Texts are tried shortest first: all of them up to 3 bytes, and behind that those made of the tokens that a
//! number is met with. 5 and 7 refuse long texts only, which are tried as pieces that stand again and again.

use super::fractions::{convert_regular_fractions, ROUNDS};
use super::judge::{typst_to_latex, Stages, STAGE_SYMBOLS};
use super::left::Done;
use super::sizing::ALL_TALL;
use super::table::is_own_byte;

/// Numbers, the tokens of their texts, and the most bytes that are tried.
const SEARCHES: [(&[u8], &[&str], usize); 4] = [
    (&[5, 7], &["/", "a", "}", "{", "(", ")"], 8),
    (&[6], &["\\mathrm{", "\\text{", "upright(", "\"", "}", ")", "0", "a"], 10),
    (&[8], &["lr(", "|", "[", "(", ")", "{", "}", "\\", "a", " "], 5),
    (&[9], &["abs(", "\\lvert", "\\rvert", "\\/", "a", "/", "(", ")", " "], 9),
];

pub fn smallest() -> bool {
    println!("5 by pairs of parentheses: {}", overgrown());
    println!("7 by pieces: {}", unsettled());
    let bytes: Vec<String> = (0..128).filter(|&b| is_own_byte(b)).map(|b| char::from(b).to_string()).collect();
    let bytes: Vec<&str> = bytes.iter().map(String::as_str).collect();
    println!("5 to 9 over all bytes: {}", shortest(&[5, 6, 7, 8, 9], &bytes, 3));
    for (numbers, tokens, most) in SEARCHES {
        println!("{numbers:?} over {tokens:?}: {}", shortest(numbers, tokens, most));
    }
    true
}

/// The first text that meets one of the numbers, and how many were tried.
fn shortest(numbers: &[u8], tokens: &[&str], most: usize) -> String {
    let (mut tried, mut found) = (0, None);
    for bytes in 0..=most {
        each(tokens, bytes, &mut String::new(), &mut |text| {
            tried += 1;
            let answer = number(text);
            if numbers.contains(&answer) {
                found = Some(format!("{text} meets {answer}, {bytes} bytes, the first of {tried} texts"));
            }
            found.is_some()
        });
        if let Some(first) = found {
            return first;
        }
    }
    format!("none up to {most} bytes, {tried} texts")
}

/// Visits the texts that are `text` and tokens of so many bytes more, until a visit says that it suffices.
fn each(tokens: &[&str], bytes: usize, text: &mut String, visit: &mut impl FnMut(&str) -> bool) -> bool {
    if bytes == 0 {
        return visit(text);
    }
    tokens.iter().filter(|token| token.len() <= bytes).any(|token| {
        text.push_str(token);
        let enough = each(tokens, bytes - token.len(), text, visit);
        text.truncate(text.len() - token.len());
        enough
    })
}

/// Nothing grows as fast as pairs of parentheses that sizing enlarges, one within the other, six symbols and a half for a byte: the
/// fewest bytes with a text of a few tokens within them, and how many such texts were tried.
fn overgrown() -> String {
    let around = |text: &str, pairs: usize| format!("{}{text}{}", "(".repeat(pairs), ")".repeat(pairs));
    let length = |text: &str| {
        let converted = typst_to_latex(text, &[], true, ALL_TALL, &mut Stages::new(usize::MAX));
        converted.map_or(0, |latex| latex.chars().count())
    };
    let (mut tried, mut best) = (0, (usize::MAX, String::new()));
    for bytes in 0..=4 {
        each(&["/", "a", "&", "\"", "%", "->", "sum", "^", " \\\n"], bytes, &mut String::new(), &mut |text| {
            tried += 1;
            let (eight, nine) = (length(&around(text, 8)), length(&around(text, 9)));
            // Each pair brings the same.
            let pairs = 8 + (STAGE_SYMBOLS + 1 - eight).div_ceil(nine.saturating_sub(eight).max(1));
            if 2 * pairs + bytes < best.0 && number(&around(text, pairs)) == 5 {
                best = (2 * pairs + bytes, format!("{pairs} pairs around {text:?}"));
            }
            false
        });
    }
    format!("{} meet 5, {} bytes, the fewest of {tried} texts", best.1, best.0)
}

/// A round takes away a slash, so 7 needs 65 of them. A chain has a slash and a letter for each: whether a piece that stands again and
/// again, with a token before and behind, makes as many rounds with fewer bytes, and how many such texts were tried.
fn unsettled() -> String {
    const TOKENS: [&str; 11] = ["/", "a", "{", "}", "(", ")", "[", "]", "^", "!", "\\"];
    let chain = "a/".repeat(ROUNDS + 1) + "a";
    let (mut tried, mut found) = (0, None);
    for bytes in 1..=4 {
        each(&TOKENS, bytes, &mut String::new(), &mut |piece| {
            for head in [""].into_iter().chain(TOKENS) {
                for tail in [""].into_iter().chain(TOKENS) {
                    tried += 1;
                    let text = |length: usize| format!("{head}{}{tail}", piece.repeat(length / bytes));
                    // Forty bytes tell whether it is worth while.
                    if 2 * rounds(&text(40)) + 1 > text(40).len() && number(&text(chain.len() - 3)) == 7 {
                        found = Some(text(chain.len() - 3));
                    }
                }
            }
            found.is_some()
        });
    }
    match found {
        Some(text) => format!("{text} meets 7, {} bytes, one of {tried} texts", text.len()),
        None => format!("a chain meets {}, {} bytes, and none of {tried} texts has fewer", number(&chain), chain.len()),
    }
}

/// How many rounds change a text of scripts and slashes alone.
fn rounds(text: &str) -> usize {
    let mut text = crate::convert_superscripts(&crate::convert_subscripts(text));
    for rounds in 0..=ROUNDS {
        match convert_regular_fractions(&text, &mut Done::default()) {
            Ok(next) if next != text => text = next,
            _ => return rounds,
        }
    }
    ROUNDS + 1
}

/// The number that refuses a text, 0 for none; 6 where the unchanged Rust loses a block, which nothing refuses any more.
fn number(formula: &str) -> u8 {
    let mut stages = Stages::new(STAGE_SYMBOLS);
    let converted = typst_to_latex(formula, &[], true, ALL_TALL, &mut stages);
    match stages.lost {
        // Where a parenthesis is passed over, the unchanged Rust has another text.
        Some(_) if !stages.passed_over => 6,
        _ => converted.err().map_or(0, |trouble| trouble.number),
    }
}
