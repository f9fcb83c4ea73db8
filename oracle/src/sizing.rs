//! `size_delimiters_to_content` with the tall field (A13). The transcribed lines come from `math_conv.rs` (MIT licence, see
//! judge.rs), but for the commands that count.

use std::fmt::Write;

/// The field's first digit, the most significant one, is that of the first command.
const TALL: [&str; 5] = ["\\frac", "\\sqrt", "\\binom", "\\sum", "\\int"];

/// Under this field all five count, as in the Rust.
pub const ALL_TALL: u32 = 31;

/// The commands that count as tall, by the binary digits of a field of at most 31.
pub fn tall_commands(field: u32) -> Vec<&'static str> {
    let digits = format!("{field:05b}");
    TALL.into_iter().zip(digits.chars()).filter(|&(_, digit)| digit == '1').map(|(command, _)| command).collect()
}

/// The text with its delimiters sized where one of the commands stands between them. `left_small` becomes true where delimiters stay as
/// they are which the unchanged Rust sizes.
pub fn size_delimiters_to_content(input: &str, commands: &[&str], left_small: &mut bool) -> String {
    let bytes = input.as_bytes();
    let mut result = String::with_capacity(input.len());
    let mut i = 0;
    while i < input.len() {
        let c = input[i..].chars().next().expect("i is a char boundary");
        let script_group = ((c == '_' || c == '^') && bytes.get(i + 1) == Some(&b'{'))
            .then(|| crate::matching_delimiter(input, i + 1, '{', '}'))
            .flatten();
        if let Some(end) = script_group {
            result.push_str(&input[i..=end]);
            i = end + 1;
            continue;
        }
        let closing = match c {
            '(' => Some(')'),
            '[' => Some(']'),
            _ => None,
        };
        let already_sized = result.ends_with("\\left") || result.ends_with("\\right");
        if let (Some(close), false, Some(end)) =
            (closing, already_sized, closing.and_then(|close| crate::matching_delimiter(input, i, c, close)))
        {
            let inner = &input[i + 1..end];
            if commands.iter().any(|t| inner.contains(t)) {
                let sized = size_delimiters_to_content(inner, commands, left_small);
                let _ = write!(result, "\\left{c}{sized}\\right{close}");
                i = end + 1;
                continue;
            }
            *left_small |= TALL.iter().any(|t| inner.contains(t));
        }
        result.push(c);
        i += c.len_utf8();
    }
    result
}
