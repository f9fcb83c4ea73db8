//! What generated formulas are stitched from: every name and pattern of the Rust, alone and nested.

use super::rng::Rng;
use super::word_tables::{FUNCTION_MAPPINGS, GREEK_LETTERS, OPERATOR_REPLACEMENTS, WORD_MAPPINGS};

pub const CALLS: [&str; 14] = [
    "op(", "cases(", "attach(", "bb(", "bold(", "binom(", "upright(", "floor(", "ceil(", "abs(", "cal(", "frak(",
    "sqrt(", "lr(",
];

/// Pieces with a meaning somewhere in the Rust that no table lists.
pub const PARTS: [&str; 82] = [
    "\\text{", "\\mathrm{", "\\text{a}", "\\mathrm{b}", "\\text{", "}", "{", "(", ")", "[", "]", "|", "\"", "\"", "_",
    "^", "_(", "^(", "_{", "^{", "_\\text{", "^\\text{", "/", "/", "\\/", "\\", "\\\\", " \\\n", " \\", "&", "%", "\\;",
    "\\,", ",", ", ", "b:", ", b: ", "\\lvert", "\\rvert", "\\left", "\\right", "\\left(", "\\right)", "\\lvert ",
    " \\rvert", "\\frac", "\\frac{a}{b}", "\\sum", "\\int", "\\sqrt", "\\binom", "Phi", "Psi", "\\Phi", "\\alpha", "\\sin(",
    " ", " ", "\n", "\t", ".", "1.5", ".5", "!", "-", "+", " + ", " - ", "'", ":", ";", "=", "<", ">", "*", "|)", "[)",
    "\\operatorname{", "\\mathbf{", "\\begin{cases}", "0", "\\mathit{",
];

pub fn letter(rng: &mut Rng) -> String {
    rng.pick(&["a", "b", "c", "x", "y", "n", "A", "Z", "f", "q"]).to_string()
}

pub fn digits(rng: &mut Rng) -> String {
    rng.pick(&["0", "1", "2", "7", "10", "12", "308", "2.5", "0.75"]).to_string()
}

/// A name of the Rust's tables, or one near it.
pub fn name(rng: &mut Rng) -> String {
    let name = match rng.below(6) {
        0 | 1 => rng.pick(&GREEK_LETTERS).0,
        2 | 3 => rng.pick(&WORD_MAPPINGS).0,
        4 => rng.pick(&["Phi", "Psi", "Pr", "lr", "op", "text", "mathrm", "frac"]),
        _ => rng.pick(&FUNCTION_MAPPINGS).0.trim_end_matches('('),
    };
    match rng.below(14) {
        0 => format!("{}{name}", rng.pick(&["x", "2", "_", "\\", "in"])),
        1 => format!("{name}{}", rng.pick(&["x", "2", "_", "'", ".", "in"])),
        2 => format!("{name}{}", rng.pick(&GREEK_LETTERS).0),
        _ => name.to_string(),
    }
}

pub fn atom(rng: &mut Rng) -> String {
    match rng.below(8) {
        0..=3 => letter(rng),
        4 | 5 => digits(rng),
        _ => name(rng),
    }
}

/// One piece for a soup: any pattern of the Rust, not closed.
pub fn piece(rng: &mut Rng) -> String {
    match rng.below(16) {
        0..=6 => rng.pick(&PARTS).to_string(),
        7 | 8 => rng.pick(&CALLS).to_string(),
        9 => rng.pick(&FUNCTION_MAPPINGS).0.to_string(),
        10 => rng.pick(&OPERATOR_REPLACEMENTS).0.to_string(),
        11 => name(rng),
        12 => digits(rng),
        13 => expression(rng, 1),
        _ => letter(rng),
    }
}

pub fn soup(rng: &mut Rng, most: usize) -> String {
    (0..rng.between(1, most)).map(|_| piece(rng)).collect()
}

/// A well formed expression of some depth, from every construction that the Rust knows.
pub fn expression(rng: &mut Rng, depth: usize) -> String {
    if depth == 0 {
        return atom(rng);
    }
    let deeper = |rng: &mut Rng| {
        let depth = rng.below(depth);
        expression(rng, depth)
    };
    match rng.below(24) {
        0 => fraction(rng, depth),
        1 if rng.once_in(3) => chain(rng, depth),
        1 => fraction(rng, depth),
        2 => format!("({})", deeper(rng)),
        3 => format!("({}{}{})", deeper(rng), joint(rng), deeper(rng)),
        4 => format!("{}_{}", atom(rng), script(rng, depth)),
        5 => format!("{}^{}", atom(rng), script(rng, depth)),
        6 => format!("{}_{}^{}", letter(rng), script(rng, depth), script(rng, depth)),
        7 | 8 => call(rng, depth),
        9 => format!("{}{})", rng.pick(&FUNCTION_MAPPINGS).0, deeper(rng)),
        10 => quoted(rng),
        11 => format!("{} {} {}", deeper(rng), quoted(rng), deeper(rng)),
        12 => block(rng, depth),
        13 => lr(rng, depth),
        14 => format!("[{}{}{}]", deeper(rng), rng.pick(&[", ", ",", " "]), deeper(rng)),
        15 => format!("{{{}}}", deeper(rng)),
        16 => format!("{}{}{}", deeper(rng), rng.pick(&[" \\\n", " &= ", "&", "%", "\\;", "\\/", " \\/ "]), deeper(rng)),
        17 => format!("{} {} {}", deeper(rng), rng.pick(&OPERATOR_REPLACEMENTS).0, deeper(rng)),
        18 => format!("{}({})", atom(rng), deeper(rng)),
        19 => format!("{}[{}]", atom(rng), deeper(rng)),
        20 => format!("\\left{}\\right{}", rng.pick(&["(", "[", "\\lvert "]), rng.pick(&[")", "]", "\\rvert"])),
        _ => format!("{}{}{}", deeper(rng), joint(rng), deeper(rng)),
    }
}

fn joint(rng: &mut Rng) -> &'static str {
    rng.pick(&[" + ", " - ", " ", " ", "+", "-", "", ", ", "/", " / "])
}

pub fn script(rng: &mut Rng, depth: usize) -> String {
    match rng.below(6) {
        0 | 1 => atom(rng),
        2 | 3 => format!("({})", expression(rng, depth - 1)),
        4 => quoted(rng),
        _ => format!("{{{}}}", expression(rng, depth - 1)),
    }
}

/// Numerators and denominators of every shape that the two searches tell apart.
pub fn operand(rng: &mut Rng, depth: usize) -> String {
    let inside = |rng: &mut Rng| expression(rng, depth - 1);
    match rng.below(16) {
        0..=2 => atom(rng),
        3 | 4 => format!("({})", inside(rng)),
        5 => format!("{}({})", atom(rng), inside(rng)),
        6 => format!("{}[{}]", atom(rng), inside(rng)),
        7 => format!("{}_({})", atom(rng), inside(rng)),
        8 => format!("{}^({})", atom(rng), inside(rng)),
        9 => format!("{}_{{{}}}({})", atom(rng), inside(rng), inside(rng)),
        10 => format!("{}^2{}{}{}", atom(rng), rng.pick(&["(", "["]), inside(rng), rng.pick(&[")", "]", ""])),
        11 => format!("({}){}", inside(rng), rng.pick(&["!", "!!", "^2", "^(3)", "^-1", "!^2", "^", "(y)"])),
        12 => call(rng, depth),
        13 => format!("abs({}{}{})", inside(rng), rng.pick(&["", "", " \\/ ", "/"]), inside(rng)),
        14 => format!("{}{{{}}}{{{}}}", atom(rng), inside(rng), inside(rng)),
        _ => inside(rng),
    }
}

pub fn fraction(rng: &mut Rng, depth: usize) -> String {
    let slash = rng.pick(&["/", "/", "/", " / ", "/ ", " /", "\\/", "//"]);
    format!("{}{slash}{}", operand(rng, depth), operand(rng, depth))
}

/// Slashes in a row, so that a round leaves some of them (A4): behind each other, in numerators and denominators, with signs, calls and
/// factorials between them, and not closed.
pub fn chain(rng: &mut Rng, depth: usize) -> String {
    const SLASHES: [&str; 14] =
        ["/", "/", "/", "/", "/", "/", "/", " / ", "/ ", " /", "\t/\n", "/ \n\t ", "//", "/\\/"];
    let mut text = link(rng, depth);
    for _ in 0..rng.between(1, 4) {
        text.push_str(rng.pick(&SLASHES));
        text.push_str(&link(rng, depth));
    }
    if rng.once_in(4) {
        const AROUND: [(&str, &str); 12] = [
            ("(", ")"), ("[", "]"), ("{", "}"), ("f(", ")"), ("x_(", ")"), ("x^(", ")"), ("x_(y_(", "))"), ("sqrt(", ")"),
            ("abs(", ")"), ("lr((", "))"), ("\"", "\""), ("(", "]"),
        ];
        let (open, close) = rng.pick(&AROUND);
        text = format!("{open}{text}{close}{}{}", rng.pick(&SLASHES), link(rng, depth));
    }
    text
}

/// What stands between two slashes.
fn link(rng: &mut Rng, depth: usize) -> String {
    const SIGNS: [&str; 20] = [
        "", " ", "-", "+", ",", "!", "^", "_", "'", "|", "=", ".", "\\", "&", "%", "-c", "+ c", "! c", " - ", "\\/",
    ];
    const ENDS: [&str; 16] =
        ["!", "!!", "^2", "_1", "^(2)", "_(12)", "_1^2", "^(a/b)", "_(a/b)", "^-1", "'", "(x)", "[x]", "{x}", " c", " + c"];
    const UNMATCHED: [&str; 14] =
        ["(a", "a)", "[a", "a]", "{a", "a}", "}", "{", "a}b{c}", "a}b{c", ")(", "}{", "[}", "{]"];
    const BARS: [&str; 8] = [
        "abs(x)", "abs(x \\/ y)", "abs(x/y)", "abs(\\/)^2", "2abs(x \\/ y)", "\\lvert x \\/", "\\lvert \\/ \\rvert", "(abs(x \\/ y))",
    ];
    match rng.below(32) {
        0 | 1 if depth > 0 => format!("({})", chain(rng, depth - 1)),
        2 if depth > 0 => format!("({} + {})", atom(rng), chain(rng, depth - 1)),
        3 if depth > 0 => format!("{}({})", letter(rng), chain(rng, depth - 1)),
        4 if depth > 0 => format!("{}[{}]", rng.pick(&["", "x"]), chain(rng, depth - 1)),
        5 if depth > 0 => format!("{}{{{}}}", rng.pick(&["", "x", "x_", "x^", "\\text"]), chain(rng, depth - 1)),
        6 if depth > 0 => operand(rng, depth),
        7 if depth > 0 => call(rng, depth),
        8 | 9 => rng.pick(&SIGNS).to_string(),
        10..=12 => letter(rng) + rng.pick(&ENDS),
        13 => rng.pick(&UNMATCHED).to_string(),
        14 => rng.pick(&BARS).to_string(),
        15 => rng.pick(&["\\frac{a}{b}", "\"u\"", "a\\/b", "(a)(b)", "a b", "()", "(a)!", "(a)^2", "f(x)"]).to_string(),
        16..=18 => atom(rng),
        _ => letter(rng),
    }
}

pub fn call(rng: &mut Rng, depth: usize) -> String {
    let inside = |rng: &mut Rng| expression(rng, depth - 1);
    let head = rng.pick(&CALLS);
    match head {
        "op(" | "upright(" => match rng.below(4) {
            0 => format!("{head}\"{}\")", atom(rng)),
            1 => format!("{head} \"{}\" )", atom(rng)),
            2 => format!("{head} {} )", inside(rng)),
            _ => format!("{head}{})", inside(rng)),
        },
        "cases(" => {
            let branches: Vec<String> = (0..rng.between(1, 4)).map(|_| inside(rng)).collect();
            format!("{head}{})", branches.join(rng.pick(&[", ", ",", ", ,", ",\n"])))
        }
        "attach(" => match rng.below(5) {
            0 => format!("{head}{}, t: {}, b: {})", inside(rng), atom(rng), inside(rng)),
            1 => format!("{head}{}, b: {}, t: {})", inside(rng), inside(rng), atom(rng)),
            2 => format!("{head}{}, b: {}\\, {})", inside(rng), atom(rng), inside(rng)),
            3 => format!("{head}{})", inside(rng)),
            _ => format!("{head}{}, b: {})", inside(rng), inside(rng)),
        },
        "binom(" => format!("{head}{}{}{})", inside(rng), rng.pick(&[", ", ",", " "]), inside(rng)),
        "lr(" => lr(rng, depth),
        _ => format!("{head}{})", inside(rng)),
    }
}

pub fn lr(rng: &mut Rng, depth: usize) -> String {
    let open = rng.pick(&["|", "[", "(", "{", "", "x", " |"]);
    let close = rng.pick(&["|", "]", ")", "}", "", "x", "|"]);
    let inside = if rng.once_in(5) { String::new() } else { expression(rng, depth - 1) };
    format!("lr({open}{inside}{close})")
}

pub fn quoted(rng: &mut Rng) -> String {
    match rng.below(8) {
        0 => "\"\"".to_string(),
        1 => format!("\"{} {}\"", atom(rng), atom(rng)),
        2 => format!("\"{}", atom(rng)),
        3 => format!("\" {} \"", name(rng)),
        _ => format!("\"{}\"", atom(rng)),
    }
}

pub fn block(rng: &mut Rng, depth: usize) -> String {
    let command = rng.pick(&["\\text{", "\\text{", "\\mathrm{", "\\mathbf{", "\\operatorname{"]);
    format!("{command}{}{}", expression(rng, depth - 1), rng.pick(&["}", "}", "}", "}", "", "}}"]))
}

/// Blocks in a row with numbers between them, the riddles of the put-back.
pub fn held(rng: &mut Rng) -> String {
    let mut text = String::new();
    for _ in 0..rng.between(2, 7) {
        match rng.below(12) {
            0..=4 => text.push_str(&format!("\\text{{{}}}", letter(rng))),
            5 | 6 => text.push_str(&format!("\\mathrm{{{}}}", letter(rng))),
            7 => text.push_str(&format!("\\mathrm{{{}\\text{{{}}}}}", letter(rng), letter(rng))),
            8 => text.push_str(&format!("\\text{{\\mathrm{{{}}}}}", name(rng))),
            9 => text.push_str(rng.pick(&["\\text{", "\\mathrm{", "}", "{", " "])),
            10 => text.push_str(&quoted(rng)),
            _ => text.push_str(&atom(rng)),
        }
        if rng.once_in(2) {
            text.push_str(&rng.below(5).to_string());
        }
        if rng.once_in(9) {
            text.push_str(rng.pick(&["zero", "ab", "one", " "]));
        }
    }
    text
}

/// Names between blocks that a table may define (`tables::of_blocks`), of different lengths, so that the Rust has one order.
pub const BLOCK_NAMES: [&str; 4] = ["ab", "one", "zero", "units"];

/// Blocks in blocks, by commands, `upright` and quotes, some not closed, with numbers and names between them.
pub fn enclosed(rng: &mut Rng, depth: usize) -> String {
    let mut text = between(rng);
    for _ in 0..rng.between(1, 3) {
        let inside = if depth == 0 { between(rng) } else { enclosed(rng, depth - 1) };
        text.push_str(&match rng.below(18) {
            0..=4 => format!("\\mathrm{{{inside}}}"),
            5..=7 => format!("\\text{{{inside}}}"),
            8..=11 => format!("upright({inside})"),
            12 => format!("{}{inside}", rng.pick(&["\\mathrm{", "\\text{", "upright(", "{", "\""])),
            13 => format!("{inside}{}", rng.pick(&["}", ")", "\""])),
            _ => quoted(rng),
        });
        text.push_str(&between(rng));
    }
    text
}

/// What stands between blocks: often a number, which may be that of a block.
fn between(rng: &mut Rng) -> String {
    match rng.below(12) {
        0..=2 => rng.below(6).to_string(),
        3 => rng.pick(&["00", "01", "10", "11", "007", "65536", "4294967297", "18446744073709551616"]).to_string(),
        4 => rng.pick(&["_", "^", "/", " + ", " ", "\\/", "x_", "y^"]).to_string(),
        5 => rng.pick(&BLOCK_NAMES).to_string(),
        6 => name(rng),
        7 | 8 => letter(rng),
        _ => String::new(),
    }
}

/// Calls with quotes in them and around them, nested and broken. In most a search passes over a parenthesis.
pub fn quoted_calls(rng: &mut Rng, depth: usize) -> String {
    let mut text = String::new();
    for _ in 0..rng.between(1, 2) {
        if rng.once_in(3) {
            text.push_str(&label(rng));
        }
        text.push_str(&quoted_call(rng, depth));
        text.push_str(rng.pick(&["", "", " ", " + ", "/2", "\"", ")", ","]));
    }
    text
}

fn quoted_call(rng: &mut Rng, depth: usize) -> String {
    // The last two, roots and `lr`, pass over nothing.
    let head = if rng.once_in(12) { rng.pick(&CALLS[12..]) } else { rng.pick(&CALLS[..12]) };
    let mut text = head.to_string() + &quoted_argument(rng, depth);
    match head {
        "cases(" => {
            for _ in 0..rng.below(3) {
                text = text + rng.pick(&[",", ", ", " , "]) + &quoted_argument(rng, depth);
            }
        }
        "attach(" => text = text + rng.pick(&[", b: ", ", b: ", ",b:", ", t: x, b: ", " b: "]) + &quoted_argument(rng, depth),
        "binom(" => text = text + rng.pick(&[",", ", ", ", ", " "]) + &quoted_argument(rng, depth),
        _ => {}
    }
    text + rng.pick(&[")", ")", ")", ")", ")", ")", " )", "))", "", "\")"])
}

fn quoted_argument(rng: &mut Rng, depth: usize) -> String {
    let mut text = String::new();
    for _ in 0..rng.between(1, 3) {
        text.push_str(&match rng.below(16) {
            0..=8 => label(rng),
            9 if depth > 0 => quoted_call(rng, depth - 1),
            10 if depth > 0 => format!("({})", quoted_argument(rng, depth - 1)),
            11 => rng.pick(&["\"", "(", ")", "[", "]", "{", "}", ",", "\\", "\\,", "\\\""]).to_string(),
            12 => " ".to_string(),
            13 => atom(rng),
            _ => letter(rng),
        });
    }
    text
}

/// Quoted text, some of it without its first or last quote.
pub fn label(rng: &mut Rng) -> String {
    const PARTS: [&str; 24] = [
        ")", ")", ")", ")", ")", "(", "(", "(", "(", "()", ")(", ",", ",", "[", "]", "{", "}", " ", "\\", "\\/", "a", "b", "x",
        "b:",
    ];
    let mut text: String = (0..rng.between(1, 5)).map(|_| rng.pick(&PARTS)).collect();
    if rng.once_in(12) {
        text.push_str(rng.pick(&CALLS));
    }
    match rng.below(16) {
        0 => format!("\"{text}"),
        1 => format!("{text}\""),
        2 => format!("\"{text}\\\""),
        _ => format!("\"{text}\""),
    }
}

/// Some small damage: a piece cut out, doubled, moved in, or the end cut off.
pub fn mutate(rng: &mut Rng, text: &str) -> String {
    let mut symbols: Vec<char> = text.chars().collect();
    for _ in 0..rng.between(1, 4) {
        let at = rng.below(symbols.len() + 1);
        let width = rng.between(1, 4).min(symbols.len() - at);
        match rng.below(6) {
            0 | 1 => drop(symbols.drain(at..at + width)),
            2 => {
                let copy = symbols[at..at + width].to_vec();
                symbols.splice(at..at, copy);
            }
            3 => symbols.truncate(at),
            _ => drop(symbols.splice(at..at, piece(rng).chars())),
        }
    }
    symbols.into_iter().collect()
}
