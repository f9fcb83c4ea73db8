//! Formulas around the limits: 4,096 bytes, 8,192 symbols at a chosen stage, 64 rounds.

use super::judge::{roomy, typst_to_latex, Case, Stages, FORMULA_BYTES};
use super::pieces::CALLS;
use super::rng::Rng;
use super::table::{self, record_bytes};

/// A text that grows at one stage: `piece` again and again between `head` and `tail`. Where `pumped`, a definition writes
/// some 7,800 symbols first, so that the formula can be short.
pub struct Growth {
    pub stage: &'static str,
    pub head: &'static str,
    pub piece: &'static str,
    pub tail: &'static str,
    pub pumped: bool,
}

const fn early(stage: &'static str, head: &'static str, piece: &'static str, tail: &'static str) -> Growth {
    Growth { stage, head, piece, tail, pumped: false }
}

const fn late(stage: &'static str, head: &'static str, piece: &'static str, tail: &'static str) -> Growth {
    Growth { stage, head, piece, tail, pumped: true }
}

pub const GROWTHS: [Growth; 76] = [
    early("op", "", "op()", ""),
    early("cases", "cases(", "a,", "a)"),
    early("attach", "", "op()op()op()op()attach(,b:c)", ""),
    // 8,192 symbols before attach, more on the way, fewer when it ends: the last call drops its third argument.
    early("cases", "attach(,b:c)attach(,b:c)attach(,b:c)", "op()", "attach(,b:c,t:ddddddddddddddddddddddddddddddddddd)"),
    early("bb", "", "bb()", ""),
    early("bold", "", "op()bold()", ""),
    early("binom", "", "op()op()binom(,)", ""),
    early("upright", "upright(x)", "op()", ""),
    // The first upright drops blanks and quotes, but op was too long before it.
    early("op", "upright(              \"x\"            )", "op()", ""),
    early("floor(", "", "floor()", ""),
    early("ceil(", "", "ceil()", ""),
    early("abs(", "", "abs()", ""),
    early("cal(", "", "op()cal()", ""),
    early("frak(", "", "op()frak()", ""),
    early("upright(", "upright(upright(x))", "op()", ""),
    early("quotes", "", "\"\"+", ""),
    early("quotes", "", "op()+", "\"x"),
    // Blanks before an opening quote are dropped again.
    early("quotes", "", "\"\"+", "a                                                  \"b\""),
    late("definition ab", "", "ab+", ""),
    late("definition ab", "\\text{", "ab", "} ab"),
    late("definition ab", "\\text{qqqqqqqqqqqqqqqqqqqqqqqqqqqqqqqqqqqqqqqqqqqqqqqqqqqqqqqqqqqqqqqqq}", "\"ab\"+", "+ab"),
    late("definitions put back", "", "\\text{x}", "+"),
    // A typed number between blocks changes no length.
    late("definition ab", "\\text{a}\\text{b}0\\text{c}", "ab+", ""),
    late("sqrt", "", "sqrt()", ""),
    late("sqrt", "", "sqrt(", ""),
    late("sin(", "", "sin(", ""),
    late("Phi(", "", "Phi(", ""),
    late(">=", "", ">=", ""),
    late("<-", "", "<-+", ""),
    late("<<", "", "<<+", ""),
    late("epsilon", "", "epsilon+", ""),
    late("pi", "", "pi+", ""),
    late("mu", "\\text{x}", "mu+", ""),
    // A \mathrm block with a \text block inside is counted in full.
    late("mu", "\\mathrm{\\text{xxxxxxxxxxxxxxxxxxxxxxxx}yyyyyyyyyyyyyyyy}", "mu+", ""),
    late("mu", "\\mathrm{a}\\mathrm{b}0\\text{c}", "mu+", ""),
    late("pi", "infinity+infinity+infinity", "pi+", ""),
    late("xor", "", "xor+", ""),
    late("in", "", "in+", ""),
    late("...", "", "...+", ""),
    late("lcm", "integral+integral+integral", "lcm+", ""),
    late("mp", "", "mp+", ""),
    late("words put back", "\\text{in}\\mathrm{in}", "oo+", ""),
    late("Phi", "", "Phi+", ""),
    late("Psi", "", "\"Psi\"+", ""),
    late("_\\text{", "", "_\\text{}", ""),
    late("_", "", "_aa+", ""),
    late("^", "", "^aa+", ""),
    late("^\\text{", "", "^\"\"+", ""),
    late("round 1", "", "a/b+", ""),
    late("round 1", "", "a/b+", "x                                                        /y"),
    late("round 2", "", "a/(b/c)+", ""),
    late("round 3", "", "a/(b/(c/d))+", ""),
    // Within a round 9 comes before 5; 9 in the second round comes after 5 in the first.
    late("^", "", "a/b+", "+ a/abs(b \\/ c)"),
    late("round 1", "", "a/b+", "+ a/(b/abs(c \\/ d))"),
    late("braces", "", "+{}", ""),
    late("lr", "", "lr(||)", ""),
    // Within lr 8 comes before 5.
    late("braces", "", "lr(||)", "lr(|)"),
    late("sizing", "", "(\\sum)+", ""),
    late("sizing", "((\\frac{a}{b}))", "[\\int]+", ""),
    late("percent", "", "%", ""),
    late("alignment", "&", "+", ""),
    late("alignment", "", " \\\n", ""),
    // Shorter when all is done, but too long before.
    late("alignment", "", "\\alpha\\;", ""),
    // Blocks in blocks are counted in full, once.
    late("mu", "", "\\mathrm{a\\text{mu}}mu+", ""),
    late("words put back", "\\text{in}", "\\mathrm{\\text{}0\\text{}}oo+", ""),
    late("mp", "\\mathrm{", "\\text{mp}", "}mp"),
    late("Psi", "", "\\mathrm{Phi\\text{Psi}}1", ""),
    late("_\\text{", "", "_\\text{}\\text{}0\\text{}", ""),
    // Parentheses that a search passes over.
    early("op", "", "op(\")\")", ""),
    early("cases", "cases(", "\",)\",", "a)"),
    early("floor(", "", "floor(\"(\")", ""),
    // Slashes that are left for the next round. What is left meets 9 only in the next one, behind 5.
    late("round 2", "", "a/b/c+", ""),
    late("round 2", "", "(a/b)/c+", ""),
    late("round 3", "", "a/b/c/d+", ""),
    late("round 1", "", "a/b+", "+ a/b/abs(c \\/ d)"),
    late("round 3", "", "(a/(b/c))/d+", ""),
];

const PUMPS: usize = 31;
const PUMP: usize = 250;

fn pump_table() -> Vec<u8> {
    record_bytes(b"ab", &[b'z'; PUMP])
}

fn formula(growth: &Growth, pieces: usize, filler: usize) -> String {
    let pump = if growth.pumped { "ab+".repeat(PUMPS) } else { String::new() };
    let filler = "+".repeat(filler);
    format!("{pump}{}{}{}{filler}", growth.head, growth.piece.repeat(pieces), growth.tail)
}

/// The length of the text when the stage has ended, without any limit; None where another number comes first.
fn length_at(case: &Case, stage: &str) -> Option<usize> {
    let records = table::read(&case.table)?;
    let mut stages = Stages::new(usize::MAX);
    let formula = std::str::from_utf8(&case.formula).ok()?;
    let _ = typst_to_latex(formula, &records, case.display, case.field, &mut stages);
    stages.lengths.iter().rev().find(|(name, _)| name == stage).map(|(_, length)| *length)
}

/// A case whose text has `target` symbols when the stage ends, as nearly as the formula's limit allows.
pub fn growing(growth: &Growth, target: usize, display: bool) -> Case {
    let table = if growth.pumped { pump_table() } else { Vec::new() };
    let case = |pieces: usize, filler: usize| roomy(&formula(growth, pieces, filler), &table, display);
    let length = |pieces: usize, filler: usize| length_at(&case(pieces, filler), growth.stage).unwrap_or(0);
    let (two, four) = (length(2, 0), length(4, 0));
    let slope = (four.saturating_sub(two) / 2).max(1);
    let mut pieces = 2 + target.saturating_sub(two) / slope;
    pieces = pieces.min(4_000 / growth.piece.len());
    while pieces > 1 && length(pieces, 0) > target {
        pieces -= 1;
    }
    let filler = target.saturating_sub(length(pieces, 0));
    case(pieces, filler.min(4_096usize.saturating_sub(case(pieces, 0).formula.len())))
}

/// LaTeX with blocks, some in others.
pub const BLOCKS: [&str; 6] = [
    "\\mathrm{a\\text{b}}",
    "\\mathrm{\\text{}}0mu",
    "\\text{}1",
    "\\mathrm{\\text{}2\\text{}mu\\text{}}3mu",
    "\\mathrm{\\mathrm{phi\\text{psi}}}00mu",
    "\\mathrm{\\text{}\\text{}\\text{}\\text{}0\\text{}\\text{}1\\text{}\\text{}}",
];

/// A text of `target` symbols behind the words, with hundreds of blocks: the name `ab` again and again, which stands for `latex`.
/// A `mu` at the end of it grows by a symbol.
pub fn many_blocks(latex: &str, target: usize) -> Case {
    let width = latex.len() + usize::from(latex.ends_with("mu")) + 1;
    let formula = "ab+".repeat(target / width) + &"+".repeat(target % width);
    roomy(&formula, &record_bytes(b"ab", latex.as_bytes()), true)
}

/// Formulas of up to 4,096 bytes with hundreds of typed blocks, in a row and within each other.
pub fn typed_blocks() -> Vec<String> {
    let around = |open: &str, times: usize, inside: &str, close: &str| open.repeat(times) + inside + &close.repeat(times);
    vec![
        "upright(a \"b\")".repeat(292),
        "upright(a \"b\"c)0".repeat(256),
        "\\mathrm{a\\text{b}}0".repeat(215),
        "\\text{a}\\mathrm{b}1".repeat(215),
        format!("\\mathrm{{{}}}", "\"b\"7".repeat(620)),
        format!("\\mathrm{{{}}}", "\"\"".repeat(909)),
        around("\\mathrm{", 454, "\"mu\"mu", "}"),
        around("\\text{", 584, "mu", "}"),
        around("\\mathrm{\\text{", 255, "mu", "}}"),
        around("\\text{\\mathrm{", 255, "mu", "}}"),
        // The first `\text{` does not close, so that only `\mathrm{` blocks are held.
        "\\text{".to_string() + &"\\mathrm{mu\\text{0}}0mu".repeat(170),
        around("\\mathrm{\"a\"", 300, "mu", "}") + &"}mu".repeat(100),
        "\\text{a}\\text{b}".to_string() + &"1234567890".repeat(400) + "\\text{c}",
        "\\text{a}\\text{b}".to_string() + &"0".repeat(4_000) + "\\text{c}",
        (0..340).map(|number| format!("\\text{{}}{number}")).collect(),
        (0..340).rev().map(|number| format!("\\text{{}}{number}")).collect(),
    ]
}

/// Formulas of 4,096 bytes, by themselves and as the argument of each call: quotes alone, an even and an odd number of them (5
/// refuses most of these), and quoted parentheses.
pub fn many_quotes() -> Vec<String> {
    let mut formulas = Vec::new();
    for head in [""].into_iter().chain(CALLS) {
        let close = if head.is_empty() { "" } else { ")" };
        for (piece, end) in [("\"", ""), ("\"", "x"), ("\"))))))\"+", ""), ("\"(((,(((\"+", "")] {
            let room = FORMULA_BYTES - head.len() - end.len() - close.len();
            let quotes = piece.repeat(room / piece.len()) + &"+".repeat(room % piece.len());
            formulas.push(format!("{head}{quotes}{end}{close}"));
        }
    }
    formulas
}

/// Ways to nest a fraction in another, a round for each slash: the first six in the denominator, the next three in the numerator, then
/// chains, the last of which have a slash as numerator; the others have two slashes a level.
const NESTINGS: [(&str, &str); 18] = [
    ("a/(", ")"),
    ("a/{", "}"),
    ("a/b^{", "}"),
    ("a/b[", "]"),
    ("(a + b)/(c - ", ")"),
    ("a/b^2(", ")"),
    ("(", "/b)"),
    ("{", "/b}"),
    ("[", "/b]"),
    ("", "/b"),
    ("", " / (b)"),
    ("", "!/b"),
    ("{/", ""),
    ("//", ""),
    ("(", "/b)/c"),
    ("(a/", ")/b"),
    ("a/(", "/b)"),
    ("(", "/(c/d))"),
];
pub const WAYS: usize = NESTINGS.len();

/// From this way on a level has two slashes.
pub const TWO_SLASHES: usize = 14;

/// Formulas of 4,096 bytes or nearly so, all of slashes that rounds leave: 7 refuses the chains, 5 those that grow too fast, in the first
/// round or in a later one.
pub fn long_chains() -> Vec<String> {
    let around = |open: &str, times: usize, core: &str, close: &str| open.repeat(times) + core + &close.repeat(times);
    vec![
        "a/".repeat(2_047) + "b",
        "a / ".repeat(1_023) + "b",
        "/a".repeat(2_048),
        "x^2/".repeat(1_023) + "y",
        "f(x)/".repeat(819) + "y",
        "a!/".repeat(1_365) + "b",
        "a/-b/".repeat(819) + "c",
        "a//".repeat(1_365) + "b",
        "(a/b)/".repeat(682) + "c",
        "(a/b) /".repeat(585) + "c",
        "a/(b/c)/".repeat(511) + "d",
        "a/b/c ".repeat(682),
        "a/b/c + ".repeat(512),
        "a/b/c/d/e + ".repeat(341),
        "(a/b)/c ".repeat(512),
        around("(", 1_023, "a", "/b)"),
        around("(", 1_365, "a/b", ")"),
        around("[", 1_023, "a", "/b]"),
        around("{", 1_023, "a", "/b}"),
        around("a/(", 1_023, "a", ")"),
        around("(a/", 682, "a", ")/b"),
        around("a/(", 682, "a", "/b)"),
        around("a/(", 64, "a", ")") + &"/b".repeat(64),
        around("a/(", 63, "a/b", ")") + &"/b".repeat(64),
        format!("a/b{}/c{}/d", " ".repeat(2_000), "\n".repeat(2_000)),
        format!("a/b/{}c/d", "\t".repeat(4_000)),
        format!("a/b/{}", "/".repeat(4_000)),
        "}a/{".repeat(1_024),
        "}/a{}".repeat(819),
        "/a}".repeat(1_365),
    ]
}

/// Nested fractions with this many slashes around `core`.
pub fn nested(way: usize, slashes: usize, core: &str) -> String {
    let (open, close) = NESTINGS[way];
    format!("{}{core}{}", open.repeat(slashes), close.repeat(slashes))
}

/// Pieces that fill a formula of 4,096 bytes by themselves: deep openings, endless chains, texts that double.
pub const FILLERS: [&str; 24] = [
    "%", "}", "]", ">=", "_", "^", "(", "\\", "/", "{", "op(", "lr(", "\"", "abs(", "_(", "\"\" ", "x_(", "\\text{", "a/", "[",
    "&", "\\/", "\\;", " \\\n",
];

/// Openings, something tall, and as many closings: each pair is sized, one within the other.
pub fn sized(pairs: usize, filler: usize) -> String {
    format!("{}\\sum{}{}", "([".repeat(pairs / 2), "])".repeat(pairs / 2), "+".repeat(filler))
}

/// A formula of exactly this many bytes, from pieces that are cheap to judge.
pub fn formula_of(rng: &mut Rng, bytes: usize, end: &str) -> String {
    let piece = rng.pick(&["+", "a", "1", "x + ", "in ", "2pi ", "a b ", "\n", "f(x) "]);
    let mut text = piece.repeat(bytes / piece.len() + 1);
    text.truncate(bytes.saturating_sub(end.len()));
    text.push_str(end);
    text
}
