//! The families of cases. A case depends on its family, the seed and its index alone.

use super::judge::{judge, roomy, Case, FORMULA_BYTES, STAGE_SYMBOLS, WORK_BYTES};
use super::rng::Rng;
use super::sizing::ALL_TALL;
use super::table::{record_bytes, Form};
use super::{lengths, pieces, plain, tables, tall_cases, traps};
use super::word_tables::{FUNCTION_MAPPINGS, GREEK_LETTERS, OPERATOR_REPLACEMENTS, WORD_MAPPINGS};

/// Number, name, and how often a generated case is of this family (0: written by hand, see traps.txt; of the last three a
/// part is).
pub const FAMILIES: [(u8, &str, usize); 32] = [
    (0, "document", 0),
    (1, "readings", 0),
    (2, "order", 0),
    (3, "held", 0),
    (4, "scripts", 0),
    (5, "fractions", 0),
    (6, "finish", 0),
    (7, "together", 0),
    (8, "names", 400),
    (9, "expressions", 2_000),
    (10, "soup", 2_000),
    (11, "mutated", 1_800),
    (12, "bytes", 300),
    (13, "calls", 700),
    (14, "quotients", 1_500),
    (15, "blocks", 900),
    (16, "finishing", 600),
    (17, "plain", 700),
    (18, "near plain", 400),
    (19, "defined", 1_400),
    (20, "tables", 200),
    (21, "long", 10),
    (22, "growth", 12),
    (23, "rounds", 60),
    (24, "two refusals", 80),
    (25, "buffers", 500),
    (26, "equal lengths", 600),
    (27, "enclosed", 700),
    (28, "quoted", 700),
    (29, "wide", 700),
    (30, "chains", 1_200),
    (31, "tall", 1_200),
];

pub fn family_number(name: &str) -> Option<u8> {
    FAMILIES.iter().find(|family| family.1 == name).map(|family| family.0)
}

/// A case of any generated family, the frequent ones more often; under a field of any value in half of the cases.
pub fn any(seed: u64, index: u64) -> (u8, Case) {
    let mut rng = Rng::new(seed, index);
    let all = FAMILIES.iter().map(|family| family.2).sum();
    let mut at = rng.below(all);
    let mut number = 0;
    for (family, _, often) in FAMILIES {
        if at < often {
            number = family;
            break;
        }
        at -= often;
    }
    let mut case = of_family(number, &mut rng, 5);
    if rng.once_in(2) {
        case.field = field(&mut rng);
    }
    (number, case)
}

/// Any of 0 to 31 alike, now and then a greater one, also one that a byte would cut to 0 or 31.
fn field(rng: &mut Rng) -> u32 {
    match rng.below(25) {
        0 => rng.pick(&[32, 33, 47, 63, 64, 128, 255, 256, 256 + ALL_TALL, 1 << 16, u32::MAX - ALL_TALL, u32::MAX]),
        _ => rng.below(32) as u32,
    }
}

/// A case of one family; `depth` bounds how deep expressions nest.
pub fn of_family(family: u8, rng: &mut Rng, depth: usize) -> Case {
    let deep = rng.between(1, depth);
    let formula = match FAMILIES[usize::from(family)].1 {
        "names" => names(rng),
        "expressions" => pieces::expression(rng, deep),
        "soup" => pieces::soup(rng, 3 * depth),
        "mutated" => mutated(rng, deep),
        "bytes" => return bytes(rng, 12 * depth),
        "calls" => (0..rng.between(1, 3)).map(|_| pieces::call(rng, deep)).collect(),
        "quotients" => quotients(rng, deep),
        "blocks" => pieces::held(rng),
        "finishing" => finishing(rng, deep),
        "plain" => plain::plain(rng, deep),
        "near plain" => near_plain(rng, deep),
        "defined" => return defined(rng, tables::good, deep),
        "equal lengths" => return defined(rng, tables::of_one_length, deep),
        "enclosed" => return enclosed(rng, deep),
        "quoted" => return quoted(rng, deep),
        "tables" => return with_fault(rng, deep, Form::Narrow),
        "wide" => return wide(rng, deep),
        "long" => return long(rng),
        "growth" => return growth(rng),
        "rounds" => return rounds(rng),
        "chains" => return chains(rng, deep),
        "tall" => return tall_cases::generated(rng, deep),
        "two refusals" => return two_refusals(rng, Form::Narrow),
        "buffers" => return buffers(rng, deep),
        _ => unreachable!("written by hand"),
    };
    usual(rng, formula.into_bytes())
}

/// Mostly no records, display on and room enough. What nested too richly is cut.
fn usual(rng: &mut Rng, mut formula: Vec<u8>) -> Case {
    formula.truncate(1_500);
    let table = if rng.once_in(12) { tables::good(rng) } else { Vec::new() };
    let output = if rng.once_in(30) { rng.below(40) } else { STAGE_SYMBOLS };
    Case { formula, table, display: !rng.once_in(4), field: ALL_TALL, work: WORK_BYTES, output }
}

pub fn entry_names() -> Vec<&'static str> {
    let rows = FUNCTION_MAPPINGS.iter().chain(&OPERATOR_REPLACEMENTS).chain(&GREEK_LETTERS).chain(&WORD_MAPPINGS);
    let mut names: Vec<&str> = rows.map(|row| row.0).collect();
    names.extend(["Phi", "Psi"]);
    names.extend(pieces::CALLS);
    names
}

/// One entry of the Rust's tables with neighbours on both sides.
pub fn name_among_neighbours(name: &str, neighbours: usize) -> String {
    let close = if name.ends_with('(') { ")" } else { "" };
    match neighbours {
        0 => format!("{name}{close}"),
        1 => format!("{name}x{close} x{name}{close} 2{name}{close} _{name}2{close}"),
        2 => format!("\\{name}x{close} {name}2{close} {name}_1{close} {name}'{close}/{name}{close}"),
        3 => format!("\"{name}{close}\" \\text{{{name}{close}}} \\mathrm{{{name}{close}}} \\/{name}{close}\\/"),
        _ => format!("{name}{name}{close}{close}.{name}.{close}({name}){close}{name}"),
    }
}

fn names(rng: &mut Rng) -> String {
    let entries = entry_names();
    let mut text = String::new();
    for _ in 0..rng.between(1, 5) {
        if rng.once_in(3) {
            let neighbours = rng.below(5);
            text.push_str(&name_among_neighbours(rng.pick(&entries), neighbours));
        } else {
            text.push_str(rng.pick(&entries));
        }
        text.push_str(rng.pick(&["", " ", "x", "_", "\\", "2", ".", "(", ")", "\\/", "\"", "^"]));
    }
    text
}

fn mutated(rng: &mut Rng, deep: usize) -> String {
    // What is said about wide tables is in the tables, not in the formulas.
    let hand: Vec<_> = traps::lines().into_iter().filter(|line| FAMILIES[usize::from(line.family)].1 != "wide").collect();
    let text = match rng.below(5) {
        0 | 1 => rng.pick(&hand).formula.clone(),
        2 => rng.pick(&hand).formula.clone() + &rng.pick(&hand).formula,
        3 => pieces::held(rng),
        _ => pieces::expression(rng, deep),
    };
    pieces::mutate(rng, &text)
}

fn bytes(rng: &mut Rng, most: usize) -> Case {
    let odd = rng.pick(&[0, 0, 1, 40]);
    let any = |rng: &mut Rng| rng.below(256) as u8;
    let formula = (0..rng.between(1, most))
        .map(|_| if rng.below(100) < odd { any(rng) } else { rng.pick(b" \t\n()[]{}/\\\"_^|&%,.;:abx01lr+-!") })
        .collect();
    let mut case = usual(rng, formula);
    if rng.once_in(12) {
        case.table = (0..rng.below(20)).map(|_| any(rng)).collect();
    }
    case
}

/// Some damage, or a bare chain.
fn near_plain(rng: &mut Rng, deep: usize) -> String {
    let text = plain::plain(rng, deep);
    match rng.below(5) {
        0 => format!("{text}/{}", plain::plain(rng, 1)),
        1 => format!("({text})/b/{}", plain::plain(rng, 0)),
        _ => pieces::mutate(rng, &text),
    }
}

fn quotients(rng: &mut Rng, deep: usize) -> String {
    let mut text = pieces::fraction(rng, deep);
    for _ in 0..rng.below(4) {
        text.push_str(rng.pick(&["/", " / ", " + ", " ", "/(", "}/", ")/", "]/", "\\/"]));
        text.push_str(&pieces::operand(rng, deep));
    }
    if rng.once_in(4) {
        let (open, close) = (["{", "x_(y_(", "(", "[", "x^{", " "], ["}", "))", ")", "]", "}/c", ""]);
        text = format!("{}{text}{}", rng.pick(&open), rng.pick(&close));
    }
    text
}

/// Braces, `lr`, brackets, percent, rows and thin spaces, closed and not.
fn finishing(rng: &mut Rng, deep: usize) -> String {
    let parts = [
        "{", "}", "\\{", "lr(", "lr(|", "lr([", "|)", "(", ")", "[", "]", "%", "&", " \\\n", " \\", "\\;", "\\left",
        "\\right", "\\frac{a}{b}", "\\sum", "_{", "^{", "\\alpha", "\\text{a}", "a", "1", " ", "\"b\"", "\\mathrm{x}", "}",
    ];
    let mut text = String::new();
    for _ in 0..rng.between(1, 12) {
        if rng.once_in(8) {
            text.push_str(&pieces::expression(rng, deep));
        } else {
            text.push_str(rng.pick(&parts));
        }
    }
    text
}

fn defined(rng: &mut Rng, table: fn(&mut Rng) -> Vec<u8>, deep: usize) -> Case {
    let table = table(rng);
    let names = tables::names(&table);
    let mut text = String::new();
    for _ in 0..rng.between(1, 6) {
        match rng.below(5) {
            0..=2 if !names.is_empty() => text.push_str(&names[rng.below(names.len())]),
            3 => text.push_str(&pieces::held(rng)),
            _ => text.push_str(&pieces::expression(rng, deep)),
        }
        text.push_str(rng.pick(&["", " ", "/", "(", ")", "_", "\\", "1", "\"", "\\/", "x", "\\text{", "}"]));
    }
    Case { table, ..usual(rng, text.into_bytes()) }
}

/// Blocks in blocks, at times with definitions that bring in more of them; seldom as many as a text holds.
fn enclosed(rng: &mut Rng, deep: usize) -> Case {
    if rng.once_in(80) {
        let latex = rng.pick(&lengths::BLOCKS);
        return lengths::many_blocks(latex, rng.between(STAGE_SYMBOLS - 1, STAGE_SYMBOLS + 1));
    }
    let table = if rng.once_in(3) { tables::of_blocks(rng) } else { Vec::new() };
    let formula = pieces::enclosed(rng, deep).into_bytes();
    Case { table, ..usual(rng, formula) }
}

/// Calls with parentheses between quotes; seldom as many quotes as a formula holds.
fn quoted(rng: &mut Rng, deep: usize) -> Case {
    if rng.once_in(150) {
        let all = lengths::many_quotes();
        let formula = all[rng.below(all.len())].clone().into_bytes();
        return Case { formula, ..usual(rng, Vec::new()) };
    }
    let mut text = pieces::quoted_calls(rng, deep);
    if rng.once_in(8) {
        text = pieces::mutate(rng, &text);
    }
    if rng.once_in(5) {
        // Behind the calls only definitions bring quotes, which no search passes over.
        let table = record_bytes(b"gain", pieces::label(rng).as_bytes());
        let uses = ["lr((gain))", "lr(gain)", "lr(|gain|)", "lr([gain", "sqrt(gain)", "x_(gain)", "(gain)/2", "a/(gain)"];
        text.push_str(rng.pick(&uses));
        return Case { table, ..usual(rng, text.into_bytes()) };
    }
    usual(rng, text.into_bytes())
}

/// Wide tables: good ones of every kind written in this form, longer ones, faulty ones, and with other refusals.
fn wide(rng: &mut Rng, deep: usize) -> Case {
    let case = match rng.below(16) {
        0..=2 => return with_fault(rng, deep, Form::Wide),
        3 => return two_refusals(rng, Form::Wide),
        4 | 5 => return defined(rng, tables::long, deep),
        6..=8 => Case { table: tables::of_blocks(rng), ..enclosed(rng, deep) },
        9 | 10 => defined(rng, tables::of_one_length, deep),
        _ => defined(rng, tables::good, deep),
    };
    Case { table: tables::widened(&case.table), ..case }
}

fn with_fault(rng: &mut Rng, deep: usize, form: Form) -> Case {
    let mut fault = rng.below(tables::faults(form));
    // Tables of the greatest size are few.
    if matches!(fault, 10 | 13) && !rng.once_in(10) {
        fault = 7;
    }
    let table = tables::faulty(rng, fault, form);
    let formula = pieces::expression(rng, deep).into_bytes();
    Case { table, ..usual(rng, formula) }
}

fn long(rng: &mut Rng) -> Case {
    let bytes = rng.between(FORMULA_BYTES - 2, FORMULA_BYTES + 2);
    let end = rng.pick(&["", "\u{1}", "a/b", "\"", "\\text{", "lr(|)", "(a/b)", "&"]);
    let formula = lengths::formula_of(rng, bytes, end).into_bytes();
    Case { formula, ..usual(rng, Vec::new()) }
}

fn growth(rng: &mut Rng) -> Case {
    let growth = &lengths::GROWTHS[rng.below(lengths::GROWTHS.len())];
    let target = rng.between(STAGE_SYMBOLS - 1, STAGE_SYMBOLS + 1);
    lengths::growing(growth, target, !rng.once_in(3))
}

fn rounds(rng: &mut Rng) -> Case {
    let core = rng.pick(&["a/a", "a", "a/abs(b \\/ c)", "a/b/c", "{a/b}/c", "(a/b)/(c/d)", "lr(|)"]);
    let slashes = rng.pick(&[2, 5, 30, 31, 32, 33, 44, 61, 62, 63, 64, 65, 66]);
    let mut formula = lengths::nested(rng.below(lengths::WAYS), slashes, core);
    if rng.once_in(3) {
        // In several ways, one within the other.
        let inner = lengths::nested(rng.below(lengths::WAYS), slashes / 2, core);
        formula = lengths::nested(rng.below(lengths::WAYS), slashes - slashes / 2, &inner);
    }
    Case { formula: formula.into_bytes(), ..usual(rng, Vec::new()) }
}

/// Chains of slashes, some of them by definitions that bring slashes; seldom as many as a formula holds.
fn chains(rng: &mut Rng, deep: usize) -> Case {
    if rng.once_in(300) {
        let all = lengths::long_chains();
        let formula = all[rng.below(all.len())].clone().into_bytes();
        return Case { formula, ..usual(rng, Vec::new()) };
    }
    let mut text = pieces::chain(rng, deep);
    while rng.once_in(4) {
        text.push_str(rng.pick(&[" + ", " - ", " ", ", ", "", "!", ")", "]", "}"]));
        text.push_str(&pieces::chain(rng, deep));
    }
    if rng.once_in(8) {
        text = pieces::mutate(rng, &text);
    }
    let display = !rng.once_in(12);
    if !rng.once_in(6) {
        return Case { display, ..usual(rng, text.into_bytes()) };
    }
    let mut latex = rng.pick(&["/", "a/", "/b", "/b/", "a/b", "(a/b)", "a/b/c", "a\\/b", "\\lvert"]).to_string();
    if rng.once_in(3) {
        latex = pieces::chain(rng, 1);
    }
    let table = record_bytes(b"ratio", latex.as_bytes());
    for _ in 0..rng.between(1, 3) {
        text.push_str(rng.pick(&["/", " ", "/ ", "(", " / ", "/("]));
        text.push_str(rng.pick(&["ratio", "ratio/c", "ratio c", "ratio)/d", "ratio/ratio", "\\/ ratio"]));
    }
    Case { table, display, ..usual(rng, text.into_bytes()) }
}

/// A case that two numbers (or more) refuse; 6 stands for what the base refused.
fn two_refusals(rng: &mut Rng, form: Form) -> Case {
    let (first, second) = (rng.between(1, 10), rng.between(1, 10));
    let mut case = Case { display: true, ..refused_by(rng, first, form) };
    merge_refusal(rng, &mut case, second);
    case
}

pub fn refused_by(rng: &mut Rng, number: usize, form: Form) -> Case {
    let mut case = roomy("x", form.beginning(), true);
    merge_refusal(rng, &mut case, number);
    case
}

/// Adds a reason for this number to a case, in front or behind; records have the form that the table has. For 6, which refuses
/// nothing any more, what the base refused.
pub fn merge_refusal(rng: &mut Rng, case: &mut Case, number: usize) {
    let form = Form::of(&case.table);
    let more = match number {
        1 => rng.pick(&["\u{1}", "\u{7f}", "\r", "\u{e9}", "\u{2044}", "\u{fffd}"]).to_string(),
        2 => "+".repeat(FORMULA_BYTES + 1),
        3 => {
            let fault = rng.below(9);
            let table = tables::faulty(rng, fault, form);
            case.table.extend(&table[form.beginning().len()..]);
            String::new()
        }
        4 => {
            case.work = rng.pick(&[0, 1, 32_767]);
            String::new()
        }
        5 => {
            if !tables::names(&case.table).iter().any(|name| name == "over") {
                case.table.extend(form.record_bytes(b"over", &[b'z'; 1_023]));
            }
            " over".repeat(9)
        }
        6 => rng.pick(&["\\text{a}\\text{b}0\\text{c}", "upright(a \"b\")", "\\mathrm{x}0\\text{b}"]).to_string(),
        7 => lengths::nested(rng.pick(&[0, 6, 9]), 65, "a"),
        8 => rng.pick(&["lr(|)", "lr([)"]).to_string(),
        9 => rng.pick(&["a/abs(b \\/ c)", "a/(b/abs(c \\/ d))", "a/b/abs(c \\/ d)"]).to_string(),
        _ => {
            case.output = rng.below(2);
            String::new()
        }
    };
    if rng.once_in(2) {
        case.formula.extend([b" + ", more.as_bytes()].concat());
    } else {
        case.formula = [more.as_bytes(), b" + ", &case.formula].concat();
    }
}

/// Output buffers at and around the answer's length, and work buffers around theirs.
fn buffers(rng: &mut Rng, deep: usize) -> Case {
    let formula = pieces::expression(rng, deep).into_bytes();
    let mut case = Case { output: STAGE_SYMBOLS, ..usual(rng, formula) };
    let length = judge(&case).bytes().len();
    case.output = match rng.below(6) {
        0 => length.saturating_sub(1),
        1 | 2 => length,
        3 => length + 1,
        4 => rng.below(length + 1),
        _ => 0,
    };
    case.work = rng.pick(&[32_768, 32_768, 32_768, 32_768, 40_000, 32_769, 32_767, 0]);
    case
}
