//! Generated definition tables: good ones of many kinds, and every fault of number 3, in both forms.

use super::pieces;
use super::rng::Rng;
use super::table::{self, record_bytes, Form, TABLE_BYTES};

/// Names that formulas of the other families hold, so that definitions do match.
const NAMES: [&str; 34] = [
    "ab", "abc", "abd", "gain", "zero", "one", "x1", "a1", "in", "max", "sin", "alpha", "beta", "pi", "Phi", "text",
    "mathrm", "frac", "left", "lvert", "rvert", "lr", "op", "cases", "begin", "operatorname", "Var", "NN", "sum", "a", "x",
    "b", "infinity", "mathbb",
];

fn latex(rng: &mut Rng) -> String {
    match rng.below(14) {
        0 => String::new(),
        1 => rng.between(0, 12).to_string(),
        2 => format!("\\mathrm{{{}}}", pieces::letter(rng)),
        3 => format!("\\text{{{}}}", pieces::atom(rng)),
        4 => format!("\\operatorname{{{}}}", pieces::atom(rng)),
        5 => rng.pick(&NAMES).to_string(),
        6 => format!("{} {}", rng.pick(&NAMES), rng.pick(&NAMES)),
        7 => rng.pick(&["\\text{", "}", "{", "(", ")", "\\", "\\/", "/", "\"", "%", "&", " \\\n", "\\;", "_", "^"]).to_string(),
        8 => pieces::fraction(rng, 1),
        9 => format!("\\text{{{}}}{}", pieces::letter(rng), rng.below(3)),
        10 => pieces::soup(rng, 4),
        _ => pieces::expression(rng, 1),
    }
}

/// A good table. Names are distinct; equal lengths are common.
pub fn good(rng: &mut Rng) -> Vec<u8> {
    let mut names: Vec<String> = Vec::new();
    for _ in 0..rng.pick(&[0, 1, 1, 1, 2, 2, 3, 4, 5, 8]) {
        let name = match rng.below(4) {
            0 => pieces::letter(rng) + &pieces::letter(rng),
            1 => format!("{}{}", pieces::letter(rng), rng.below(100)),
            _ => rng.pick(&NAMES).to_string(),
        };
        if !names.contains(&name) {
            names.push(name);
        }
    }
    names.iter().flat_map(|name| record_bytes(name.as_bytes(), latex(rng).as_bytes())).collect()
}

/// A good table with many names of one length, whose LaTeX holds others of them: the order in which they are applied shows.
pub fn of_one_length(rng: &mut Rng) -> Vec<u8> {
    let length = rng.between(2, 3);
    let letters = rng.pick(&["aB", "a0Z", "x1Ab"]).as_bytes();
    let name = |rng: &mut Rng| -> String {
        let first = rng.pick(&["a", "B", "x"]).to_string();
        (1..length).fold(first, |name, _| name + &char::from(rng.pick(letters)).to_string())
    };
    let mut names: Vec<String> = Vec::new();
    for _ in 0..rng.between(2, 12) {
        let name = name(rng);
        if !names.contains(&name) {
            names.push(name);
        }
    }
    let mut table = Vec::new();
    for own in &names {
        let (first, second) = (&names[rng.below(names.len())], &names[rng.below(names.len())]);
        let latex = match rng.below(5) {
            0 => latex(rng),
            1 | 2 => first.clone(),
            3 => format!("{first} {second}"),
            _ => format!("{first}/{second}1"),
        };
        table.extend(record_bytes(own.as_bytes(), latex.as_bytes()));
    }
    table
}

/// A good table whose LaTeX has blocks, halves of blocks and numbers.
pub fn of_blocks(rng: &mut Rng) -> Vec<u8> {
    let mut table = Vec::new();
    for name in pieces::BLOCK_NAMES {
        let latex = match rng.below(8) {
            0 => continue,
            1 => rng.pick(&["0", "1", "00", "2", "10"]).to_string(),
            2 => rng.pick(&["\\text{", "\\mathrm{", "}", "\\mathrm{\\text{", "}}"]).to_string(),
            3 => format!("\\mathrm{{{}}}", rng.pick(&pieces::BLOCK_NAMES)),
            4 => format!("\\text{{{}}}{}", pieces::atom(rng), rng.below(3)),
            _ => pieces::enclosed(rng, 1),
        };
        table.extend(record_bytes(name.as_bytes(), latex.as_bytes()));
    }
    table
}

/// A good narrow table in the wide form.
pub fn widened(table: &[u8]) -> Vec<u8> {
    table::read(table).and_then(|records| Form::Wide.table_of(&records)).expect("a good table, not of the greatest")
}

/// A good wide table with long names, some of one length, and long LaTeX: the narrow form has no room for most of them.
pub fn long(rng: &mut Rng) -> Vec<u8> {
    let mut names: Vec<String> = Vec::new();
    for _ in 0..rng.between(1, 3) {
        let name = long_name(rng);
        if !names.contains(&name) {
            names.push(name);
        }
    }
    let mut table = Form::Wide.beginning().to_vec();
    for own in &names {
        let latex = match rng.below(8) {
            0 => long_latex(rng),
            1 => matrix(rng),
            2..=4 => format!("{} {}", names[rng.below(names.len())], pieces::atom(rng)),
            _ => latex(rng),
        };
        table.extend(Form::Wide.record_bytes(own.as_bytes(), latex.as_bytes()));
    }
    table
}

fn long_name(rng: &mut Rng) -> String {
    let length = rng.pick(&[2, 7, 8, 9, 16, 31, 62, 63, 63, 64, 64, 65, 96, 126, 127, 127]);
    rng.pick(&["gain", "ab", "abc", "x1", "alpha", "text"]).chars().cycle().take(length).collect()
}

fn long_latex(rng: &mut Rng) -> String {
    let length = rng.pick(&[256, 1_000, 1_023, 1_024, 1_025, 2_048, 4_096, 8_190, 8_191]);
    let piece = rng.pick(&["z", "12+", "ab ", "\\text{a}0", "\\mathrm{b}", "x/y + ", "(a) ", "x_(1) ", "alpha ", "\"q\" "]);
    piece.chars().cycle().take(length).collect()
}

fn matrix(rng: &mut Rng) -> String {
    let (rows, columns) = (rng.between(1, 16), rng.between(1, 16));
    let row = |rng: &mut Rng| (0..columns).map(|_| pieces::atom(rng)).collect::<Vec<_>>().join(" & ");
    let rows: Vec<String> = (0..rows).map(|_| row(rng)).collect();
    format!("\\begin{{pmatrix}}{}\\end{{pmatrix}}", rows.join(rng.pick(&[" \\\\ ", " \\\\\n", " \\\n"])))
}

/// The names of a good table in its order, so that a formula can use them.
pub fn names(table: &[u8]) -> Vec<String> {
    super::table::read(table).unwrap_or_default().into_iter().map(|record| record.name).collect()
}

/// How many faults a form has. The wide one has four more: each of the first bits of a header.
pub fn faults(form: Form) -> usize {
    match form {
        Form::Narrow => 16,
        Form::Wide => 20,
    }
}

/// A table of this form with the fault of this number, or (12 to 15) just short of a fault.
pub fn faulty(rng: &mut Rng, fault: usize, form: Form) -> Vec<u8> {
    let mut table = good(rng);
    if form == Form::Wide {
        table = widened(&table);
    }
    let record = |name: &[u8], latex: &[u8]| form.record_bytes(name, latex);
    // Names of its own, so that the fault meant is the only one.
    let own = format!("q{}", rng.between(1000, 9999));
    let own = own.as_bytes();
    match fault {
        0 => table.extend(record(b"", b"x")),
        1 => table.extend([record(own, b"x"), record(own, b"y")].concat()),
        2 => table.extend(record(rng.pick(&["a_b", "a b", "a-b", "ab ", "a\\", "a.b", "a\u{7f}b"]).as_bytes(), b"x")),
        3 => table.extend(record(rng.pick(&["1a", "_a", "0", " a", "\\a"]).as_bytes(), b"x")),
        4 => table.extend(record(own, rng.pick(&["$", "a$b", "$1", "${1}", "$$"]).as_bytes())),
        5 => table.extend(record(own, &[b'a', rng.pick(&[0u8, 8, 11, 12, 13, 31, 127, 128, 255])])),
        6 => table.extend(cut_header(rng, form)),
        7 => {
            table.extend(record(own, b"latex"));
            table.truncate(table.len() - rng.between(1, 5));
        }
        8 => {
            table.extend(record(own, b""));
            table.truncate(table.len() - rng.between(1, 4));
        }
        9 => table = many(65, 1, form),
        10 => table = full(TABLE_BYTES + rng.between(1, 3), form),
        11 => table.extend(record(&[b'a', rng.pick(&[0u8, 128, 0xC3, 255])], b"x")),
        // From here to 15 nothing is wrong.
        12 => table = many(64, rng.below(3), form),
        13 => table = full(TABLE_BYTES, form),
        14 => table.extend(record(own, b"")),
        15 => table.extend(record(own, b"\t\n ~")),
        // In the wide form alone: one of the first four bits of a header.
        _ => {
            let place = table.len();
            table.extend(record(own, b"x"));
            table[place] |= 0x80 >> (fault - 16);
        }
    }
    // A narrow table does not begin with 00: there the fault stands behind a good record.
    if Form::of(&table) != form {
        table = [record(own, b"x"), table].concat();
    }
    table
}

/// A header that breaks off.
fn cut_header(rng: &mut Rng, form: Form) -> Vec<u8> {
    match form {
        Form::Narrow => vec![rng.pick(&[0u8, 4, 0x10, 0xFF])],
        Form::Wide => rng.pick(&[&[0u8][..], &[4], &[0x0F], &[0, 0], &[0, 0x40], &[0x0F, 0xFF]]).to_vec(),
    }
}

/// `count` records of three letters, all distinct, LaTeX of the length given.
fn many(count: usize, latex: usize, form: Form) -> Vec<u8> {
    let record = |i: usize| {
        let name = [b'm', b'a' + (i / 26) as u8, b'a' + (i % 26) as u8];
        form.record_bytes(&name, &vec![b'x'; latex])
    };
    form.beginning().iter().copied().chain((0..count).flat_map(record)).collect()
}

/// A table of exactly this many bytes, about the greatest: records with the longest LaTeX, and one that fills up.
pub fn full(bytes: usize, form: Form) -> Vec<u8> {
    let (count, (_, longest)) = (if form == Form::Narrow { 31 } else { 3 }, form.longest());
    let mut table = many(count, longest, form);
    let left = bytes - table.len() - form.record_bytes(b"zz", b"").len();
    table.extend(form.record_bytes(b"zz", &vec![b'y'; left]));
    table
}
