//! Cases of the tall field (A13): those written by hand, and generated ones.

use super::judge::{judge, roomy, Case, FORMULA_BYTES, WORK_BYTES};
use super::long_tables::table_in;
use super::rng::Rng;
use super::sizing::ALL_TALL;
use super::table::Form;
use super::{lengths, pieces};

/// Each of the five commands by itself, in the order of their bits.
const ALONE: [&str; 5] = ["(a/b)", "[sqrt(a)]", "(binom(n, k))", "[sum x]", "(integral x)"];

/// All five, one within the other, from the inside out and from the outside in.
const TOGETHER: [&str; 2] = [
    "([([(a/b) sqrt(c)] binom(n, k)) sum x] integral y)",
    "(a/b [sqrt(c) (binom(n, k) [sum x (integral y)])])",
];

/// Formulas, each under the fields that tell most about it.
const FORMULAS: [(&str, &[u32]); 70] = [
    // Two kinds beside each other.
    ("(sqrt(a)) (a/b)", &[8, 16]),
    ("[binom(n, k)] [a/b]", &[4, 27]),
    ("(sum x) (integral x)", &[2, 1]),
    // A command that only begins with one of the five counts, and so does one behind a second backslash.
    ("(\\into)", &[1, 30]),
    ("(\\intercal) [\\summa]", &[1, 2]),
    ("(\\fraction) [\\sqrtsign] (\\binomial)", &[16, 8, 4]),
    ("(\\\\frac{a}{b})", &[16, 15]),
    // One that only ends with one of the five does not, nor does a name or an escaped slash.
    ("(\\dfrac{a}{b}) [\\tfrac{c}{d}] (\\iint x) [\\oint y]", &[31, 0]),
    ("(frac) [sqrt] (binom)", &[31]),
    ("(a \\/ b)", &[16]),
    // Typed in LaTeX.
    ("(\\frac{a}{b}) [\\sqrt{c}]", &[16, 8]),
    ("(\\sqrt[3]{a}) [\\binom{n}{k}]", &[8, 4]),
    ("(\\sum_(k) x) [\\int_(0)^(1) y]", &[2, 1]),
    ("(product x) (sum x)", &[29, 2]),
    // One kind within the other: the outer delimiters alone are sized, or both.
    ("((a/b) sqrt(c))", &[8, 16, 24, 7]),
    ("[(sqrt(a)) b/c]", &[8, 16, 23]),
    ("((sum x) [integral y])", &[2, 1, 28]),
    ("[(a) binom(n, k)]", &[4, 27]),
    ("([a/b])", &[16, 15]),
    ("[(a/b)]", &[16, 15]),
    ("(((a/b)))", &[16, 15]),
    ("(x (y) [z] a/b)", &[16, 15]),
    // The inner delimiters alone, since the outer ones close too early or not at all, or are sized already.
    ("(a [b) c/d]", &[16, 15]),
    ("[a (b] sqrt(c))", &[8, 23]),
    ("(a [b/c]", &[16, 15]),
    ("(a/b]", &[16, 15]),
    ("(a/b", &[16]),
    ("a/b)", &[16]),
    ("\\left((a/b)\\right)", &[16, 15]),
    ("\\left(a/b\\right)", &[16, 15]),
    ("\\right(a/b)", &[16, 15]),
    ("\\left[sqrt(a) (b/c)\\right]", &[24, 16, 8, 0]),
    // In scripts nothing is sized, but what a script holds counts for the delimiters around it.
    ("x_((a/b))", &[16, 15]),
    ("x^((sqrt(a)))", &[8, 23]),
    ("(x_(a/b))", &[16, 15]),
    ("[x^(sqrt(a))]", &[8, 23]),
    ("(x_(a/b) sqrt(c))", &[8, 16, 7]),
    ("(sum_(k=1)^n (a_k)/(b_k))", &[2, 16, 18, 13]),
    // What `lr` and calls size is not ruled by the field.
    ("lr((a/b))", &[0, 16]),
    ("lr([a/b])", &[0]),
    ("lr(|a/b|)", &[0]),
    ("lr({a/b})", &[0]),
    ("lr([0, 1/n))", &[0]),
    ("lr((sqrt(a)) (b/c)", &[0, 8]),
    ("lr((a (b/c)))", &[0, 16]),
    ("(lr((a/b)))", &[0, 16]),
    ("lr((a/b)) (a/b)", &[0, 16]),
    ("abs(a/b)", &[0]),
    ("abs((a/b))", &[0, 16]),
    ("(abs(sqrt(a)))", &[0, 8]),
    ("floor(sum x) ceil(binom(n, k))", &[0]),
    ("floor((sum x)) [ceil(integral y)]", &[0, 3]),
    ("cases((a/b), [sqrt(c)])", &[0, 8]),
    // What stands between quotes or in a call counts as well.
    ("(\"\\frac\")", &[16, 15]),
    ("(op(\"\\sum\"))", &[2, 29]),
    ("(bold(a/b))", &[16, 15]),
    // Braces are not sized.
    ("{a/b} (c)", &[16]),
    ("{(a/b)}", &[16, 15]),
    // Behind sizing.
    ("(a/b)% [c/d]%", &[16, 15]),
    ("(a/b) &= [sqrt(c)] \\\n &= (sum x)", &[16, 8, 2]),
    ("(alpha \"b\"/c)", &[16, 15]),
    // As people write them.
    ("L = 20 log_10 (U/U_0) \"dB\"", &[31, 16, 15]),
    ("(1 - 1/n)^n (n/2)", &[31, 15]),
    ("P(X = k) = binom(n, k) p^k (1 - p)^(n - k)", &[31, 27]),
    ("(1/n sum_(i=1)^n x_i) [integral_0^1 f(x) d x]", &[16, 2, 1, 12]),
    ("2 (a_1 + sqrt(b))/(c)", &[8, 16]),
    ("f(a/b) [0, 1)", &[16, 15]),
    ("f(g(sqrt(a)))", &[8, 23]),
    ("", &[0]),
    ("()[]", &[31, 0]),
];

/// Plain formulas with groups and scripts.
const PLAIN: [&str; 15] = [
    "a", "(a)", "a/b", "((a/b))", "((a))/(b c)", "(a (b/c)) d", "(a + b/c) (d)", "((a/b) c)/d", "a/((b/c) d)",
    "(a_1 (b/c))", "a_(b/c)", "a_((b/c))^((d/e))", "(a^(b/c))", "(alpha/2) (beta - 1)", "((x/y) + (z)) (a_(b/c) d)",
];

/// Formulas and definitions whose LaTeX holds tall commands, or parts of them.
const DEFINED: [(&str, &[(&str, &str)], &[u32]); 10] = [
    ("(ratio)", &[("ratio", "\\frac{a}{b}")], &[31, 16, 15]),
    ("[root] (ratio)", &[("ratio", "a/b"), ("root", "\\sqrt{x}")], &[16, 8]),
    ("(choose) [total]", &[("choose", "\\binom{n}{k}"), ("total", "\\sum_k")], &[4, 2]),
    ("(area ratio)", &[("area", "\\int"), ("ratio", "(a/b)")], &[1, 16, 14]),
    ("ratio", &[("ratio", "(\\frac{a}{b})")], &[16, 15]),
    ("ratio", &[("ratio", "\\left(\\frac{a}{b}\\right)")], &[16, 0]),
    ("(half{a}{b})", &[("half", "\\frac")], &[16, 15]),
    ("(half{a}{b})", &[("half", "\\fra")], &[16]),
    ("open a/b close", &[("open", "("), ("close", ")")], &[16, 15]),
    ("(gain) ratio/2", &[("gain", "\\mathrm{G}"), ("ratio", "sqrt(x)")], &[24, 0]),
];

fn under(field: u32, formula: &str) -> Case {
    Case { field, ..roomy(formula, &[], true) }
}

pub fn cases() -> Vec<Case> {
    [under_all_fields(), chosen_fields(), defined(), display_off(), lengths(), outputs(), refused()].concat()
}

fn under_all_fields() -> Vec<Case> {
    let formulas = ALONE.into_iter().chain(TOGETHER);
    formulas.flat_map(|formula| (0..=ALL_TALL).map(move |field| under(field, formula))).collect()
}

fn chosen_fields() -> Vec<Case> {
    let plain = PLAIN.map(|formula| (formula, &[15, 16][..]));
    let all = FORMULAS.into_iter().chain(plain);
    all.flat_map(|(formula, fields)| fields.iter().map(move |&field| under(field, formula))).collect()
}

/// The forms of a table take turns.
fn defined() -> Vec<Case> {
    let mut forms = [Form::Narrow, Form::Wide].into_iter().cycle();
    let mut cases = Vec::new();
    for (formula, definitions, fields) in DEFINED {
        for &field in fields {
            let table = table_in(forms.next().expect("endless"), definitions);
            cases.push(Case { table, ..under(field, formula) });
        }
    }
    cases
}

/// Nothing is sized, whatever the field is.
fn display_off() -> Vec<Case> {
    let formulas = ["(a/b)", "(\\frac{a}{b}) [sqrt(c)]", "lr((sum x)) (integral y)"];
    let cases = formulas.into_iter().flat_map(|formula| [0, 15, 16, 31].map(|field| under(field, formula)));
    cases.map(|case| Case { display: false, ..case }).collect()
}

/// Texts that `\left` and `\right` bring above 8,192 symbols, or just up to that.
fn lengths() -> Vec<Case> {
    let mut cases = Vec::new();
    for (filler, fields) in [(24, &[2, 29][..]), (25, &[31, 2, 29, 0])] {
        let formula = lengths::sized(628, filler);
        // Of long answers, only that they are not too long (10 after 5).
        cases.extend(fields.iter().map(|&field| Case { output: 2_000, ..under(field, &formula) }));
    }
    let fractions = format!("{}a/b{}", "(".repeat(700), ")".repeat(700));
    cases.extend([16, 15].map(|field| under(field, &fractions)));
    cases
}

/// Output buffers that the answer fills, and that are a byte too short.
fn outputs() -> Vec<Case> {
    let small = "(\\frac{a}{b})".len();
    let sized = "\\left(\\frac{a}{b}\\right)".len();
    let outputs = [(15, small), (15, small - 1), (16, sized), (16, sized - 1), (31, small), (0, sized)];
    outputs.into_iter().map(|(field, output)| Case { output, ..under(field, "(a/b)") }).collect()
}

/// Number 15, alone and with each number that comes before it or behind it.
fn refused() -> Vec<Case> {
    let fields = [32, 33, 47, 48, 63, 64, 128, 224, 255];
    let mut cases: Vec<Case> = fields.into_iter().map(|field| under(field, "(a/b)")).collect();
    for field in [32, 255] {
        let wrong = under(field, "(a/b)");
        cases.extend([0, WORK_BYTES - 1, WORK_BYTES + 1].map(|work| Case { work, ..wrong.clone() }));
        cases.push(Case { formula: b"(a/b\x01)".to_vec(), ..wrong.clone() });
        cases.extend([b"\x04\0".as_slice(), b"\0\0", b"x"].map(|table| Case { table: table.to_vec(), ..wrong.clone() }));
        cases.push(Case { display: false, ..wrong.clone() });
        cases.push(Case { output: 0, ..wrong.clone() });
        cases.push(Case { formula: Vec::new(), ..wrong });
        for formula in ["lr(|)", "a/abs(b \\/ c)", &lengths::nested(0, 65, "a")] {
            cases.push(under(field, formula));
        }
    }
    cases.push(under(32, &"+".repeat(FORMULA_BYTES)));
    cases.push(under(32, &"+".repeat(FORMULA_BYTES + 1)));
    cases.push(Case { work: 0, ..under(255, &"\u{1}".repeat(FORMULA_BYTES + 1)) });
    cases
}

/// Delimiters around tall things and others, under any field. Some output buffers are filled by the answer, or a byte too short.
pub fn generated(rng: &mut Rng, depth: usize) -> Case {
    let formula = delimited(rng, depth);
    let mut case = Case { display: !rng.once_in(12), ..under(rng.below(32) as u32, &formula) };
    if rng.once_in(6) {
        case.output = judge(&case).bytes().len().saturating_sub(rng.below(2));
    }
    case
}

fn delimited(rng: &mut Rng, depth: usize) -> String {
    const AROUND: [(&str, &str); 20] = [
        ("(", ")"), ("(", ")"), ("(", ")"), ("(", ")"), ("[", "]"), ("[", "]"), ("[", "]"), ("{", "}"), ("f(", ")"), ("x_(", ")"),
        ("x^{", "}"), ("lr((", "))"), ("lr([", "])"), ("abs(", ")"), ("\\left(", "\\right)"), ("sqrt(", ")"), ("(", "]"), ("(", ""),
        ("", ")"), ("(", ")/b"),
    ];
    const TALL: [&str; 16] = [
        "a/b", "c/d", "\\frac{a}{b}", "sqrt(a)", "sqrt(x)", "\\sqrt[3]{a}", "binom(n, k)", "binom(a, b)", "\\binom{n}{k}", "sum x",
        "sum_(k=1)^n", "\\sum", "integral x", "integral_0^1 f", "\\int", "\\into",
    ];
    let mut text = String::new();
    for _ in 0..rng.between(1, 3) {
        text.push_str(&match rng.below(8) {
            0..=3 if depth > 0 => {
                let (open, close) = rng.pick(&AROUND);
                format!("{open}{}{close}", delimited(rng, depth - 1))
            }
            4 | 5 => rng.pick(&TALL).to_string(),
            6 => pieces::atom(rng),
            _ => pieces::letter(rng),
        });
        text.push_str(rng.pick(&[" ", " ", " + ", ""]));
    }
    text
}
