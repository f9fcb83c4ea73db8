//! The texts that are timed: typical formulas, and families that grow.

/// Correction formulas of a calibration bench and formulas of radio engineering, of 10 to 80 bytes.
pub const TYPICAL: [&str; 36] = [
    r#"L = 20 log_10 (U/U_0) "dB""#,
    r#"P = U_1^2/R"#,
    r#"f_0 = 1/(2 pi sqrt(L C))"#,
    r#"Q = f_0/(f_2 - f_1)"#,
    r#"Gamma = (Z_L - Z_0)/(Z_L + Z_0)"#,
    r#"s = (1 + abs(Gamma))/(1 - abs(Gamma))"#,
    r#"F = F_1 + (F_2 - 1)/G_1 + (F_3 - 1)/(G_1 G_2)"#,
    r#"N = k T_0 B"#,
    r#"N_0 = -174 "dBm" + 10 log_10 (B/B_0)"#,
    r#"f_"IF" = abs(f_"RF" - f_"LO")"#,
    r#"A = 10 log_10 (P_1/P_2)"#,
    r#"U_1 = U_0 10^(G/20)"#,
    r#"R_1 = Z_0 (K - 1)/(K + 1)"#,
    r#"R_2 = 2 Z_0 K/(K^2 - 1)"#,
    r#"delta = sqrt(2/(omega mu sigma))"#,
    r#"lambda = c_0/f"#,
    r#"L_"fs" = 20 log_10 ((4 pi d)/lambda)"#,
    r#"u_c^2 = sum_(i=1)^n c_i^2 u_i^2"#,
    r#"s = sqrt(1/(n - 1) sum_(i=1)^n (x_i - x_0)^2)"#,
    r#"T_e = T_0 (F - 1)"#,
    r#"P_3 = P_"out" + (Delta P)/2"#,
    r#"H = 1/(1 + j 2 pi f R C)"#,
    r#"X_C = -1/(2 pi f C)"#,
    r#"tan delta = 1/Q"#,
    r#"P_"dBm" = 10 log_10 (P/(1 "mW"))"#,
    r#"M = 1 - abs(Gamma_G Gamma_L)^2"#,
    r#"C_"att" = -0.02 + 0.15 (f/f_"max")^(1/2)"#,
    r#"E_n = (x_"lab" - x_"ref")/sqrt(U_"lab"^2 + U_"ref"^2)"#,
    r#"alpha_c = R/(2 Z_0)"#,
    r#"Y = P_"hot"/P_"cold""#,
    r#"F = "ENR"/(Y - 1)"#,
    r#"omega = 2 pi f"#,
    r#"phi = op("arctan")((X_L - X_C)/R)"#,
    r#"B_3 = f_0/Q"#,
    r#"k_p = 1/(1 + 10^(-Delta/10))"#,
    r#"g = cases(0 "if" f < f_0, 1 "else")"#,
];

pub const LENGTHS: [usize; 5] = [16, 64, 256, 1_024, 4_096];

/// A text of some length: `front`, `head` again and again, `core`, and `tail` as often as `head`.
#[derive(Clone, Default)]
pub struct Shape {
    pub front: String,
    pub head: String,
    pub core: String,
    pub tail: String,
}

impl Shape {
    /// At most `bytes` bytes; exactly as many where nothing has to be closed.
    pub fn text(&self, bytes: usize) -> String {
        let Shape { front, head, core, tail } = self;
        let room = bytes.saturating_sub(front.len() + core.len());
        if tail.is_empty() {
            let mut repeated = head.repeat(room / head.len() + 1);
            repeated.truncate(room);
            return format!("{front}{repeated}{core}");
        }
        let levels = room / (head.len() + tail.len());
        format!("{front}{}{core}{}", head.repeat(levels), tail.repeat(levels))
    }

    /// As a person would write it: front head .. core tail ..
    pub fn shown(&self) -> String {
        let Shape { front, head, core, tail } = self;
        let mut parts = vec![front.as_str(), head, "..", core, tail];
        if !tail.is_empty() {
            parts.push("..");
        }
        let quoted = |part: &&str| match *part {
            ".." => "..".to_string(),
            part if part.len() > LONG => format!("`` {} `` and so on", escaped(&part[..LONG])),
            part => format!("`` {} ``", escaped(part)),
        };
        parts.iter().filter(|part| !part.is_empty()).map(quoted).collect::<Vec<String>>().join(" ")
    }
}

/// More of a repeated text is not shown.
const LONG: usize = 50;

/// As it stands between backquotes in a cell of a table.
fn escaped(text: &str) -> String {
    text.replace('\n', "⏎").replace('|', "\\|")
}

pub const REPEATED: &str = "typical formulas";

pub fn families() -> Vec<(&'static str, Shape)> {
    let again = |name, head: &str| (name, Shape { head: head.to_string(), ..Shape::default() });
    let nested = |name, head: &str, core: &str, tail: &str| {
        (name, Shape { front: String::new(), head: head.to_string(), core: core.to_string(), tail: tail.to_string() })
    };
    let branches = Shape { front: "cases(".to_string(), head: "a, ".to_string(), core: ")".to_string(), tail: String::new() };
    vec![
        again(REPEATED, &(TYPICAL.join(" + ") + " + ")),
        again("sums", "a + b - c + "),
        again("fractions", "a/b + "),
        again("fractions of sums", "(a + 1)/(b - 2) "),
        again("fractions in parentheses", "(a/b) "),
        again("chain of fractions", "a/"),
        again("slashes", "/"),
        again("escaped slashes", "a\\/b "),
        again("letters", "x"),
        again("digits", "1"),
        again("spaces", " "),
        again("Greek names", "epsilon Lambda omega Sigma theta gamma Delta kappa beta zeta eta phi chi psi rho tau Xi pi nu mu "),
        again("words", "infinity oo forall approx dots times quad xor log max inf lim gcd mod ln in sum prod integral and or not cap "),
        again("dotted words", "arrow.r.double dots.c plus.minus arrow.l ... "),
        again("functions", "sin(x) + log(y) - max(z) "),
        again("operators", "a >= b <- c != d << "),
        again("names that almost match", "alph bet epsilo infinit integra "),
        again("scripts", "x_1^2 "),
        again("scripts of words", "x_max^min "),
        again("script groups", "x_(a + b)^(c) "),
        again("_", "_"),
        again("^", "^"),
        again("_( unclosed", "_("),
        nested("script groups nested", "x_(", "a", ")"),
        nested("parentheses nested", "(", "a", ")"),
        nested("parentheses around a fraction", "(", "a/b", ")"),
        nested("brackets around a fraction", "[", "a/b", "]"),
        nested("fractions nested", "a/(", "a", ")"),
        again("fractions nested 60 deep", &format!("{}a{} ", "a/(".repeat(60), ")".repeat(60))),
        again("( unclosed", "("),
        again("[ unclosed", "["),
        again("{ unclosed", "{"),
        again(") alone", ")"),
        again("sets", "{1, 2} "),
        again("lr( unclosed", "lr("),
        again("lr", "lr([a, b]) "),
        nested("lr nested", "lr((", "a", "))"),
        again("quotes", "\""),
        again("quoted texts", "\"a\" "),
        again("\\text{ unclosed", "\\text{"),
        again("\\text blocks", "\\text{a} "),
        nested("\\text blocks nested", "\\text{", "a", "}"),
        again("\\mathrm blocks", "\\mathrm{a} "),
        again("attach( unclosed", "attach("),
        again("attach", "attach(x, b: y) "),
        nested("attach nested", "attach(x, b: ", "a", ")"),
        again("cases( unclosed", "cases("),
        nested("cases nested", "cases(a, ", "b", ")"),
        ("cases with many branches", branches),
        again("op( unclosed", "op("),
        again("binom", "binom(n, k) "),
        nested("binom nested", "binom(a, ", "b", ")"),
        again("sqrt( unclosed", "sqrt("),
        nested("sqrt nested", "sqrt(", "a", ")"),
        nested("floor nested", "floor(", "a", ")"),
        nested("abs nested", "abs(", "a", ")"),
        again("fractions of bars", "a/abs(b) "),
        again("|", "|"),
        again("&", "&"),
        again("rows", "a &= b \\\n"),
        again("%", "%"),
        again("thin spaces", "alpha\\; "),
        again("commas", ","),
    ]
}
