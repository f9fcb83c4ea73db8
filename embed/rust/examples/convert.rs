//! Converts some correction formulas of a calibration bench, with definitions, one of them with small brackets too, and shows what the
//! words of one stand for. Built and run by embed/run-rust.

use jistranu::{Refusal, Tall};
use std::collections::HashMap;

fn main() {
    let definitions = HashMap::from([
        ("gain".to_string(), "\\mathrm{G}".to_string()),
        ("Uref".to_string(), "U_{\\mathrm{ref}}".to_string()),
    ]);
    for formula in [
        "(a + 1)/b",
        "U_1 = U_0 10^(gain/20)",
        "L = 20 log_10 (U/U_0) \"dB\"",
        "f_0 = 1/(2 pi sqrt(L C))",
        "op(\"U (peak)\")_1",
        "lr(|)",
        "Uref/gain",
    ] {
        convert(formula, &definitions);
    }
    for field in [Tall::ALL.bits(), Tall::SQRT.bits(), 32] {
        convert_under("(U/U_0) [sqrt(R)]", &definitions, field);
    }
    let table = jistranu::table(&definitions);
    for place in [0, 4, 5, 11] {
        show_word("gain/2 + x_gain", &table, place);
    }
}

fn convert(formula: &str, definitions: &HashMap<String, String>) {
    println!("{formula}");
    print(jistranu::typst_to_latex(formula, definitions, true));
    if let Some(atoms) = jistranu::plain_check(formula.as_bytes()) {
        println!("    plain, {atoms} atoms");
    }
}

fn convert_under(formula: &str, definitions: &HashMap<String, String>, field: u8) {
    println!("{formula} under {field}");
    print(Tall::try_from(field).and_then(|tall| jistranu::typst_to_latex_sized(formula, definitions, true, tall)));
}

fn print(answer: Result<String, Refusal>) {
    match answer {
        Ok(latex) => println!("    {latex}"),
        Err(refusal) => println!("    refused {}", refusal.number()),
    }
}

fn show_word(formula: &str, table: &[u8], place: usize) {
    println!("{formula} at {place}");
    match jistranu::word_at(formula.as_bytes(), table, place) {
        Ok(word) => {
            let kind = if word.defined { "defined as" } else { "the word" };
            println!("    {kind} {}", word.as_str());
        }
        Err(refusal) => println!("    refused {}", refusal.number()),
    }
}
