//! The judge's commands. This file is a module below `math_conv.rs`, which is the crate's root (see oracle/build).

mod braces;
mod cases;
mod chains;
#[cfg(feature = "library")]
mod compare;
mod crosscheck;
mod definitions;
mod fractions;
mod generate;
#[cfg_attr(not(feature = "library"), allow(dead_code))]
mod grammar;
#[cfg(feature = "library")]
mod join_trial;
mod judge;
pub mod left;
mod lengths;
mod long_tables;
mod passing;
mod pieces;
mod plain;
#[cfg(feature = "library")]
mod plain_trial;
mod record;
mod rng;
mod short;
mod sizing;
mod smallest;
mod stages;
mod table;
mod tables;
pub mod tall;
mod tall_cases;
mod traps;
pub mod veil;
mod word;
mod word_cases;
mod word_file;
mod word_tables;
#[cfg(feature = "library")]
mod word_trial;
mod words;
mod workers;

use cases::Recorded;
use judge::Answer;
use std::io::{BufRead, Write};

const USAGE: &str = "judge show FORMULA [NAME=LATEX ..]   the answer for display on and off
judge answer < LINES                 a line: display field work output formula-hex table-hex (- for no bytes),
                                     answered by: number count output-hex
judge record SEED [FILE]             writes the recorded cases (default crates/replay/data/cases.bin)
judge dump [FILE]                    the recorded cases as lines: index family display field work output
                                     formula-hex table-hex number output-hex
judge check [FILE]                   answers the recorded cases again and compares
judge generate SEED N                N generated cases as such lines
judge crosscheck SEED N [FILE]       judges N generated cases and all recorded ones against the unchanged functions
judge short [FILE]                   makes the list of short plain formulas (default crates/plain_short/stdout): says
                                     that the file is the same, or writes it
judge smallest                       the shortest texts that 5 and 7 to 9 refuse and in which the Rust loses a block, by a
                                     search through all of them; some minutes
judge stages < LINES                 each line by one function of the Rust, as the program stage_lines answers it
judge braces SEED N                  the brace step's description (request A10) against the Rust's, on all short texts and N others
judge brace-dump SEED N              N texts by the Rust's brace step, as lines: index text-hex matches output-hex
judge word-cases SEED                the cases of the program word_places (request A14), to standard output
judge words < CASES                  for each place of each case: PLACE ok PART, or PLACE refused NUMBER
judge word-dump < CASES              the same as lines: index formula-hex table-hex place number side start length
judge compare SEED N                 the library against the judge; only as oracle/trial builds it
judge plain SEED N                   the library's plain check against another parser; only as oracle/trial builds it
judge joins SEED N                   N pairs of plain formulas and their joins (request A10); only as oracle/trial builds it
judge words SEED N                   the library's word under the pointer against the judge's; only as oracle/trial builds it";

/// The build folder is target/oracle of the repository.
const RECORDED: &str = concat!(env!("CARGO_MANIFEST_DIR"), "/../../crates/replay/data/cases.bin");

const SHORT_FORMULAS: &str = concat!(env!("CARGO_MANIFEST_DIR"), "/../../crates/plain_short/stdout");

pub fn main() {
    if workers::with_room(run) != Some(true) {
        std::process::exit(1);
    }
}

fn run() -> bool {
    let arguments: Vec<String> = std::env::args().skip(1).collect();
    let words: Vec<&str> = arguments.iter().map(String::as_str).collect();
    let number = |word: &str| word.parse::<u64>().expect("a number");
    match words[..] {
        ["show", formula, ref definitions @ ..] => show(formula, definitions),
        ["answer"] => answer(),
        ["record", seed] => record(number(seed), RECORDED),
        ["record", seed, file] => record(number(seed), file),
        ["check"] => check(RECORDED),
        ["check", file] => check(file),
        ["dump"] => dump(RECORDED),
        ["dump", file] => dump(file),
        ["generate", seed, n] => generate(number(seed), number(n)),
        ["crosscheck", seed, n] => crosscheck(number(seed), number(n), RECORDED),
        ["crosscheck", seed, n, file] => crosscheck(number(seed), number(n), file),
        ["short"] => short(SHORT_FORMULAS),
        ["short", file] => short(file),
        ["smallest"] => smallest::smallest(),
        ["stages"] => stages::stages(),
        ["braces", seed, n] => braces::braces(number(seed), number(n)),
        ["brace-dump", seed, n] => braces::dump(number(seed), number(n)),
        ["word-cases", seed] => word_cases(number(seed)),
        ["words"] => word_file::words(),
        ["word-dump"] => word_file::dump(),
        #[cfg(feature = "library")]
        ["compare", seed, n] => compare::compare(number(seed), number(n), &read_recorded(RECORDED)),
        #[cfg(feature = "library")]
        ["plain", seed, n] => plain_trial::trial(number(seed), number(n)),
        #[cfg(feature = "library")]
        ["joins", seed, n] => join_trial::trial(number(seed), number(n)),
        #[cfg(feature = "library")]
        ["words", seed, n] => word_trial::trial(number(seed), number(n)),
        _ => {
            eprintln!("{USAGE}");
            false
        }
    }
}

fn show(formula: &str, definitions: &[&str]) -> bool {
    // The wide form has room for longer ones.
    let form = table::Form::Wide;
    let mut table = form.beginning().to_vec();
    for definition in definitions {
        let (name, latex) = definition.split_once('=').unwrap_or((definition, ""));
        table.extend(form.record_bytes(name.as_bytes(), latex.as_bytes()));
    }
    for display in [true, false] {
        print!("display {}: ", if display { "on " } else { "off" });
        match judge::judge(&judge::roomy(formula, &table, display)) {
            Answer::Done(bytes) => println!("ok {} {}", bytes.len(), String::from_utf8_lossy(&bytes)),
            Answer::Refused(number) => println!("refused {number}"),
        }
    }
    true
}

fn answer() -> bool {
    let mut out = std::io::BufWriter::new(std::io::stdout().lock());
    for line in std::io::stdin().lock().lines() {
        let line = line.expect("lines of text");
        let Some(case) = cases::from_line(&line) else {
            eprintln!("not a case: {line}");
            return false;
        };
        let answer = judge::judge(&case);
        let bytes = answer.bytes();
        writeln!(out, "{} {} {}", answer.number(), bytes.len(), cases::hex(bytes)).unwrap();
    }
    true
}

fn record(seed: u64, file: &str) -> bool {
    let recorded = record::record(seed);
    let bytes = cases::to_bytes(&recorded);
    assert_eq!(cases::from_bytes(&bytes).as_ref(), Some(&recorded), "the file reads back");
    std::fs::write(file, &bytes).expect("the file can be written");
    println!("{} cases, {} bytes", recorded.len(), bytes.len());
    for (family, name, _) in generate::FAMILIES {
        let of_family = recorded.iter().filter(|r| r.family == family);
        println!("{family:2} {name:14} {}", of_family.count());
    }
    for number in judge::NUMBERS {
        println!("number {number:2}: {}", recorded.iter().filter(|r| r.answer.number() == number).count());
    }
    true
}

fn read_recorded(file: &str) -> Vec<Recorded> {
    let bytes = std::fs::read(file).expect("the file of recorded cases");
    cases::from_bytes(&bytes).expect("a file of recorded cases")
}

fn check(file: &str) -> bool {
    let recorded = read_recorded(file);
    let stale = recorded.iter().filter(|r| judge::judge(&r.case) != r.answer).count();
    println!("{} recorded cases, {stale} answered otherwise than recorded", recorded.len());
    stale == 0
}

fn print_lines(recorded: impl Iterator<Item = Recorded>) -> bool {
    let mut out = std::io::BufWriter::new(std::io::stdout().lock());
    for (index, Recorded { family, case, answer }) in recorded.enumerate() {
        let (formula, table) = (cases::hex(&case.formula), cases::hex(&case.table));
        let (number, latex) = (answer.number(), cases::hex(answer.bytes()));
        let (display, field, work, output) = (u8::from(case.display), case.field, case.work, case.output);
        let line = format!("{index} {family} {display} {field} {work} {output} {formula} {table} {number} {latex}");
        if writeln!(out, "{line}").is_err() {
            return false;
        }
    }
    true
}

fn dump(file: &str) -> bool {
    print_lines(read_recorded(file).into_iter())
}

fn generate(seed: u64, n: u64) -> bool {
    print_lines((0..n).map(|index| {
        let (family, case) = generate::any(seed, index);
        Recorded { family, answer: judge::judge(&case), case }
    }))
}

fn short(file: &str) -> bool {
    let list = short::list();
    let same = std::fs::read(file).is_ok_and(|bytes| bytes == list.as_bytes());
    if !same {
        std::fs::write(file, &list).expect("the file can be written");
    }
    println!("{}: {}", if same { "same" } else { "written" }, list.lines().last().unwrap());
    true
}

fn word_cases(seed: u64) -> bool {
    let cases = word_cases::cases(seed);
    let bytes = word_file::to_bytes(&cases);
    assert_eq!(word_file::from_bytes(&bytes).as_ref(), Some(&cases), "the file reads back");
    std::io::stdout().write_all(&bytes).is_ok()
}

fn crosscheck(seed: u64, n: u64, file: &str) -> bool {
    std::panic::set_hook(Box::new(|_| {}));
    let fresh = check(file);
    let recorded = read_recorded(file);
    let parts = workers::parts(|worker, workers| {
        let mut findings = crosscheck::Findings::default();
        for r in recorded.iter().skip(worker).step_by(workers) {
            crosscheck::check(&r.case, &mut findings);
        }
        for index in (worker as u64..n).step_by(workers) {
            crosscheck::check(&generate::any(seed, index).1, &mut findings);
        }
        findings
    });
    let mut findings = crosscheck::Findings::default();
    for part in parts {
        findings.join(part);
    }
    println!("{n} generated cases (seed {seed})");
    for (check, count) in &findings.counts {
        println!("{count:8}  {check}");
    }
    for (check, formula) in &findings.shortest {
        println!("shortest of \"{check}\": {:?}", String::from_utf8_lossy(formula));
    }
    for disagreement in findings.disagreements.iter().take(50) {
        println!("DISAGREE {disagreement}");
    }
    findings.disagreements.is_empty() && fresh
}
