//! The library against the judge, call by call: the answer, the count, the bytes, and what both buffers hold afterwards. What is
//! accepted goes through `typst_to_latex` as a whole too: that of the test copy, and the unchanged one where it has one order only,
//! loses no block, no search of a call passes over a parenthesis, no round leaves a slash, and no delimiters stay small that it sizes.

use super::cases::{hex, Recorded};
use super::definitions::one_order;
use super::judge::{judge, refused_before_stages, typst_to_latex, Answer, Case, Stages, NUMBERS, STAGE_SYMBOLS};
use super::rng::Rng;
use super::table::Record;
use super::sizing::ALL_TALL;
use super::{generate, tall, workers};
use std::collections::HashMap;
use std::sync::OnceLock;

/// Bytes before and behind each buffer, which no call may touch.
const MARGIN: usize = 64;

/// No case has a longer buffer.
const LONGEST: usize = 1 << 16;

static ZERO: [u8; LONGEST] = [0; LONGEST];

/// Old contents of buffers, at any of `SALTS` places.
fn old_contents() -> &'static [u8] {
    static CONTENTS: OnceLock<Vec<u8>> = OnceLock::new();
    CONTENTS.get_or_init(|| {
        let mut rng = Rng::new(0, 0);
        (0..LONGEST + 2 * MARGIN + SALTS).map(|_| rng.next() as u8).collect()
    })
}

const SALTS: usize = 1_000;

/// A buffer with old contents and margins.
struct Lent {
    before: &'static [u8],
    now: Vec<u8>,
}

impl Lent {
    fn new(length: usize, salt: usize) -> Self {
        let before = &old_contents()[salt % SALTS..][..length + 2 * MARGIN];
        Lent { before, now: before.to_vec() }
    }

    fn slice(&mut self) -> &mut [u8] {
        let end = self.now.len() - MARGIN;
        &mut self.now[MARGIN..end]
    }

    fn margins_untouched(&self) -> bool {
        let end = self.now.len() - MARGIN;
        self.now[..MARGIN] == self.before[..MARGIN] && self.now[end..] == self.before[end..]
    }

    fn is_zero(&mut self) -> bool {
        let slice = self.slice();
        slice == &ZERO[..slice.len()]
    }
}

/// What the library answers, or in words what it did wrong whatever the answer should be.
fn called(case: &Case, salt: usize) -> Result<Answer, String> {
    let (mut work, mut output) = (Lent::new(case.work, salt), Lent::new(case.output, salt + 1));
    let (formula, table) = (case.formula.clone(), case.table.clone());
    // An invented count must not be taken for what the call wrote.
    let mut count = usize::MAX;
    let number = unsafe {
        let (work, output) = (work.slice(), output.slice());
        jistranu::raw::jistranu_typst_to_latex(
            formula.as_ptr(),
            formula.len(),
            table.as_ptr(),
            table.len(),
            case.display,
            case.field,
            work.as_mut_ptr(),
            work.len(),
            output.as_mut_ptr(),
            output.len(),
            &mut count,
        )
    };
    let known = NUMBERS.iter().any(|&own| u64::from(own) == number);
    if !known || number != 0 && count != 0 || count > case.output {
        return Err(format!("number {number} with count {count}"));
    }
    if formula != case.formula || table != case.table {
        return Err("the formula or the table is written to".to_string());
    }
    if !work.margins_untouched() || !output.margins_untouched() {
        return Err("a byte outside of a buffer is written".to_string());
    }
    if output.now[MARGIN + count..] != output.before[MARGIN + count..] {
        return Err("a byte of the output behind the count is written".to_string());
    }
    if number == 4 && work.now != work.before {
        return Err("a work buffer that is too narrow is written to".to_string());
    }
    if number != 4 && !work.is_zero() {
        return Err("the work buffer is not all zero".to_string());
    }
    Ok(match number {
        0 => Answer::Done(output.slice()[..count].to_vec()),
        _ => Answer::Refused(number as u8),
    })
}

/// `typst_to_latex` as a whole: the test copy's, and the unchanged one where the table leaves it one order only, it loses no block,
/// no search of a call passes over a parenthesis, no round leaves a slash, and no delimiters stay small that it sizes.
fn whole(case: &Case) -> (Vec<u8>, Option<Vec<u8>>) {
    let records = refused_before_stages(case).expect("an accepted case");
    let formula = std::str::from_utf8(&case.formula).expect("only own bytes");
    let mut stages = Stages::new(STAGE_SYMBOLS);
    typst_to_latex(formula, &records, case.display, case.field, &mut stages).expect("an accepted case");
    let unchanged = one_order(&records) && stages.as_the_base();
    let map: HashMap<String, String> = records.into_iter().map(|Record { name, latex }| (name, latex)).collect();
    let copy = tall::under(case.field, || crate::changed::typst_to_latex(formula, &map, case.display)).into_bytes();
    (copy, unchanged.then(|| crate::typst_to_latex(formula, &map, case.display).into_bytes()))
}

struct Difference {
    index: u64,
    family: u8,
    case: Case,
    judge: Answer,
    library: Result<Answer, String>,
}

#[derive(Default)]
struct Findings {
    by_number: [u64; NUMBERS.len()],
    by_family: [u64; generate::FAMILIES.len()],
    other_field: u64,
    copy: u64,
    unchanged: u64,
    differences: Vec<Difference>,
}

impl Findings {
    fn check(&mut self, index: u64, Recorded { family, case, answer }: Recorded) {
        let row = NUMBERS.iter().position(|&number| number == answer.number()).expect("a number of an answer");
        self.by_number[row] += 1;
        self.by_family[usize::from(family)] += 1;
        self.other_field += u64::from(case.field != ALL_TALL);
        let library = called(&case, index as usize);
        let mut same = library.as_ref() == Ok(&answer);
        if same && answer.number() == 0 {
            let (copy, unchanged) = whole(&case);
            self.copy += 1;
            self.unchanged += u64::from(unchanged.is_some());
            same = copy == answer.bytes() && unchanged.is_none_or(|latex| latex == answer.bytes());
        }
        if !same {
            self.differences.push(Difference { index, family, case, judge: answer, library });
        }
    }

    fn join(&mut self, other: Findings) {
        let add = |sums: &mut [u64], more: &[u64]| sums.iter_mut().zip(more).for_each(|(sum, n)| *sum += n);
        add(&mut self.by_number, &other.by_number);
        add(&mut self.by_family, &other.by_family);
        self.other_field += other.other_field;
        self.copy += other.copy;
        self.unchanged += other.unchanged;
        self.differences.extend(other.differences);
    }
}

pub fn compare(seed: u64, n: u64, recorded: &[Recorded]) -> bool {
    let all = recorded.len() as u64 + n;
    let parts = workers::parts(|worker, workers| {
        let mut findings = Findings::default();
        for index in (worker as u64..all).step_by(workers) {
            let recorded = recorded.get(index as usize).cloned().unwrap_or_else(|| {
                let (family, case) = generate::any(seed, index - recorded.len() as u64);
                Recorded { family, answer: judge(&case), case }
            });
            findings.check(index, recorded);
        }
        findings
    });
    let mut findings = Findings::default();
    for part in parts {
        findings.join(part);
    }
    print(seed, n, recorded.len(), &findings);
    findings.differences.is_empty()
}

fn print(seed: u64, n: u64, recorded: usize, findings: &Findings) {
    println!("{recorded} recorded cases and {n} generated ones, seed {seed}: {} differences", findings.differences.len());
    println!("{} of them under another tall field than {ALL_TALL}", findings.other_field);
    println!(
        "{} of them by the test copy's typst_to_latex as a whole too, {} by the unchanged one\n",
        findings.copy, findings.unchanged
    );
    println!("| answer | cases |\n|---|---|");
    for (number, cases) in NUMBERS.iter().zip(findings.by_number) {
        println!("| {} | {cases} |", if *number == 0 { "done".to_string() } else { format!("refused {number}") });
    }
    println!("\n| family | cases |\n|---|---|");
    for ((_, family, _), cases) in generate::FAMILIES.iter().zip(findings.by_family) {
        println!("| {family} | {cases} |");
    }
    let differences = &findings.differences;
    if let Some(first) = differences.iter().min_by_key(|d| d.index) {
        show("the first difference", first);
    }
    if let Some(shortest) = differences.iter().min_by_key(|d| (d.case.formula.len() + d.case.table.len(), d.index)) {
        show("the shortest difference", shortest);
    }
}

fn show(title: &str, Difference { index, family, case, judge, library }: &Difference) {
    let family = generate::FAMILIES[usize::from(*family)].1;
    println!("\n{title}: case {index}, family {family}");
    println!("display {}, field {}, work {} bytes, output {} bytes", case.display, case.field, case.work, case.output);
    println!("formula {:?}", String::from_utf8_lossy(&case.formula));
    println!("formula in hexadecimal {}", hex(&case.formula));
    println!("table   {}", hex(&case.table));
    let shown = |answer: &Answer| match answer {
        Answer::Done(latex) => format!("ok {} {:?}", latex.len(), String::from_utf8_lossy(latex)),
        Answer::Refused(number) => format!("refused {number}"),
    };
    println!("judge   {}", shown(judge));
    println!("library {}", library.as_ref().map_or_else(Clone::clone, shown));
    if library.as_ref() == Ok(judge) {
        let (copy, unchanged) = whole(case);
        println!("test copy {:?}", String::from_utf8_lossy(&copy));
        println!("Rust    {:?}", unchanged.map(|latex| String::from_utf8_lossy(&latex).into_owned()));
    }
}
