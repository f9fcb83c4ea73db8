//! Document 02's A10 on the library: two plain formulas and their join by ` + `, each in a call of its own under one tall field.

use super::grammar;
use super::judge::{FORMULA_BYTES, STAGE_SYMBOLS, WORK_BYTES};
use super::plain_trial::{long, nested};
use super::rng::Rng;
use super::{plain, workers};
use jistranu::{Refusal, Tall};

/// Now and then one that is refused for its depth or its length, alone or in the join.
fn formula(rng: &mut Rng) -> String {
    let depth = rng.between(1, 5);
    match rng.below(100) {
        0..=89 => plain::plain(rng, depth),
        90..=95 => nested(rng),
        96 => long(rng),
        _ => {
            let mut text = long(rng);
            text.truncate(rng.between(1, FORMULA_BYTES));
            text
        }
    }
}

/// In an output of some bytes, which tells whether old ones stay.
fn convert(formula: &str, table: &[u8], tall: Tall, output: usize) -> Result<Vec<u8>, Refusal> {
    let (mut work, mut output) = (vec![7; WORK_BYTES], vec![9; output]);
    jistranu::convert(formula.as_bytes(), table, true, tall, &mut work, &mut output).map(|latex| latex.to_vec())
}

#[derive(Default)]
struct Findings {
    accepted: u64,
    refused: u64,
    differences: Vec<(u64, String)>,
}

impl Findings {
    fn check(&mut self, index: u64, rng: &mut Rng) {
        let (first, second) = (formula(rng), formula(rng));
        if grammar::parse(&first).is_none() || grammar::parse(&second).is_none() {
            return;
        }
        let join = format!("{first} + {second}");
        let field = rng.below(32) as u8;
        if let Err(what) = self.differs(&first, &second, &join, field, rng) {
            self.differences.push((index, format!("{what}\nfield  {field}\nfirst  {first:?}\nsecond {second:?}")));
        }
    }

    fn differs(&mut self, first: &str, second: &str, join: &str, field: u8, rng: &mut Rng) -> Result<(), String> {
        let is_plain = jistranu::plain_check(join.as_bytes()).is_some();
        if is_plain != (join.len() <= FORMULA_BYTES) {
            return Err(format!("a join of {} bytes, plain: {is_plain}", join.len()));
        }
        let tall = Tall::try_from(field).expect("a field of at most 31");
        let table = |rng: &mut Rng| -> &[u8] { rng.pick(&[b"" as &[u8], b"\0"]) };
        let Ok(whole) = convert(join, table(rng), tall, STAGE_SYMBOLS) else {
            self.refused += 1;
            return Ok(());
        };
        self.accepted += 1;
        // A part fits where the whole does, and in a buffer of its own length.
        let of_part = |part: &str, rng: &mut Rng| -> Result<Vec<u8>, String> {
            let roomy = convert(part, table(rng), tall, whole.len()).map_err(|why| format!("{part:?} refused: {why:?}"))?;
            let tight = convert(part, table(rng), tall, roomy.len()).map_err(|why| format!("{part:?} refused: {why:?}"))?;
            if roomy == tight { Ok(tight) } else { Err(format!("{part:?} prints in two ways")) }
        };
        let parts = [of_part(first, rng)?, of_part(second, rng)?].join(b" + " as &[u8]);
        if parts == whole { Ok(()) } else { Err(format!("join   {:?}\nparts  {:?}", String::from_utf8_lossy(&whole), String::from_utf8_lossy(&parts))) }
    }
}

pub fn trial(seed: u64, n: u64) -> bool {
    let parts = workers::parts(|worker, workers| {
        let mut findings = Findings::default();
        for index in (worker as u64..n).step_by(workers) {
            findings.check(index, &mut Rng::new(seed, index));
        }
        findings
    });
    let mut differences: Vec<(u64, String)> = Vec::new();
    let (mut accepted, mut refused) = (0, 0);
    for part in parts {
        accepted += part.accepted;
        refused += part.refused;
        differences.extend(part.differences);
    }
    println!("{n} pairs, seed {seed}: {} differences", differences.len());
    println!("{accepted} joins accepted, {refused} refused, {} pairs not plain", n - accepted - refused - differences.len() as u64);
    if let Some((index, what)) = differences.iter().min_by_key(|(index, what)| (what.len(), *index)) {
        println!("\nthe shortest difference: pair {index}\n{what}");
    }
    differences.is_empty()
}
