//! The brace step by its description (request A10), against the Rust's function, on all short texts and on random ones; and random
//! ones with what each closer matches, for `oracle/compute`.

use super::super as rust;
use super::cases::hex;
use super::rng::Rng;
use super::workers;

/// Each kind of byte that the step tells apart.
const SYMBOLS: [u8; 10] = *b"{}a1_^\\ (=";

/// All texts of up to so many bytes are tried.
const SHORT: u32 = 6;

/// The most bytes of a random text, and of one that is written out.
const LONG: usize = 60;
const DUMPED: usize = 20;

/// Whether an opener behind this byte stays bare.
fn keeps_bare(before: u8) -> bool {
    before.is_ascii_alphabetic() || before.is_ascii_digit() || b"_^{}\\".contains(&before)
}

/// The place of each closer, with that of the opener that a stack matches it with.
fn closers(text: &[u8]) -> Vec<(usize, Option<usize>)> {
    let (mut open, mut closers) = (Vec::new(), Vec::new());
    for (at, byte) in text.iter().enumerate() {
        match byte {
            b'{' => open.push(at),
            b'}' => closers.push((at, open.pop())),
            _ => {}
        }
    }
    closers
}

/// The text with a backslash before every opener that does not stay bare, and before its closer if it has one.
fn escaped(text: &[u8]) -> Vec<u8> {
    let mut marked: Vec<bool> =
        (0..text.len()).map(|at| text[at] == b'{' && (at == 0 || !keeps_bare(text[at - 1]))).collect();
    for (closer, opener) in closers(text) {
        marked[closer] = opener.is_some_and(|opener| marked[opener]);
    }
    let mut out = Vec::new();
    for (&byte, marked) in text.iter().zip(marked) {
        out.extend(marked.then_some(b'\\'));
        out.push(byte);
    }
    out
}

/// The text of a number: all texts of one length, in turn.
fn text(length: u32, mut number: usize) -> Vec<u8> {
    (0..length).map(|_| (SYMBOLS[number % SYMBOLS.len()], number /= SYMBOLS.len()).0).collect()
}

fn random(rng: &mut Rng, most: usize) -> Vec<u8> {
    (0..rng.between(0, most)).map(|_| if rng.once_in(2) { rng.pick(b"{}") } else { rng.pick(&SYMBOLS) }).collect()
}

/// Whether the step does to the text what is told of it.
fn agrees(text: &[u8]) -> bool {
    let typed = std::str::from_utf8(text).expect("ASCII");
    let (told, found) = (escaped(text), rust::escape_set_braces(typed));
    let same = told == found.as_bytes();
    if !same {
        println!("{typed:?}: told {:?}, the Rust {found:?}", String::from_utf8_lossy(&told));
    }
    same
}

pub fn braces(seed: u64, n: u64) -> bool {
    let parts = workers::parts(|worker, workers| {
        let short = (0..=SHORT).flat_map(|length| (0..SYMBOLS.len().pow(length)).map(move |number| (length, number)));
        let mut differences = 0;
        for (length, number) in short.skip(worker).step_by(workers) {
            differences += u64::from(!agrees(&text(length, number)));
        }
        for index in (worker as u64..n).step_by(workers) {
            differences += u64::from(!agrees(&random(&mut Rng::new(seed, index), LONG)));
        }
        differences
    });
    let differences: u64 = parts.iter().sum();
    let all: usize = (0..=SHORT).map(|length| SYMBOLS.len().pow(length)).sum();
    println!("all {all} texts of up to {SHORT} bytes over {} symbols, {n} random ones, seed {seed}: {differences} differences", SYMBOLS.len());
    differences == 0
}

/// Lines `index text-hex matches output-hex`: a closer's place, a colon and its opener's, or nothing where it has none.
pub fn dump(seed: u64, n: u64) -> bool {
    for index in 0..n {
        let text = random(&mut Rng::new(seed, index), DUMPED);
        let written = |(closer, opener): (usize, Option<usize>)| {
            format!("{closer}:{}", opener.map_or(String::new(), |opener| opener.to_string()))
        };
        let matches: Vec<String> = closers(&text).into_iter().map(written).collect();
        let output = rust::escape_set_braces(std::str::from_utf8(&text).expect("ASCII"));
        let matches = if matches.is_empty() { "-".to_string() } else { matches.join(",") };
        println!("{index} {} {matches} {}", hex(&text), hex(output.as_bytes()));
    }
    true
}
