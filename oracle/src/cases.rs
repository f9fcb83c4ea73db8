//! The file of recorded cases, and cases as lines of text. All numbers in the file most significant byte first.

use super::judge::{Answer, Case};

const MAGIC: &[u8] = b"jistranu cases 2\n";

#[derive(Clone, Debug, PartialEq)]
pub struct Recorded {
    pub family: u8,
    pub case: Case,
    pub answer: Answer,
}

pub fn to_bytes(recorded: &[Recorded]) -> Vec<u8> {
    let mut bytes = MAGIC.to_vec();
    bytes.extend((recorded.len() as u32).to_be_bytes());
    for Recorded { family, case, answer } in recorded {
        bytes.push(*family);
        bytes.push(u8::from(case.display));
        bytes.push(u8::try_from(case.field).unwrap());
        bytes.extend(u32::try_from(case.work).unwrap().to_be_bytes());
        bytes.extend(u16::try_from(case.output).unwrap().to_be_bytes());
        bytes.extend(u16::try_from(case.formula.len()).unwrap().to_be_bytes());
        bytes.extend(u32::try_from(case.table.len()).unwrap().to_be_bytes());
        bytes.push(answer.number());
        bytes.extend(u16::try_from(answer.bytes().len()).unwrap().to_be_bytes());
        bytes.extend(&case.formula);
        bytes.extend(&case.table);
        bytes.extend(answer.bytes());
    }
    bytes
}

pub fn from_bytes(bytes: &[u8]) -> Option<Vec<Recorded>> {
    let mut rest = bytes.strip_prefix(MAGIC)?;
    let count = number(&mut rest, 4)?;
    let mut recorded = Vec::new();
    for _ in 0..count {
        let family = number(&mut rest, 1)? as u8;
        let display = number(&mut rest, 1)? == 1;
        let field = number(&mut rest, 1)? as u32;
        let work = number(&mut rest, 4)?;
        let output = number(&mut rest, 2)?;
        let formula_length = number(&mut rest, 2)?;
        let table_length = number(&mut rest, 4)?;
        let refusal = number(&mut rest, 1)? as u8;
        let count = number(&mut rest, 2)?;
        let formula = take(&mut rest, formula_length)?.to_vec();
        let table = take(&mut rest, table_length)?.to_vec();
        let latex = take(&mut rest, count)?.to_vec();
        let answer = if refusal == 0 { Answer::Done(latex) } else { Answer::Refused(refusal) };
        recorded.push(Recorded { family, case: Case { formula, table, display, field, work, output }, answer });
    }
    rest.is_empty().then_some(recorded)
}

pub fn take<'a>(rest: &mut &'a [u8], length: usize) -> Option<&'a [u8]> {
    let part = rest.get(..length)?;
    *rest = &rest[length..];
    Some(part)
}

pub fn number(rest: &mut &[u8], width: usize) -> Option<usize> {
    Some(take(rest, width)?.iter().fold(0, |n, &b| n << 8 | usize::from(b)))
}

/// `-` for no bytes, so that a line can be split at its blanks.
pub fn hex(bytes: &[u8]) -> String {
    if bytes.is_empty() {
        return "-".to_string();
    }
    bytes.iter().map(|b| format!("{b:02x}")).collect()
}

pub fn unhex(word: &str) -> Option<Vec<u8>> {
    if word == "-" {
        return Some(Vec::new());
    }
    if word.len() % 2 != 0 || !word.is_ascii() {
        return None;
    }
    (0..word.len()).step_by(2).map(|i| u8::from_str_radix(&word[i..i + 2], 16).ok()).collect()
}

/// A line of `answer`'s input: display, field, work length, output length, formula in hex, table in hex.
pub fn from_line(line: &str) -> Option<Case> {
    let words: Vec<&str> = line.split_whitespace().collect();
    let [display, field, work, output, formula, table] = words[..] else {
        return None;
    };
    Some(Case {
        display: match display {
            "0" => false,
            "1" => true,
            _ => return None,
        },
        field: field.parse().ok()?,
        work: work.parse().ok()?,
        output: output.parse().ok()?,
        formula: unhex(formula)?,
        table: unhex(table)?,
    })
}
