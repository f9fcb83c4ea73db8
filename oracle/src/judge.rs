//! The judge: the answer of document 01 for one call.
//!
//! The stages are the functions of `math_conv.rs` itself (they stand in the crate's root), called one by one with the
//! length check between them; the call rewritings are those of the test copy (A8). Where a check lies inside a function, or a request
//! changes it, the function's body is transcribed in `definitions.rs`, `words.rs`, `fractions.rs` and `sizing.rs`; those lines, and the
//! order of stages below, come from `math_conv.rs` (Pragmastat, Copyright (c) 2025 Andrey Akinshin, MIT licence).

use super::sizing::ALL_TALL;
use super::table::{self, Record};
use super::{definitions, veil, words};
use crate::changed;

pub const FORMULA_BYTES: usize = 4_096;
pub const WORK_BYTES: usize = 32_768;
pub const STAGE_SYMBOLS: usize = 8_192;

/// What a call is given. The work buffer matters by its length only.
#[derive(Clone, Debug, PartialEq)]
pub struct Case {
    pub formula: Vec<u8>,
    pub table: Vec<u8>,
    pub display: bool,
    pub field: u32,
    pub work: usize,
    pub output: usize,
}

/// A case with room enough, sized as the Rust does.
pub fn roomy(formula: &str, table: &[u8], display: bool) -> Case {
    Case {
        formula: formula.as_bytes().to_vec(),
        table: table.to_vec(),
        display,
        field: ALL_TALL,
        work: WORK_BYTES,
        output: STAGE_SYMBOLS,
    }
}

#[derive(Clone, Debug, PartialEq)]
pub enum Answer {
    Done(Vec<u8>),
    Refused(u8),
}

/// All numbers of answers; no case is refused by 6.
pub const NUMBERS: [u8; 12] = [0, 1, 2, 3, 4, 5, 6, 7, 8, 9, 10, 15];

impl Answer {
    /// 0 for done, else the number of the refusal.
    pub fn number(&self) -> u8 {
        match self {
            Answer::Done(_) => 0,
            Answer::Refused(number) => *number,
        }
    }

    pub fn bytes(&self) -> &[u8] {
        match self {
            Answer::Done(bytes) => bytes,
            Answer::Refused(_) => &[],
        }
    }
}

/// A refusal met on the way through the stages, with what the cross-check needs: the text that entered the function which
/// met it, and for 9 the place behind the slash.
#[derive(Clone, Debug)]
pub struct Trouble {
    pub number: u8,
    pub text: String,
    pub at: usize,
}

/// A block that the unchanged Rust loses: the mark that remains after its put-back, and the text that entered the function. The
/// base refused it by number 6.
#[derive(Clone, Debug)]
pub struct LostBlock {
    pub mark: char,
    pub text: String,
}

/// The limit on a stage's finished text, the lengths met so far, where the base refused 6, and what the base does not: whether a
/// closing search passed over a parenthesis, whether a round left a slash, and whether sizing left delimiters small that it sizes. And
/// the texts that entered the rounds and the sizing.
pub struct Stages {
    limit: usize,
    pub lengths: Vec<(String, usize)>,
    pub lost: Option<LostBlock>,
    pub passed_over: bool,
    pub left: bool,
    pub left_small: bool,
    pub before_rounds: Option<String>,
    pub before_sizing: Option<String>,
}

impl Stages {
    pub fn new(limit: usize) -> Self {
        Stages {
            limit,
            lengths: Vec::new(),
            lost: None,
            passed_over: false,
            left: false,
            left_small: false,
            before_rounds: None,
            before_sizing: None,
        }
    }

    /// Whether the unchanged Rust gives the same text, if its definitions have one order only: it loses no block, no search passed over
    /// a parenthesis, no round left a slash, and no delimiters stayed small that it sizes.
    pub fn as_the_base(&self) -> bool {
        self.lost.is_none() && !self.passed_over && !self.left && !self.left_small
    }

    /// Only the first loss counts: behind it the unchanged Rust has another text.
    pub fn base_loses(&mut self, mark: char, text: &str) {
        self.lost.get_or_insert_with(|| LostBlock { mark, text: text.to_string() });
    }

    /// Number 5: `length` is the stage's finished text in symbols, held blocks in full.
    pub fn finished_length(&mut self, stage: &str, length: usize) -> Result<(), Trouble> {
        self.lengths.push((stage.to_string(), length));
        if length > self.limit {
            return Err(Trouble { number: 5, text: stage.to_string(), at: length });
        }
        Ok(())
    }

    pub fn finished(&mut self, stage: &str, text: String) -> Result<String, Trouble> {
        self.finished_length(stage, text.chars().count())?;
        Ok(text)
    }
}

/// Numbers 4, 15, 2, 1, 3 in this order; the table's records where the call goes on to the stages.
pub fn refused_before_stages(case: &Case) -> Result<Vec<Record>, u8> {
    if case.work < WORK_BYTES {
        return Err(4);
    }
    if case.field > ALL_TALL {
        return Err(15);
    }
    refused_inputs(&case.formula, &case.table)
}

/// Numbers 2, 1, 3 in this order; else the table's records.
pub fn refused_inputs(formula: &[u8], table: &[u8]) -> Result<Vec<Record>, u8> {
    if formula.len() > FORMULA_BYTES {
        return Err(2);
    }
    if !formula.iter().all(|&b| table::is_own_byte(b)) {
        return Err(1);
    }
    table::read(table).ok_or(3)
}

pub fn judge(case: &Case) -> Answer {
    let records = match refused_before_stages(case) {
        Ok(records) => records,
        Err(number) => return Answer::Refused(number),
    };
    let formula = std::str::from_utf8(&case.formula).unwrap();
    match typst_to_latex(formula, &records, case.display, case.field, &mut Stages::new(STAGE_SYMBOLS)) {
        Err(trouble) => Answer::Refused(trouble.number),
        Ok(latex) if latex.len() > case.output => Answer::Refused(10),
        Ok(latex) => Answer::Done(latex.into_bytes()),
    }
}

/// The stages of `typst_to_latex`, the first trouble deciding.
pub fn typst_to_latex(
    typst_math: &str,
    records: &[Record],
    display: bool,
    field: u32,
    stages: &mut Stages,
) -> Result<String, Trouble> {
    let mut result = typst_math.to_string();
    result = stages.finished("solidus", result.replace("\\/", crate::LITERAL_SOLIDUS))?;
    for call in CALLS {
        // `attach` too is judged by its finished text, however long it was between two rewritings.
        let (next, passed_over) = veil::watched(|| (call.copy)(&result));
        stages.passed_over |= passed_over;
        result = stages.finished(call.stage, next)?;
    }
    result = stages.finished("quotes", crate::convert_text_quotes(&result))?;
    result = definitions::apply_definitions_outside_text(&result, records, stages)?;
    result = words::convert_syntax(&result, display, field, stages)?;
    result = stages.finished("alignment", crate::convert_alignment(&result))?;
    result = stages.finished("thin spaces", crate::drop_thin_space_after_commands(&result))?;
    Ok(result)
}

/// A rewriting of calls: the test copy's function, and the unchanged one.
pub struct Call {
    pub stage: &'static str,
    pub copy: fn(&str) -> String,
    pub unchanged: fn(&str) -> String,
}

macro_rules! named {
    ($stage:literal, $function:ident) => {
        Call { stage: $stage, copy: changed::$function, unchanged: crate::$function }
    };
}

/// The six of `convert_floor_ceil_abs`.
macro_rules! delimited {
    ($func_name:literal, $left_delim:literal, $right_delim:literal) => {
        Call {
            stage: $func_name,
            copy: |input| changed::convert_delimiter_func(input, $func_name, $left_delim, $right_delim),
            unchanged: |input| crate::convert_delimiter_func(input, $func_name, $left_delim, $right_delim),
        }
    };
}

pub const CALLS: [Call; 13] = [
    named!("op", convert_op),
    named!("cases", convert_cases),
    named!("attach", convert_attach),
    named!("bb", convert_bb),
    named!("bold", convert_bold),
    named!("binom", convert_binom),
    named!("upright", convert_upright),
    delimited!("floor(", "\\left\\lfloor ", " \\right\\rfloor"),
    delimited!("ceil(", "\\left\\lceil ", " \\right\\rceil"),
    delimited!("abs(", "\\left\\lvert ", " \\right\\rvert"),
    delimited!("cal(", "\\mathcal{", "}"),
    delimited!("frak(", "\\mathfrak{", "}"),
    delimited!("upright(", "\\mathrm{", "}"),
];
