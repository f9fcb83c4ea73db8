//! The recorded cases: all cases written by hand, each entry of the Rust's tables among neighbours, the limits, every
//! pair of refusals, and a share of each generated family. The same seed gives the same file.

use super::cases::Recorded;
use super::generate::{self, entry_names, family_number, name_among_neighbours, of_family};
use super::judge::{judge, roomy, Case, STAGE_SYMBOLS};
use super::rng::Rng;
use super::table::{record_bytes, Form};
use super::{lengths, long_tables, tables, tall_cases, traps};

/// How many cases of each generated family, and how many bytes their formulas may have.
const SHARES: [(&str, usize, usize); 18] = [
    ("names", 400, 100),
    ("expressions", 900, 110),
    ("soup", 700, 90),
    ("mutated", 800, 90),
    ("bytes", 300, 60),
    ("calls", 400, 110),
    ("quotients", 800, 110),
    ("blocks", 500, 110),
    ("finishing", 500, 100),
    ("plain", 300, 120),
    ("near plain", 200, 110),
    ("defined", 1_000, 110),
    ("buffers", 900, 90),
    ("equal lengths", 300, 110),
    ("enclosed", 400, 110),
    ("quoted", 400, 110),
    ("wide", 280, 110),
    ("chains", 400, 60),
];

struct Recorder {
    seed: u64,
    recorded: Vec<Recorded>,
}

impl Recorder {
    fn add(&mut self, family: &str, case: Case) {
        let family = family_number(family).expect("a family");
        self.recorded.push(Recorded { family, answer: judge(&case), case });
    }

    fn rng(&self, index: usize) -> Rng {
        Rng::new(self.seed, index as u64)
    }
}

pub fn record(seed: u64) -> Vec<Recorded> {
    let mut recorder = Recorder { seed, recorded: Vec::new() };
    by_hand(&mut recorder);
    entries(&mut recorder);
    shares(&mut recorder);
    faults(&mut recorder);
    limits(&mut recorder);
    refusals(&mut recorder);
    tall(&mut recorder);
    recorder.recorded
}

fn by_hand(recorder: &mut Recorder) {
    for (i, line) in traps::lines().into_iter().enumerate() {
        let family = generate::FAMILIES[usize::from(line.family)].1;
        let on = roomy(&line.formula, &line.table, true);
        let off = roomy(&line.formula, &line.table, false);
        // Without display only where that matters, and now and then where it must not.
        let off_too = i % 5 == 0 || judge(&on) != judge(&off);
        recorder.add(family, on);
        if off_too {
            recorder.add(family, off);
        }
    }
}

fn entries(recorder: &mut Recorder) {
    for (i, name) in entry_names().into_iter().enumerate() {
        for neighbours in [1, 2, 3, 4] {
            let formula = name_among_neighbours(name, neighbours);
            recorder.add("names", roomy(&formula, &[], (i + neighbours) % 3 != 0));
        }
    }
}

fn shares(recorder: &mut Recorder) {
    for (family, count, most) in SHARES {
        share(recorder, family, count, most);
    }
}

fn share(recorder: &mut Recorder, family: &str, count: usize, most: usize) {
    let number = family_number(family).expect("a family");
    let mut added = 0;
    for index in 0.. {
        let mut rng = recorder.rng(index + 1_000_000 * usize::from(number));
        let case = of_family(number, &mut rng, 3);
        if case.formula.len() <= most && case.table.len() <= 200 {
            recorder.add(family, case);
            added += 1;
        }
        if added == count {
            break;
        }
    }
}

/// The tall field. They stand last, so that the cases before A13 keep their indices.
fn tall(recorder: &mut Recorder) {
    for case in tall_cases::cases() {
        recorder.add("tall", case);
    }
    share(recorder, "tall", 60, 60);
}

/// Every fault of number 3 three times; the greatest tables once, those of the wide form with the other long tables.
fn faults(recorder: &mut Recorder) {
    for fault in 0..tables::faults(Form::Narrow) {
        let times = if matches!(fault, 10 | 13) { 1 } else { 3 };
        for time in 0..times {
            let mut rng = recorder.rng(100 * fault + time);
            let table = tables::faulty(&mut rng, fault, Form::Narrow);
            recorder.add("tables", roomy("ab + mab/zz q1", &table, true));
        }
    }
    for fault in (0..tables::faults(Form::Wide)).filter(|fault| !matches!(fault, 10 | 13)) {
        for time in 0..3 {
            let mut rng = recorder.rng(10_000 + 100 * fault + time);
            let table = tables::faulty(&mut rng, fault, Form::Wide);
            recorder.add("wide", roomy("ab + mab/zz q1", &table, true));
        }
    }
    for case in long_tables::cases() {
        recorder.add("wide", case);
    }
    // The longest name with the longest LaTeX and with none, and the same name one byte too long to match.
    let name = "n".repeat(63);
    for latex in [1_023, 0] {
        let table = record_bytes(name.as_bytes(), &vec![b'x'; latex]);
        recorder.add("tables", roomy(&format!("{name}/2 n{name} {name}1"), &table, true));
    }
    // A definition that grows to the limit (or one symbol above), and one that shortens the text again afterwards.
    let table = [record_bytes(b"grow", "ab ".repeat(341).as_bytes()), record_bytes(b"ab", b"")].concat();
    for more in ["", "+"] {
        recorder.add("growth", roomy(&("grow+".repeat(8) + more), &table, true));
    }
}

fn limits(recorder: &mut Recorder) {
    for (i, bytes) in (4_094..=4_098).enumerate() {
        let mut rng = recorder.rng(i);
        let formula = lengths::formula_of(&mut rng, bytes, "a/b");
        let output = if bytes == 4_096 { STAGE_SYMBOLS } else { 4_000 };
        recorder.add("long", Case { output, ..roomy(&formula, &[], true) });
        recorder.add("long", roomy(&formula.replace("a/b", "\u{1}/b"), &[], false));
    }
    for (i, filler) in lengths::FILLERS.into_iter().enumerate() {
        // The whole 4,096 bytes where the limit of 8,192 symbols is near, else enough to go deep.
        let bytes = if i % 3 == 0 { 4_096 } else { 1_200 };
        let formula = filler.repeat(bytes / filler.len());
        recorder.add("long", Case { output: 100 * i, ..roomy(&formula, &[], i % 4 != 3) });
    }
    for (pairs, filler) in [(628, 24), (628, 25), (630, 0), (1_600, 0)] {
        recorder.add("growth", Case { output: 8_000, ..roomy(&lengths::sized(pairs, filler), &[], true) });
    }
    recorder.add("growth", roomy(&lengths::sized(628, 24), &[], true));
    for (i, growth) in lengths::GROWTHS.iter().enumerate() {
        for target in [STAGE_SYMBOLS, STAGE_SYMBOLS + 1] {
            let mut case = lengths::growing(growth, target, i % 5 != 0 || growth.stage.starts_with("round"));
            // An answer of 8,192 bytes takes room: of most, only that it is not too long (10 after 5).
            if i % 12 != 0 {
                case.output = 8_000 + i;
            }
            recorder.add("growth", case);
        }
        if growth.pumped && i % 4 == 0 {
            let mut case = lengths::growing(growth, STAGE_SYMBOLS - 1, true);
            case.output = 0;
            recorder.add("growth", case);
        }
    }
    for (i, latex) in lengths::BLOCKS.into_iter().enumerate() {
        for target in [STAGE_SYMBOLS - 1, STAGE_SYMBOLS, STAGE_SYMBOLS + 1] {
            let mut case = lengths::many_blocks(latex, target);
            // The answer itself once for each, which fills its buffer.
            case.output = if target == STAGE_SYMBOLS { target } else { 8_000 + i };
            recorder.add("enclosed", case);
        }
    }
    for (i, formula) in lengths::typed_blocks().into_iter().enumerate() {
        recorder.add("enclosed", roomy(&formula, &[], i % 3 != 2));
    }
    for (i, formula) in lengths::many_quotes().into_iter().enumerate() {
        recorder.add("quoted", roomy(&formula, &[], i % 3 != 2));
    }
    for core in ["a/a", "a", "a/abs(b \\/ c)"] {
        for way in 0..lengths::WAYS {
            let counts: &[usize] = match way {
                0 | 1 | 6 | 9 => &[1, 2, 62, 63, 64, 65, 66],
                2..lengths::TWO_SLASHES => &[1, 2, 62, 63, 64, 65],
                _ => &[1, 2, 30, 31, 32, 33],
            };
            for &slashes in counts {
                let mut case = roomy(&lengths::nested(way, slashes, core), &[], true);
                // Of long answers, only that they are not too long.
                case.output = if !matches!(way, 0 | 1 | 6 | 9) && slashes > 30 { 7 * slashes } else { case.output };
                recorder.add("rounds", case);
            }
        }
    }
    recorder.add("rounds", roomy(&lengths::nested(0, 66, "a"), &[], false));
    // Numerators in denominators and the other way round, and in chains: 62 to 66 rounds.
    for (outer, inner) in [(0, 6), (6, 0), (9, 0), (0, 9), (9, 6), (6, 9), (1, 7), (4, 10), (8, 3)] {
        for slashes in 29..=33 {
            let formula = lengths::nested(outer, 32, &lengths::nested(inner, slashes, "a/a"));
            recorder.add("rounds", roomy(&formula, &[], true));
        }
    }
    // Bars at the end of a chain, which 9 meets in the round of their slash, unless 7 comes first.
    for slashes in 62..=66 {
        recorder.add("rounds", roomy(&("a/".repeat(slashes) + "abs(b \\/ c)"), &[], true));
    }
    // The first slash here is within a script: it is not left, and the chain behind it begins in the first round.
    for slashes in 63..=65 {
        recorder.add("rounds", roomy(&format!("x_(c/{{d_(}}/{{)}}{})", "/b".repeat(slashes)), &[], true));
    }
    for formula in lengths::long_chains() {
        recorder.add("chains", Case { output: 8_000, ..roomy(&formula, &[], true) });
    }
}

/// Every number alone, and every pair in both places; for 6, what the base refused.
fn refusals(recorder: &mut Recorder) {
    for first in 1..=10 {
        for second in 1..=10 {
            let mut rng = recorder.rng(1_000 + 10 * first + second);
            let mut case = generate::refused_by(&mut rng, first, Form::Narrow);
            if second != first {
                generate::merge_refusal(&mut rng, &mut case, second);
            }
            // Once is enough where a formula of more than 4,096 bytes is part of it.
            if case.formula.len() <= 4_096 || first > second {
                recorder.add("two refusals", case);
            }
        }
    }
    // Each with a faulty table of the wide form, and 5 by a wide table alone.
    for number in 1..=10 {
        let mut rng = recorder.rng(2_000 + number);
        let mut case = generate::refused_by(&mut rng, number, Form::Wide);
        if number == 5 {
            recorder.add("wide", case.clone());
        }
        if number != 3 {
            generate::merge_refusal(&mut rng, &mut case, 3);
        }
        recorder.add("wide", case);
    }
    for work in [0, 1, 32_767, 32_768, 32_769, 40_000] {
        for output in [0, 10, 11, 12] {
            recorder.add("buffers", Case { work, output, ..roomy("a/b", &[], true) });
        }
        recorder.add("buffers", Case { work, output: 0, ..roomy("", &[], true) });
    }
}
