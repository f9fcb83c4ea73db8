//! The tables.

use super::converters::{Converters, Times, TURNS, TYPICAL_TURNS};
use super::families::{families, Shape, LENGTHS, TYPICAL};
use super::search;
use std::fmt::Write;

/// One text that was timed.
pub struct Row {
    pub family: &'static str,
    pub bytes: usize,
    pub times: Times,
}

#[derive(Default)]
pub struct Report {
    pub text: String,
    pub rows: Vec<Row>,
}

impl Report {
    fn line(&mut self, line: &str) {
        println!("{line}");
        self.text.push_str(line);
        self.text.push('\n');
    }

    pub fn typical(&mut self, converters: &mut Converters) {
        self.line("### Typical formulas\n");
        self.line("Microseconds of a call and of the floor; how many times the floor Jistranu takes, and how many times as long as");
        self.line("Jistranu the Rust.\n");
        self.line("| formula | bytes | floor | Jistranu | kept | as it is | floors | kept, times | as it is, times |");
        self.line("|---|---|---|---|---|---|---|---|---|");
        let formulas: Vec<String> = TYPICAL.into_iter().map(str::to_string).collect();
        let every = converters.times_of(TYPICAL_TURNS, &formulas);
        let all: Vec<Times> = every.into_iter().map(|times| times.expect("the Rust takes the formula")).collect();
        for (formula, times) in formulas.iter().zip(&all) {
            assert!((10..=80).contains(&formula.len()), "{formula} has {} bytes", formula.len());
            assert_eq!(times.refused, 0, "{formula} is refused");
            self.line(&format!("| `{formula}` | {} | {} |", formula.len(), cells(*times)));
        }
        let (kept, as_is) = (sorted(&all, |t| t.kept / t.ours), sorted(&all, |t| t.as_is / t.ours));
        let floors = sorted(&all, |t| t.ours / t.floor);
        let middle = all.len() / 2;
        self.line(&format!(
            "\nA call takes {:.1} to {:.1} times the floor, {:.1} in the middle.",
            floors[0],
            floors[all.len() - 1],
            floors[middle]
        ));
        self.line(&format!(
            "The Rust with kept expressions takes {:.1} to {:.1} times as long, {:.1} in the middle; as it is, {:.0} to {:.0} \
             times, {:.0} in the middle.\n",
            kept[0],
            kept[all.len() - 1],
            kept[middle],
            as_is[0],
            as_is[all.len() - 1],
            as_is[middle]
        ));
    }

    pub fn families(&mut self, converters: &mut Converters) {
        self.line("### Families\n");
        self.line("Each at 16, 64, 256, 1,024 and 4,096 bytes: microseconds of Jistranu at each length; the least number of times");
        self.line("as long that the Rust takes at any of them; microseconds of the Rust at 4,096 bytes. `5` and the like: refused by");
        self.line("that number at 4,096 bytes. Behind them the floor, and how many times the floor Jistranu takes at 16 and at 4,096 bytes.\n");
        self.line(
            "| family | text | 16 | 64 | 256 | 1,024 | 4,096 | answer | kept, least times | as it is, least times | kept | as it is \
             | floor | floors at 16 | floors at 4,096 |",
        );
        self.line("|---|---|---|---|---|---|---|---|---|---|---|---|---|---|---|");
        let families = families();
        let texts: Vec<String> = families.iter().flat_map(|(_, shape)| LENGTHS.map(|bytes| shape.text(bytes))).collect();
        let every = converters.times_of(TURNS, &texts);
        for ((family, shape), times) in families.into_iter().zip(every.chunks(LENGTHS.len())) {
            let all: Vec<Times> = times.iter().map(|t| t.unwrap_or_else(|| panic!("the Rust panics on {family}"))).collect();
            let mut line = format!("| {} | {} |", family.replace('|', "\\|"), shape.shown());
            for times in &all {
                let _ = write!(line, " {} |", microseconds(times.ours));
            }
            let (first, last) = (all[0], all[all.len() - 1]);
            let floor = sorted(&all, |t| t.floor)[0];
            let (kept, as_is) = (sorted(&all, |t| t.kept / t.ours)[0], sorted(&all, |t| t.as_is / t.ours)[0]);
            let _ = write!(
                line,
                " {} | {kept:.1} | {as_is:.0} | {} | {} | {} | {:.1} | {:.1} |",
                answer(last.refused),
                microseconds(last.kept),
                microseconds(last.as_is),
                microseconds(floor),
                first.ours / floor,
                last.ours / floor
            );
            self.line(&line);
            self.rows.extend(LENGTHS.into_iter().zip(all).map(|(bytes, times)| Row { family, bytes, times }));
        }
        let least = |ratio: fn(&Times) -> f64, rows: &[Row]| {
            let row = rows.iter().min_by(|a, b| ratio(&a.times).total_cmp(&ratio(&b.times))).expect("rows");
            format!("{:.1} times ({}, {} bytes)", ratio(&row.times), row.family, row.bytes)
        };
        let (kept, as_is) = (least(|t| t.kept / t.ours, &self.rows), least(|t| t.as_is / t.ours, &self.rows));
        self.line(&format!("\nThe least of all: with kept expressions {kept}; as it is {as_is}.\n"));
    }

    /// The slowest texts of 4,096 bytes that the search finds, for Jistranu and for the Rust.
    pub fn slowest(&mut self, converters: &mut Converters) {
        self.line("### The slowest texts of 4,096 bytes\n");
        self.line("Found by changing the slowest families piece by piece, as long as that makes them slower. Milliseconds of a call.\n");
        for for_ours in [true, false] {
            let title = if for_ours { "For Jistranu" } else { "For the Rust" };
            self.line(&format!("| {title} | Jistranu | floors | answer | kept | as it is |"));
            self.line("|---|---|---|---|---|---|");
            let slowest = if for_ours { search::slowest_for_ours } else { search::slowest_for_kept };
            for shape in slowest(converters) {
                self.slow_row(converters, &shape, for_ours);
            }
            self.line("");
        }
    }

    /// Where Jistranu refuses a text, the Rust may go on for minutes: it is timed on the texts that were sought for it only.
    fn slow_row(&mut self, converters: &mut Converters, shape: &Shape, for_ours: bool) {
        let text = shape.text(4_096);
        let ms = |seconds: f64| format!("{:.2}", seconds * 1e3);
        let ours = (0..3).map(|_| converters.time_ours(1, &text)).fold(f64::MAX, f64::min);
        let floor = (0..3).map(|_| converters.time_floor(1_000)).fold(f64::MAX, f64::min);
        let refused = converters.refused(&text);
        let cells = match refused {
            number if number > 0 && for_ours => format!("{} | {:.0} | {number} | | ", ms(ours), ours / floor),
            number => match converters.times(TURNS, &text) {
                Some(t) => format!("{} | {:.0} | {} | {} | {}", ms(t.ours), t.ours / t.floor, answer(number), ms(t.kept), ms(t.as_is)),
                None => format!("{} | {:.0} | {number} | panics | panics", ms(ours), ours / floor),
            },
        };
        self.line(&format!("| {} | {cells} |", shape.shown()));
    }

    /// All figures of the families, in nanoseconds.
    pub fn figures(&self) -> String {
        let mut text = "family,bytes,floor,jistranu,kept,as it is,refused\n".to_string();
        for Row { family, bytes, times } in &self.rows {
            let ns = |seconds: f64| (seconds * 1e9).round();
            let (floor, ours, kept, as_is) = (ns(times.floor), ns(times.ours), ns(times.kept), ns(times.as_is));
            let _ = writeln!(text, "\"{family}\",{bytes},{floor},{ours},{kept},{as_is},{}", times.refused);
        }
        text
    }
}

fn sorted(all: &[Times], ratio: fn(&Times) -> f64) -> Vec<f64> {
    let mut ratios: Vec<f64> = all.iter().map(ratio).collect();
    ratios.sort_by(f64::total_cmp);
    ratios
}

fn answer(refused: u8) -> String {
    match refused {
        0 => "done".to_string(),
        number => number.to_string(),
    }
}

fn microseconds(seconds: f64) -> String {
    let us = seconds * 1e6;
    match us {
        _ if us < 10.0 => format!("{us:.2}"),
        _ if us < 100.0 => format!("{us:.1}"),
        _ => format!("{us:.0}"),
    }
}

fn cells(t: Times) -> String {
    let (floor, ours, kept, as_is) = (microseconds(t.floor), microseconds(t.ours), microseconds(t.kept), microseconds(t.as_is));
    format!("{floor} | {ours} | {kept} | {as_is} | {:.1} | {:.1} | {:.0}", t.ours / t.floor, t.kept / t.ours, t.as_is / t.ours)
}

/// Everything behind the heading of the last run is replaced.
pub fn replace_last_run(file: &str, tables: &str) {
    const HEADING: &str = "## The last run\n";
    let text = std::fs::read_to_string(file).expect("the page of speeds");
    let end = text.find(HEADING).expect("the heading of the last run") + HEADING.len();
    std::fs::write(file, format!("{}\n{}\n", &text[..end], tables.trim_end())).expect("the page can be written");
}
