//! Times the three converters, and prints tables, figures and a plot.

mod clock;
mod converters;
mod families;
mod plot;
mod report;
mod search;

use converters::Converters;
use report::Report;

const SPEED: &str = "docs/SPEED.md";
const PLOT: &str = "docs/speed.svg";
const FIGURES: &str = "target/speed/times.csv";

/// The Rust calls itself once for each nested pair of parentheses.
const STACK: usize = 1 << 28;

pub fn main() {
    let thread = std::thread::Builder::new().stack_size(STACK).spawn(run).expect("a thread");
    if thread.join().is_err() {
        std::process::exit(1);
    }
}

fn run() {
    let write = std::env::args().any(|word| word == "--write");
    let mut converters = Converters::default();
    let mut report = Report::default();
    report.typical(&mut converters);
    report.families(&mut converters);
    report.slowest(&mut converters);
    std::fs::write(FIGURES, report.figures()).expect("the figures can be written");
    if write {
        report::replace_last_run(SPEED, &report.text);
        std::fs::write(PLOT, plot::svg(&report.rows)).expect("the plot can be written");
    }
}
