//! How the time grows with the length, as a picture: both axes in powers, a line for typical formulas and the range of all
//! families around it.

use super::converters::Times;
use super::families::{LENGTHS, REPEATED};
use super::report::Row;
use std::fmt::Write;

const WIDTH: f64 = 720.0;
const HEIGHT: f64 = 460.0;
const LEFT: f64 = 70.0;
const RIGHT: f64 = 140.0;
const TOP: f64 = 46.0;
const BOTTOM: f64 = 52.0;

type Converter = (&'static str, &'static str, fn(&Times) -> f64);
const CONVERTERS: [Converter; 3] = [
    ("Rust as it is", "#b4472e", |t| t.as_is),
    ("Rust, kept", "#c08a1e", |t| t.kept),
    ("Jistranu", "#2a5db0", |t| t.ours),
];

/// The places of powers: nanoseconds upwards, bytes to the right.
struct Axes {
    low: f64,
    high: f64,
}

impl Axes {
    fn x(&self, bytes: usize) -> f64 {
        let (first, last) = (LENGTHS[0] as f64, LENGTHS[LENGTHS.len() - 1] as f64);
        LEFT + (WIDTH - LEFT - RIGHT) * (bytes as f64 / first).ln() / (last / first).ln()
    }

    fn y(&self, seconds: f64) -> f64 {
        let share = (seconds.log10() - self.low) / (self.high - self.low);
        HEIGHT - BOTTOM - (HEIGHT - TOP - BOTTOM) * share
    }
}

pub fn svg(rows: &[Row]) -> String {
    let all = |pick: fn(f64, f64) -> f64| {
        let times = rows.iter().flat_map(|row| CONVERTERS.map(|(_, _, time)| time(&row.times)));
        times.reduce(pick).expect("rows").log10()
    };
    let axes = Axes { low: all(f64::min).floor(), high: all(f64::max).ceil() };
    let mut svg = format!(
        "<svg xmlns=\"http://www.w3.org/2000/svg\" viewBox=\"0 0 {WIDTH} {HEIGHT}\" font-family=\"sans-serif\" \
         font-size=\"12\">\n<rect width=\"{WIDTH}\" height=\"{HEIGHT}\" fill=\"#ffffff\"/>\n\
         <text x=\"{LEFT}\" y=\"20\" font-size=\"14\">Time of a call by the formula's length</text>\n\
         <text x=\"{LEFT}\" y=\"36\" fill=\"#555555\">lines: typical formulas, one after the other; shaded: all families</text>\n"
    );
    grid(&axes, &mut svg);
    for converter in CONVERTERS {
        range(&axes, rows, converter, &mut svg);
    }
    let mut labelled = Vec::new();
    for converter in CONVERTERS {
        line(&axes, rows, converter, &mut labelled, &mut svg);
    }
    svg + "</svg>\n"
}

fn grid(axes: &Axes, svg: &mut String) {
    let (right, bottom) = (WIDTH - RIGHT, HEIGHT - BOTTOM);
    for power in axes.low as i32..=axes.high as i32 {
        let y = axes.y(10f64.powi(power));
        let unit = ["1", "10", "100"][power.rem_euclid(3) as usize];
        let name = match power.div_euclid(3) {
            -3 => "ns",
            -2 => "µs",
            -1 => "ms",
            _ => "s",
        };
        let _ = writeln!(svg, "<path d=\"M{LEFT} {y:.1}H{right}\" stroke=\"#dddddd\"/>");
        let _ = writeln!(svg, "<text x=\"{}\" y=\"{:.1}\" text-anchor=\"end\">{unit} {name}</text>", LEFT - 8.0, y + 4.0);
    }
    for bytes in LENGTHS {
        let x = axes.x(bytes);
        let _ = writeln!(svg, "<path d=\"M{x:.1} {TOP}V{bottom}\" stroke=\"#dddddd\"/>");
        let _ = writeln!(svg, "<text x=\"{x:.1}\" y=\"{}\" text-anchor=\"middle\">{bytes}</text>", bottom + 18.0);
    }
    let middle = (LEFT + right) / 2.0;
    let _ = writeln!(svg, "<text x=\"{middle}\" y=\"{}\" text-anchor=\"middle\">bytes of the formula</text>", bottom + 38.0);
}

/// From the fastest to the slowest family at each length.
fn range(axes: &Axes, rows: &[Row], (_, colour, time): Converter, svg: &mut String) {
    let extreme = |bytes: usize, pick: fn(f64, f64) -> f64| {
        let times = rows.iter().filter(|row| row.bytes == bytes).map(|row| time(&row.times));
        (axes.x(bytes), axes.y(times.reduce(pick).expect("rows of each length")))
    };
    let upper = LENGTHS.iter().map(|&bytes| extreme(bytes, f64::max));
    let lower = LENGTHS.iter().rev().map(|&bytes| extreme(bytes, f64::min));
    let points: Vec<String> = upper.chain(lower).map(|(x, y)| format!("{x:.1},{y:.1}")).collect();
    let _ = writeln!(svg, "<polygon points=\"{}\" fill=\"{colour}\" fill-opacity=\"0.13\"/>", points.join(" "));
}

fn line(axes: &Axes, rows: &[Row], (name, colour, time): Converter, labelled: &mut Vec<f64>, svg: &mut String) {
    let of_family = rows.iter().filter(|row| row.family == REPEATED);
    let points: Vec<(f64, f64)> = of_family.map(|row| (axes.x(row.bytes), axes.y(time(&row.times)))).collect();
    let path: Vec<String> = points.iter().map(|(x, y)| format!("{x:.1},{y:.1}")).collect();
    let _ = writeln!(svg, "<polyline points=\"{}\" fill=\"none\" stroke=\"{colour}\" stroke-width=\"2\"/>", path.join(" "));
    for (x, y) in &points {
        let _ = writeln!(svg, "<circle cx=\"{x:.1}\" cy=\"{y:.1}\" r=\"3\" fill=\"{colour}\"/>");
    }
    // Where two lines end close together, the lower one's label moves down.
    let (x, mut y) = points[points.len() - 1];
    while labelled.iter().any(|other| (other - y).abs() < 14.0) {
        y += 1.0;
    }
    labelled.push(y);
    let _ = writeln!(svg, "<text x=\"{:.1}\" y=\"{:.1}\" fill=\"{colour}\">{name}</text>", x + 9.0, y + 4.0);
}
