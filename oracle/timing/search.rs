//! Looks for slow texts: the slowest families, changed piece by piece as long as that makes them slower.

use super::converters::{unless_panic, Converters};
use super::families::{families, Shape};

const BYTES: usize = 4_096;
/// So many families are changed, for so many seconds of calls each.
const STARTS: usize = 6;
const SECONDS: f64 = 3.0;

const PIECES: [&str; 50] = [
    "a", "x", "1", " ", "(", ")", "[", "]", "{", "}", "/", "\\/", "_", "^", "_(", "^(", "_{", "\"", "\\", ",", "|", "&", "%", "!",
    " + ", "op(", "cases(", "attach(", ", b: ", "bb(", "binom(", "upright(", "floor(", "abs(", "cal(", "sqrt(", "lr(", "sin(",
    "\\text{", "\\mathrm{", "\\lvert", "\\rvert", "\\left", "alpha", "eta", "sum", "in", "Phi", "\\frac{", "}{",
];

/// Numbers from a fixed seed (splitmix64).
struct Rng(u64);

impl Rng {
    fn below(&mut self, n: usize) -> usize {
        self.0 = self.0.wrapping_add(0x9E37_79B9_7F4A_7C15);
        let mut z = self.0;
        z = (z ^ (z >> 30)).wrapping_mul(0xBF58_476D_1CE4_E5B9);
        z = (z ^ (z >> 27)).wrapping_mul(0x94D0_49BB_1331_11EB);
        ((z ^ (z >> 31)) % n as u64) as usize
    }
}

pub fn slowest_for_ours(converters: &mut Converters) -> Vec<Shape> {
    climb(|formula| converters.time_ours(1, formula))
}

pub fn slowest_for_kept(converters: &mut Converters) -> Vec<Shape> {
    climb(|formula| unless_panic(|| converters.time_kept(1, formula)).unwrap_or(0.0))
}

fn climb(mut time: impl FnMut(&str) -> f64) -> Vec<Shape> {
    let mut cost = |shape: &Shape| {
        let text = shape.text(BYTES);
        time(&text).min(time(&text))
    };
    let mut found: Vec<(f64, Shape)> = families().into_iter().map(|(_, shape)| (cost(&shape), shape)).collect();
    found.sort_by(|a, b| b.0.total_cmp(&a.0));
    found.truncate(STARTS);
    let mut rng = Rng(1);
    for (slowest, shape) in &mut found {
        let mut spent = 0.0;
        while spent < SECONDS {
            let next = changed(&mut rng, shape);
            let seconds = cost(&next);
            // Texts that take next to no time must end too.
            spent += 2.0 * seconds + 1e-3;
            if seconds > *slowest * 1.02 {
                (*slowest, *shape) = (seconds, next);
            }
        }
    }
    found.sort_by(|a, b| b.0.total_cmp(&a.0));
    found.into_iter().map(|(_, shape)| shape).collect()
}

/// One piece put in, taken out, or exchanged.
fn changed(rng: &mut Rng, shape: &Shape) -> Shape {
    let mut next = shape.clone();
    let part = match rng.below(8) {
        0..=3 => &mut next.head,
        4 | 5 => &mut next.tail,
        6 => &mut next.core,
        _ => &mut next.front,
    };
    let piece = PIECES[rng.below(PIECES.len())];
    let at = rng.below(part.len() + 1);
    match rng.below(5) {
        0 => part.insert_str(at, piece),
        1 => part.push_str(piece),
        2 => *part = piece.to_string(),
        3 => drop(part.drain(at..(at + 1 + rng.below(4)).min(part.len()).max(at))),
        _ => part.clear(),
    }
    if next.head.is_empty() {
        next.head = piece.to_string();
    }
    next
}
