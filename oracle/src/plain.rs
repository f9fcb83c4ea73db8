//! Plain formulas by document 01's grammar, with slashes in numerators too (A4).

use super::rng::Rng;
use super::word_tables::GREEK_LETTERS;

/// How deep parentheses may go, and whether scripts are allowed here.
#[derive(Clone, Copy)]
struct Room {
    depth: usize,
    scripts: bool,
}

pub fn plain(rng: &mut Rng, depth: usize) -> String {
    sum(rng, Room { depth, scripts: true })
}

fn sum(rng: &mut Rng, room: Room) -> String {
    let mut text = product(rng, room);
    while rng.once_in(3) {
        text.push_str(rng.pick(&[" + ", " - "]));
        text.push_str(&product(rng, room));
    }
    text
}

fn product(rng: &mut Rng, room: Room) -> String {
    let mut text = factor(rng, room);
    while rng.once_in(4) {
        text.push(' ');
        text.push_str(&factor(rng, room));
    }
    text
}

fn factor(rng: &mut Rng, room: Room) -> String {
    match rng.below(6) {
        0 | 1 => format!("{}/{}", operand(rng, room), operand(rng, room)),
        2 if room.depth > 0 => format!("({})", sum(rng, inner(room))),
        _ => scripted(rng, room),
    }
}

fn inner(room: Room) -> Room {
    Room { depth: room.depth - 1, ..room }
}

fn scripted(rng: &mut Rng, room: Room) -> String {
    let mut text = atom(rng);
    for mark in ['_', '^'] {
        if room.scripts && rng.once_in(4) {
            text.push(mark);
            text.push_str(&script(rng, room));
        }
    }
    text
}

fn script(rng: &mut Rng, room: Room) -> String {
    if room.depth > 0 && rng.once_in(2) {
        return format!("({})", sum(rng, Room { scripts: false, ..inner(room) }));
    }
    rng.pick(&["a", "k", "Z", "0", "9", "n"]).to_string()
}

fn operand(rng: &mut Rng, room: Room) -> String {
    if room.depth == 0 || rng.once_in(2) {
        return atom(rng);
    }
    // A fraction alone is an operand too. A sum in parentheses that is a lone atom is none: join a second factor.
    let first = sum(rng, inner(room));
    let lone_atom = first.chars().all(|c| c.is_ascii_alphanumeric());
    if !lone_atom && rng.once_in(2) {
        return format!("({first})");
    }
    format!("({first}{}{})", rng.pick(&[" + ", " - ", " "]), product(rng, inner(room)))
}

fn atom(rng: &mut Rng) -> String {
    match rng.below(4) {
        0 => rng.pick(&GREEK_LETTERS).0.to_string(),
        1 => (0..rng.between(1, 9)).map(|_| char::from(b'0' + rng.below(10) as u8)).collect(),
        _ => rng.pick(&["a", "b", "c", "x", "y", "z", "A", "B", "N"]).to_string(),
    }
}
