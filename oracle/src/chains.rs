//! The rounds of a formula's fractions (A4): the judge's, the test copy's and the unchanged ones, held against each other round by round.

use super::crosscheck::{unless_panic, FOLLOWED};
use super::fractions::{convert_regular_fractions, ROUNDS};
use super::left::{watched, Done};
use crate::changed;

/// What was found in the rounds of a text: in how many nothing is left; of those in which a slash is left, in how many the unchanged round
/// gives the same text and in how many not; and the first disagreement in words.
#[derive(Default)]
pub struct Rounds {
    pub nothing_left: usize,
    pub same_text: usize,
    pub other_text: usize,
    pub disagreement: Option<&'static str>,
}

/// The rounds from this text on: up to one that settles, one that meets 9, or the 65th.
pub fn rounds(text: &str) -> Rounds {
    let mut found = Rounds::default();
    let mut text = text.to_string();
    for _ in 0..=ROUNDS {
        let mut done = Done::default();
        let Ok(next) = convert_regular_fractions(&text, &mut done) else {
            // The same with a mark of one byte, which 9 does not mind.
            found.disagreement = found.disagreement.or(rounds(&narrow(&text)).disagreement);
            break;
        };
        let same_as_unchanged = unless_panic(|| crate::convert_regular_fractions(&text)).as_ref() == Some(&next);
        match (done.left, same_as_unchanged) {
            (0, _) => found.nothing_left += 1,
            (_, true) => found.same_text += 1,
            (_, false) => found.other_text += 1,
        }
        found.disagreement = found.disagreement.or(wrong_round(&text, &next, done, same_as_unchanged));
        if next == text || next.chars().count() > FOLLOWED {
            break;
        }
        text = next;
    }
    found
}

/// The text with another symbol for the solidus mark, of one byte, which no formula holds.
pub fn narrow(text: &str) -> String {
    text.replace(crate::LITERAL_SOLIDUS, "\u{1}")
}

fn wrong_round(text: &str, next: &str, done: Done, same_as_unchanged: bool) -> Option<&'static str> {
    let (copy, copy_done) = watched(|| unless_panic(|| changed::convert_regular_fractions(text)));
    let slashes = |text: &str| text.matches('/').count();
    let facts = [
        (copy.as_deref() == Some(next), "the test copy gives another text"),
        (copy_done == done, "the test copy leaves or rewrites other slashes"),
        (done.left > 0 || same_as_unchanged, "nothing is left, but the unchanged round gives another text"),
        (slashes(text) == slashes(next) + done.rewritten, "a rewriting takes away another number of slashes than one"),
        (done.left == 0 || done.rewritten > 0, "a slash is left, but nothing is rewritten"),
        ((next == text) == (done.rewritten == 0), "the text changes without a rewriting, or does not with one"),
    ];
    facts.into_iter().find(|(holds, _)| !holds).map(|(_, wrong)| wrong)
}
