//! Why a call is refused.

use std::fmt;

/// The refusals, with their numbers. Where several hold, a conversion gives `NarrowWork` first, then `TallField`, `LongFormula`,
/// `ForeignByte` and `FaultyTable`, then the first of `Overgrown` to `BarredSolidus` that is met on the way, and `ShortOutput` last.
/// `LostBlock` is kept, so that the others keep their numbers; no call is refused by it. [`word_at`](crate::word_at) gives
/// `LongFormula`, `ForeignByte` and `FaultyTable` in this order, and `NoWord` last, which no other call gives.
/// `TallField` is given for a number that makes no [`Tall`](crate::Tall); a conversion with a `Tall` does not give it.
#[derive(Clone, Copy, Debug, PartialEq, Eq, Hash)]
pub enum Refusal {
    ForeignByte = 1,
    LongFormula = 2,
    FaultyTable = 3,
    NarrowWork = 4,
    Overgrown = 5,
    LostBlock = 6,
    Unsettled = 7,
    BareDelimiter = 8,
    BarredSolidus = 9,
    ShortOutput = 10,
    TallField = 15,
    NoWord = 16,
}

/// Each with its text for a user.
const ALL: [(Refusal, &str); 12] = [
    (Refusal::ForeignByte, "the formula holds something else than ASCII text, tabs and newlines"),
    (Refusal::LongFormula, "the formula has more than 4,096 bytes"),
    (
        Refusal::FaultyTable,
        "the definitions are more than 64 or 32,768 bytes, or one of them is faulty: a name is 1 to 127 letters and digits \
         and begins with a letter, its LaTeX is at most 8,191 bytes of ASCII text without $",
    ),
    (Refusal::NarrowWork, "the work buffer has less than 32,768 bytes"),
    (Refusal::Overgrown, "the formula grows above 8,192 symbols on its way to LaTeX"),
    (Refusal::LostBlock, "a piece of quoted text would be lost; no call is refused by it"),
    (Refusal::Unsettled, "more than 64 fractions stand one within the other, or in a chain of slashes"),
    (Refusal::BareDelimiter, "lr encloses a delimiter and nothing else, as in lr(|)"),
    (Refusal::BarredSolidus, "a denominator within bars holds an escaped slash, as in a/abs(b \\/ c)"),
    (Refusal::ShortOutput, "the LaTeX is longer than the output buffer"),
    (Refusal::TallField, "the tall field is above 31"),
    (Refusal::NoWord, "the place is not on a letter or digit of the formula"),
];

/// The row of a number from 1 to 10, of 15 or of 16.
fn row(number: u64) -> Option<(Refusal, &'static str)> {
    ALL.into_iter().find(|row| u64::from(row.0.number()) == number)
}

impl Refusal {
    pub fn number(self) -> u8 {
        self as u8
    }

    /// The refusal of a number from 1 to 10, of 15 or of 16.
    pub fn of_number(number: u64) -> Option<Refusal> {
        row(number).map(|row| row.0)
    }
}

impl fmt::Display for Refusal {
    fn fmt(&self, f: &mut fmt::Formatter<'_>) -> fmt::Result {
        let (_, text) = row(self.number().into()).expect("each refusal has its row");
        f.write_str(text)
    }
}

impl std::error::Error for Refusal {}

#[cfg(test)]
mod tests {
    use super::*;

    #[test]
    fn a_refusal_has_one_number_and_one_row() {
        assert_eq!(ALL.map(|row| row.0.number()), [1, 2, 3, 4, 5, 6, 7, 8, 9, 10, 15, 16]);
        for (refusal, text) in ALL {
            assert_eq!(Refusal::of_number(refusal.number().into()), Some(refusal));
            assert_eq!(refusal.to_string(), text);
        }
    }

    #[test]
    fn other_numbers_are_none() {
        for number in [0, 11, 12, 13, 14, 17, 256 + 16, u64::MAX] {
            assert_eq!(Refusal::of_number(number), None);
        }
    }
}
