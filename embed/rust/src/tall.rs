//! Which commands enlarge the delimiters around them.

use crate::Refusal;
use std::ops::{BitOr, Sub};

/// A set of the five commands that cause sizing: `(` and `)` become `\left(` and `\right)`, and `[` and `]` likewise, where a command of
/// the set stands between them. What `lr` and `abs` enlarge is not ruled by it.
///
/// ```
/// use jistranu::Tall;
/// assert_eq!(Tall::ALL - Tall::FRAC, Tall::SQRT | Tall::BINOM | Tall::SUM | Tall::INT);
/// ```
#[derive(Clone, Copy, PartialEq, Eq, Debug, Hash)]
pub struct Tall(u8);

impl Tall {
    pub const NONE: Tall = Tall(0);
    /// `\frac`
    pub const FRAC: Tall = Tall(16);
    /// `\sqrt`
    pub const SQRT: Tall = Tall(8);
    /// `\binom`
    pub const BINOM: Tall = Tall(4);
    /// `\sum`
    pub const SUM: Tall = Tall(2);
    /// `\int`
    pub const INT: Tall = Tall(1);
    /// All five, as in the old module.
    pub const ALL: Tall = Tall(31);

    /// The tall field: each command's bit.
    pub const fn bits(self) -> u8 {
        self.0
    }

    /// Whether all of these commands are in the set.
    pub const fn contains(self, commands: Tall) -> bool {
        self.0 & commands.0 == commands.0
    }
}

impl Default for Tall {
    fn default() -> Self {
        Tall::ALL
    }
}

impl BitOr for Tall {
    type Output = Tall;

    fn bitor(self, other: Tall) -> Tall {
        Tall(self.0 | other.0)
    }
}

/// The commands of the first set that are not in the second.
impl Sub for Tall {
    type Output = Tall;

    fn sub(self, other: Tall) -> Tall {
        Tall(self.0 & !other.0)
    }
}

/// A number above 31 is [`Refusal::TallField`].
impl TryFrom<u8> for Tall {
    type Error = Refusal;

    fn try_from(bits: u8) -> Result<Tall, Refusal> {
        if bits <= Tall::ALL.0 { Ok(Tall(bits)) } else { Err(Refusal::TallField) }
    }
}

#[cfg(test)]
mod tests {
    use super::*;

    const EACH: [Tall; 5] = [Tall::FRAC, Tall::SQRT, Tall::BINOM, Tall::SUM, Tall::INT];

    #[test]
    fn each_command_has_a_bit_of_its_own() {
        assert_eq!(EACH.map(Tall::bits), [16, 8, 4, 2, 1]);
        assert_eq!(EACH.into_iter().fold(Tall::NONE, BitOr::bitor), Tall::ALL);
        assert_eq!(EACH.into_iter().fold(Tall::ALL, Sub::sub), Tall::NONE);
        for command in EACH {
            assert!(Tall::ALL.contains(command));
            assert!(!(Tall::ALL - command).contains(command));
        }
    }

    #[test]
    fn a_field_is_at_most_31() {
        for bits in 0..=31 {
            assert_eq!(Tall::try_from(bits).map(Tall::bits), Ok(bits));
        }
        for bits in 32..=255 {
            assert_eq!(Tall::try_from(bits), Err(Refusal::TallField));
        }
        assert_eq!(Tall::default().bits(), 31);
    }
}
