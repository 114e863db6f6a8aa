//! Lines with one byte changed that a reader of letters in either case may take for what it was.

use super::letter_case::is_variable;
use super::random::Random;

/// The bytes next to the capitals and next to the small letters.
const NEIGHBOURS: [u8; 4] = *b"@[`{";

/// The bit in which a small letter differs from its capital.
pub const CASE_BIT: u8 = 0x20;

/// The bit that no byte of ASCII has.
const TOP_BIT: u8 = 0x80;

/// One change to a byte of a line.
#[derive(Clone, Copy, Debug, PartialEq, Eq, PartialOrd, Ord)]
pub enum LetterDamage {
    /// The tag is in the other case.
    Tag,
    /// The `g` of a variable is in the other case.
    Variable,
    /// A byte differs in the bit that parts small letters from capitals.
    CaseBit,
    /// A byte has its top bit set.
    TopBit,
    /// A letter is one of the bytes next to the letters.
    Neighbour,
}

impl LetterDamage {
    /// All changes.
    pub const ALL: [LetterDamage; 5] = [
        LetterDamage::Tag,
        LetterDamage::Variable,
        LetterDamage::CaseBit,
        LetterDamage::TopBit,
        LetterDamage::Neighbour,
    ];

    /// The line with this change at a random place, if it has one.
    pub fn of_line(self, random: &mut Random, line: &[u8]) -> Option<Vec<u8>> {
        let places: Vec<usize> =
            (0..line.len()).filter(|&position| self.is_place(line, position)).collect();
        let &position = random.pick(&places)?;
        let mut damaged = line.to_vec();
        match self {
            LetterDamage::TopBit => damaged[position] |= TOP_BIT,
            LetterDamage::Neighbour => damaged[position] = *random.pick(&NEIGHBOURS)?,
            _ => damaged[position] ^= CASE_BIT,
        }
        Some(damaged)
    }

    /// Tells whether this change may be made at a position.
    fn is_place(self, line: &[u8], position: usize) -> bool {
        match self {
            LetterDamage::Tag => position == 0,
            LetterDamage::Variable => is_variable(line, position),
            LetterDamage::CaseBit | LetterDamage::TopBit => true,
            LetterDamage::Neighbour => line[position].is_ascii_alphabetic(),
        }
    }
}
