//! The words of lines, each as one number, so that a word is told from others by one comparison.

use second::operation::Operation;
use second::schemes::Code;

/// The bytes of a word in capitals, the last one lowest; 0 for no letter.
///
/// The front of a longer run of letters is lost, but such a run is none of the words: they have at
/// most five letters, so that the byte above them is 0.
pub type Word = u64;

/// The word with one letter more.
pub const fn with_letter(word: Word, capital: u8) -> Word {
    word << 8 | capital as Word
}

/// The number of a word that is given in capitals.
const fn number_of(capitals: &str) -> Word {
    let (letters, mut word, mut place) = (capitals.as_bytes(), 0, 0);
    while place < letters.len() {
        word = with_letter(word, letters[place]);
        place += 1;
    }
    word
}

pub const INT: Word = number_of("INT");
pub const ANY: Word = number_of("ANY");
pub const ARROW: Word = number_of("ARROW");
pub const LAM: Word = number_of("LAM");
pub const APP: Word = number_of("APP");
pub const OP: Word = number_of("OP");
pub const VAR: Word = number_of("VAR");
pub const NUM: Word = number_of("NUM");
pub const ENC: Word = number_of("ENC");

const PLAIN: Word = number_of("PLAIN");
const FHE: Word = number_of("FHE");
const DET: Word = number_of("DET");
const MH: Word = number_of("MH");
const AH: Word = number_of("AH");
const RAND: Word = number_of("RAND");

const ADD: Word = number_of("ADD");
const MUL: Word = number_of("MUL");
const EQ: Word = number_of("EQ");
const LT: Word = number_of("LT");
const GT: Word = number_of("GT");

/// The code of the qualifier that a word names.
pub fn qualifier(word: Word) -> Option<Code> {
    Some(match word {
        PLAIN => 0,
        FHE => 1,
        OP => 2,
        DET => 3,
        MH => 4,
        AH => 5,
        RAND => 6,
        _ => return None,
    })
}

/// The operation that a word names.
pub fn operation(word: Word) -> Option<Operation> {
    Some(match word {
        ADD => Operation::Add,
        MUL => Operation::Mul,
        EQ => Operation::Eq,
        LT => Operation::Lt,
        GT => Operation::Gt,
        _ => return None,
    })
}
