//! Lines whose words are in capitals, in small letters, or in both.

use super::random::Random;

/// In which case the letters of words stand.
#[derive(Clone, Copy, Debug, PartialEq, Eq, PartialOrd, Ord)]
pub enum LetterCase {
    /// All are capitals.
    Capitals,
    /// All are small.
    Small,
    /// Some are capitals, others are small; where words are written so, each letter is one or the other by chance.
    Mixed,
}

impl LetterCase {
    /// All cases.
    pub const ALL: [LetterCase; 3] = [LetterCase::Capitals, LetterCase::Small, LetterCase::Mixed];

    /// The case of a word, or of several together.
    pub fn of_word(word: &[u8]) -> LetterCase {
        match [u8::is_ascii_uppercase, u8::is_ascii_lowercase].map(|is| word.iter().all(is)) {
            [true, _] => LetterCase::Capitals,
            [_, true] => LetterCase::Small,
            _ => LetterCase::Mixed,
        }
    }

    /// The case of all words of a line that has one of the forms, if it has any.
    pub fn of_words_in(line: &[u8]) -> Option<LetterCase> {
        // Numbers and variables have digits.
        let is_word = |field: &&[u8]| field.iter().all(u8::is_ascii_alphabetic);
        let fields = line.split(|&byte| byte == b',');
        // The first field is the tag.
        let words: Vec<&[u8]> = fields.skip(1).filter(is_word).collect();
        (!words.is_empty()).then(|| LetterCase::of_word(&words.concat()))
    }

    /// The line with its words in this case; whatever its bytes are, it is read as before.
    pub fn of_line(self, random: &mut Random, line: &[u8]) -> Vec<u8> {
        // What stands before the first comma is the tag, which has one case only.
        let tag = line.iter().position(|&byte| byte == b',').unwrap_or(line.len());
        let mut written = line.to_vec();
        for position in (tag..line.len()).filter(|&it| !is_variable(line, it)) {
            written[position] = self.of_byte(random, line[position]);
        }
        written
    }

    /// The text with the words of all its lines in this case.
    pub fn of_text(self, random: &mut Random, text: &[u8]) -> Vec<u8> {
        let lines = text.split_inclusive(|&byte| byte == b'\n');
        lines.flat_map(|line| self.of_line(random, line)).collect()
    }

    /// A byte in this case, if it is a letter.
    fn of_byte(self, random: &mut Random, byte: u8) -> u8 {
        let small = match self {
            LetterCase::Capitals => false,
            LetterCase::Small => true,
            LetterCase::Mixed => random.one_in(2),
        };
        match small {
            true => byte.to_ascii_lowercase(),
            false => byte.to_ascii_uppercase(),
        }
    }
}

/// A word, given in capitals, with each choice of capitals and small letters.
pub fn spellings(word: &str) -> impl Iterator<Item = Vec<u8>> + '_ {
    let letter =
        |small: bool, capital: u8| if small { capital.to_ascii_lowercase() } else { capital };
    // Each bit of the choice says whether one letter is small.
    (0..1usize << word.len()).map(move |choice| {
        let letters = word.bytes().enumerate();
        letters.map(|(position, capital)| letter(choice >> position & 1 == 1, capital)).collect()
    })
}

/// Tells whether the `g` of a variable stands at a position, or a capital in its place.
pub fn is_variable(line: &[u8], position: usize) -> bool {
    line[position].eq_ignore_ascii_case(&b'g')
        && line.get(position + 1).is_some_and(u8::is_ascii_digit)
}

/// The line with its words in any of the cases.
pub fn in_any_case(random: &mut Random, line: &[u8]) -> Vec<u8> {
    LetterCase::ALL[random.below(3)].of_line(random, line)
}

/// The text with the words of each line in any of the cases.
pub fn text_in_any_case(random: &mut Random, text: &[u8]) -> Vec<u8> {
    let lines = text.split_inclusive(|&byte| byte == b'\n');
    lines.flat_map(|line| in_any_case(random, line)).collect()
}
