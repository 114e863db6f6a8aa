//! Which words stood in lines of each form, and in which case.

use crate::well_formed::ALL;
use second::counts::Counts;
use second::generate::LetterCase;
use second::text::lines;
use second::word::capitals;

/// A word in a line: the form's place in the list of all, the place of the field, the word in capitals, its case.
type Seen = (usize, usize, String, LetterCase);

/// How often each word stood in lines.
#[derive(Debug, Default)]
pub struct WordCounts(Counts<Seen>);

impl WordCounts {
    /// Counts the words of a line that has one of the forms.
    pub fn take(&mut self, line: &[u8]) {
        let fields: Vec<&[u8]> = line.split(|&byte| byte == b',').collect();
        let form = ALL.iter().position(|form| {
            form.list.as_bytes() == fields[0]
                && form.length() == fields.len()
                && (form.word.is_empty() || form.word.as_bytes() == capitals(fields[2]))
        });
        let form = form.unwrap_or_else(|| panic!("{} has no form", line.escape_ascii()));
        for (place, field) in fields.iter().enumerate().skip(2) {
            // Numbers and variables have digits.
            if field.iter().all(u8::is_ascii_alphabetic) {
                let word = String::from_utf8_lossy(&capitals(field)).into_owned();
                self.0.add((form, place, word, LetterCase::of_word(field)));
            }
        }
    }

    /// Counts the words of a text whose lines all have one of the forms.
    pub fn take_text(&mut self, text: &[u8]) {
        lines(text).for_each(|line| self.take(line));
    }

    /// Asserts that each word stood so often in each field of each form where it may stand, in capitals, in small letters and mixed.
    pub fn assert_each(&self, fewest: usize) {
        for (number, form) in ALL.iter().enumerate() {
            for (place, word) in form.words() {
                let seen = |case| (number, place, word.clone(), case);
                self.0.assert_each(LetterCase::ALL.map(seen), fewest);
            }
        }
    }
}
