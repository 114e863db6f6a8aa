//! A program with the answers to it.

use crate::generate::text_of_lines;

/// A program to try, with what the documents say of it.
pub struct Try {
    /// The program in words.
    pub about: &'static str,
    /// The program, its last line ended by a line feed.
    pub text: Vec<u8>,
    /// What `place` prints.
    pub prints: Vec<u8>,
    /// What the C entry returns for a buffer that is long enough.
    pub returns: u32,
}

impl Try {
    /// A program that has this report; lines are separated by white space in both.
    pub fn accepted(about: &'static str, lines: &str, report: &str) -> Try {
        let prints = text_of_lines(report);
        let returns = 100_000 + prints.len() as u32;
        Try { about, text: text_of_lines(lines), prints, returns }
    }

    /// A program that is refused: `place` prints this line, and the C entry returns this number.
    pub fn refused(about: &'static str, lines: &str, prints: &str, returns: u32) -> Try {
        Try { about, text: text_of_lines(lines), prints: text_of_lines(prints), returns }
    }

    /// The report that the C entry writes, if the program is accepted.
    pub fn report(&self) -> Option<&[u8]> {
        (self.returns > 100_000).then_some(&self.prints)
    }
}
