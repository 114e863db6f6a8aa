//! Damaged texts, near the limits of what is accepted.

use super::damage::{changed_line_under, damaged_line};
use super::letter_damage::CASE_BIT;
use super::random::Random;
use crate::schemes::SchemeTable;

/// Bytes that stand in lines or between them, to put in the place of others.
const FREQUENT: &[u8] = b"0123456789,,,\n\n\r\0 TPEAgtpeaG";

/// One change to a text.
#[derive(Clone, Copy, Debug, PartialEq, Eq, PartialOrd, Ord)]
pub enum Damage {
    /// A byte has another value.
    ByteChanged,
    /// A letter is in the other case.
    CaseChanged,
    /// A byte is left out.
    ByteDropped,
    /// A line is left out.
    LineDropped,
    /// A line stands once more at some place.
    LineRepeated,
    /// Two lines have changed places.
    LinesSwapped,
    /// The text ends at the end of some line.
    Shortened,
    /// Two lines are one.
    LineFeedDropped,
    /// An empty line follows some line.
    LineFeedDoubled,
    /// The text begins with an empty line.
    LineFeedFirst,
    /// A line ends in a carriage return.
    CarriageReturn,
    /// All lines end in a carriage return.
    CarriageReturns,
    /// A line is filled up to 64 bytes.
    LineOf64Bytes,
    /// A line is filled up to 65 bytes.
    LineOf65Bytes,
    /// A line has a change to its bytes or its fields.
    LineDamaged,
    /// A line has another field of the same kind.
    FieldChanged,
}

use Damage::{
    ByteChanged, ByteDropped, CarriageReturn, CarriageReturns, CaseChanged, FieldChanged,
    LineDamaged, LineDropped, LineFeedDoubled, LineFeedDropped, LineFeedFirst, LineOf64Bytes,
    LineOf65Bytes, LineRepeated, LinesSwapped, Shortened,
};

impl Damage {
    /// All changes.
    pub const ALL: [Damage; 16] = [
        ByteChanged, CaseChanged, ByteDropped, LineDropped, LineRepeated, LinesSwapped, Shortened,
        LineFeedDropped, LineFeedDoubled, LineFeedFirst, CarriageReturn, CarriageReturns,
        LineOf64Bytes, LineOf65Bytes, LineDamaged, FieldChanged,
    ];

    /// A text under the built-in six with this change, as [`Damage::of_text_under`] makes it.
    pub fn of_text(self, random: &mut Random, text: &[u8]) -> Vec<u8> {
        self.of_text_under(random, SchemeTable::six(), text)
    }

    /// The text with this change at a random place; an empty text may stay as it is.
    pub fn of_text_under(self, random: &mut Random, schemes: &SchemeTable, text: &[u8]) -> Vec<u8> {
        let mut bytes = text.to_vec();
        let position = random.below(text.len());
        match self {
            ByteChanged => {
                if let Some(byte) = bytes.get_mut(position) {
                    *byte = other_byte(random, *byte);
                }
            }
            CaseChanged => change_case(random, &mut bytes),
            ByteDropped if !text.is_empty() => {
                bytes.remove(position);
            }
            ByteDropped => {}
            LineFeedDropped => drop_line_feed(random, &mut bytes),
            LineFeedFirst => bytes.insert(0, b'\n'),
            _ => return self.of_lines(random, schemes, text),
        }
        bytes
    }

    /// The text with this change to one or all of its lines.
    fn of_lines(self, random: &mut Random, schemes: &SchemeTable, text: &[u8]) -> Vec<u8> {
        let with_line_feeds = text.split_inclusive(|&byte| byte == b'\n');
        let mut lines: Vec<Vec<u8>> = with_line_feeds.map(<[u8]>::to_vec).collect();
        let (one, other) = (random.below(lines.len()), random.below(lines.len()));
        if lines.is_empty() {
            return vec![];
        }
        match self {
            LineDropped => {
                lines.remove(one);
            }
            LineRepeated => lines.insert(one, lines[other].clone()),
            LinesSwapped => lines.swap(one, other),
            Shortened => lines.truncate(one),
            CarriageReturns => lines.iter_mut().for_each(|line| *line = with_return(line)),
            _ => lines[one] = self.of_line(random, schemes, &lines[one]),
        }
        lines.concat()
    }

    /// A line with this change; its line feed stays, if it has one.
    fn of_line(self, random: &mut Random, schemes: &SchemeTable, line: &[u8]) -> Vec<u8> {
        let without = line.strip_suffix(b"\n").unwrap_or(line);
        let mut changed = match self {
            CarriageReturn => return with_return(line),
            LineDamaged => damaged_line(random, without),
            FieldChanged => changed_line_under(random, schemes, without),
            _ => without.to_vec(),
        };
        let fill = FREQUENT[random.below(10)];
        match self {
            LineOf64Bytes => changed.resize(64, fill),
            LineOf65Bytes => changed.resize(65, fill),
            LineFeedDoubled => changed.push(b'\n'),
            _ => {}
        }
        changed.extend(&line[without.len()..]);
        changed
    }
}

/// Another byte, often one of those that stand in texts.
fn other_byte(random: &mut Random, byte: u8) -> u8 {
    let other = match random.one_in(2) {
        true => FREQUENT[random.below(FREQUENT.len())],
        false => random.number() as u8,
    };
    if other == byte {
        byte ^ 1
    } else {
        other
    }
}

/// Puts a letter into the other case, if there is one.
fn change_case(random: &mut Random, text: &mut [u8]) {
    let mut letters: Vec<&mut u8> =
        text.iter_mut().filter(|byte| byte.is_ascii_alphabetic()).collect();
    let position = random.below(letters.len());
    if let Some(letter) = letters.get_mut(position) {
        **letter ^= CASE_BIT;
    }
}

/// Leaves out a line feed that does not end the text, if there is one.
fn drop_line_feed(random: &mut Random, text: &mut Vec<u8>) {
    let inner = 0..text.len().saturating_sub(1);
    let line_feeds: Vec<usize> = inner.filter(|&position| text[position] == b'\n').collect();
    if let Some(&position) = random.pick(&line_feeds) {
        text.remove(position);
    }
}

/// The line with a carriage return before its line feed, or at its end where it has none.
fn with_return(line: &[u8]) -> Vec<u8> {
    match line.strip_suffix(b"\n") {
        Some(without) => [without, b"\r\n"].concat(),
        None => [line, b"\r"].concat(),
    }
}

/// A text under the built-in six, damaged as [`damaged_text_under`] does it.
pub fn damaged_text(random: &mut Random, text: &[u8]) -> Vec<u8> {
    damaged_text_under(random, SchemeTable::six(), text)
}

/// A text with one change, and often without its last byte.
pub fn damaged_text_under(random: &mut Random, schemes: &SchemeTable, text: &[u8]) -> Vec<u8> {
    // Changed fields are refused for the most different reasons.
    let damage = match random.one_in(2) {
        true => FieldChanged,
        false => Damage::ALL[random.below(Damage::ALL.len())],
    };
    let mut damaged = damage.of_text_under(random, schemes, text);
    if random.one_in(4) {
        damaged.pop();
    }
    damaged
}
