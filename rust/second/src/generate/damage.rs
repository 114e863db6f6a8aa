//! Damaged lines, near the limits of what is accepted.

use super::goals::{any_code, any_word};
use super::letter_case::in_any_case;
use super::letter_damage::LetterDamage;
use super::random::Random;
use super::text::code_text;
use crate::operation::Operation;
use crate::schemes::SchemeTable;
use crate::word::capitals;

/// Fields that are refused or accepted at a limit, to put in the place of others.
const FIELDS: [&str; 49] = [
    "", "0", "1", "2", "7", "00", "01", "-1", "+1", " 1", "63", "64", "255", "256", "65535",
    "65536", "4294967295", "4294967296", "18446744073709551616", "T", "P", "E", "t", "p", "e",
    "INT", "Int", "ANY", "ARROW", "LAM", "APP", "OP", "op", "VAR", "NUM", "ENC", "ADD", "gt",
    "PLAIN", "plain", "FHE", "rand", "g", "g0", "g63", "g64", "g00", "G0", "G63",
];

/// The place of a floor among the fields of a P line.
const FLOOR_FIELD: usize = 4;

/// What may not stand behind the first four fields of a P line: fields that are no floor, or too many fields.
pub const WRONG_FLOORS: [&str; 24] = [
    "", "g0", "g63", "G0", "g", "gt", "PLA\u{131}N", "INT", "any", "ADD", "NONE", "AHH", "a", "0",
    "5", "-1", " AH", "AH ", "AH\r", "AH,", ",AH", "ah,ah", "PLAIN,PLAIN", "RAND,0",
];

/// So many bytes or fewer, of any values.
pub fn any_bytes(random: &mut Random, longest: usize) -> Vec<u8> {
    let length = random.between(0, longest);
    (0..length).map(|_| random.number() as u8).collect()
}

/// A line with one change to its bytes or its fields; some changes leave it well formed.
pub fn damaged_line(random: &mut Random, line: &[u8]) -> Vec<u8> {
    if line.starts_with(b"P,") && random.one_in(4) {
        return with_wrong_floor(random, line);
    }
    let mut damaged = line.to_vec();
    let position = random.below(line.len());
    match random.below(8) {
        0 => damaged.insert(position, random.number() as u8),
        1 if !damaged.is_empty() => {
            damaged.remove(position);
        }
        2 if !damaged.is_empty() => damaged[position] = random.number() as u8,
        3 => damaged.truncate(position),
        4 => damaged = with_damaged_letter(random, line),
        5 => damaged.resize(random.between(line.len(), 80), b'0'),
        _ => damaged = with_other_field(random, line),
    }
    damaged
}

/// The line with one of the changes to letters that it has a place for; an empty line has none.
fn with_damaged_letter(random: &mut Random, line: &[u8]) -> Vec<u8> {
    let changes = LetterDamage::ALL.into_iter().filter_map(|damage| damage.of_line(random, line));
    let changed: Vec<Vec<u8>> = changes.collect();
    random.pick(&changed).cloned().unwrap_or_default()
}

/// The line with one field replaced, inserted or dropped.
fn with_other_field(random: &mut Random, line: &[u8]) -> Vec<u8> {
    let mut fields: Vec<&[u8]> = line.split(|&byte| byte == b',').collect();
    let position = random.below(fields.len());
    let field = FIELDS[random.below(FIELDS.len())].as_bytes();
    match random.below(6) {
        0 => fields.insert(random.between(0, fields.len()), field),
        1 => {
            fields.remove(position);
        }
        _ => fields[position] = field,
    }
    fields.join(&b',')
}

/// The P line with something in the place of its floor that may not stand there.
fn with_wrong_floor(random: &mut Random, line: &[u8]) -> Vec<u8> {
    let mut fields: Vec<&[u8]> = line.split(|&byte| byte == b',').collect();
    fields.truncate(FLOOR_FIELD);
    fields.push(WRONG_FLOORS[random.below(WRONG_FLOORS.len())].as_bytes());
    fields.join(&b',')
}

/// A line under the built-in six, changed as [`changed_line_under`] does it.
pub fn changed_line(random: &mut Random, line: &[u8]) -> Vec<u8> {
    changed_line_under(random, SchemeTable::six(), line)
}

/// The line with one field replaced by another of its kind, and with its words in any case.
///
/// It stays well formed, unless an ENC's scheme becomes PLAIN or a variable, or a scheme is named as a kind or an operation.
/// The own number stays, as a wrong one hides all other refusals.
pub fn changed_line_under(random: &mut Random, schemes: &SchemeTable, line: &[u8]) -> Vec<u8> {
    let mut fields: Vec<Vec<u8>> = line.split(|&byte| byte == b',').map(<[u8]>::to_vec).collect();
    let position = random.between(2, fields.len().saturating_sub(1));
    let is_floor = line.starts_with(b"P,") && position == FLOOR_FIELD;
    if let Some(field) = fields.get_mut(position) {
        let other = match is_floor {
            true => schemes.word(any_word(random, schemes)).to_string(),
            false => other_of_kind(random, schemes, field),
        };
        *field = other.into_bytes();
    }
    in_any_case(random, &fields.join(&b','))
}

/// Another field of the same kind: a number, an operation, or otherwise a qualifier.
fn other_of_kind(random: &mut Random, schemes: &SchemeTable, field: &[u8]) -> String {
    let text = String::from_utf8_lossy(field);
    if let Ok(number) = text.parse::<u64>() {
        let near = number.saturating_add(random.below(4) as u64).saturating_sub(1);
        return match random.below(3) {
            0 => random.below(8).to_string(),
            1 => random.below(70).to_string(),
            _ => near.to_string(),
        };
    }
    if Operation::of_word(field).is_some() {
        return Operation::ALL[random.below(Operation::ALL.len())].word().to_string();
    }
    match &capitals(field)[..] {
        b"INT" | b"ANY" => (if random.one_in(2) { "INT" } else { "ANY" }).to_string(),
        b"LAM" | b"APP" | b"OP" | b"VAR" | b"NUM" | b"ENC" | b"ARROW" => text.to_string(),
        _ => code_text(schemes, any_code(random, schemes)),
    }
}
