//! Words in either case, and tags and variables in their own.

use super::{PROGRAM_A, REPORT_A};
use crate::entry::{placement_report, REPORT_LENGTH};
use crate::report;

/// Every qualifier, kind and operation word; OP is a qualifier and a kind.
const WORDS: [&str; 20] = [
    "PLAIN", "FHE", "OP", "DET", "MH", "AH", "RAND", "INT", "ANY", "ARROW", "LAM", "APP", "VAR",
    "NUM", "ENC", "ADD", "MUL", "EQ", "LT", "GT",
];

/// Every way to write a word in capitals and small letters.
fn spellings(word: &str) -> Vec<String> {
    let cases = |letter: char| [letter, letter.to_ascii_lowercase()];
    word.chars().fold(vec![String::new()], |fronts, letter| {
        let longer = |front: String| cases(letter).map(|next| format!("{front}{next}"));
        fronts.into_iter().flat_map(longer).collect()
    })
}

/// A table with one spelling in every field that is the word in any spelling.
fn respelled(table: &str, word: &str, spelling: &str) -> String {
    let written = |piece: &str| {
        let field = piece.trim_end_matches([',', '\n']);
        match field.eq_ignore_ascii_case(word) {
            true => piece.replace(field, spelling),
            false => piece.to_string(),
        }
    };
    table.split_inclusive([',', '\n']).map(written).collect()
}

#[test]
fn program_a_in_small_letters_has_the_same_report() {
    let text = b"T,0,any\nP,0,g0,0\nE,0,var,0\nE,1,var,0\nE,2,op,add,0,1\nE,3,lam,0,2\n";
    assert_eq!(report(text).unwrap().as_bytes(), REPORT_A);
}

#[test]
fn every_spelling_of_every_word_is_read() {
    let table = include_str!("../../../../examples/small-letters.table");
    let expected = include_str!("../../../../examples/small-letters.report");
    for word in WORDS {
        assert_ne!(respelled(table, word, word), table, "no {word}");
        for spelling in spellings(word) {
            let found = report(respelled(table, word, &spelling).as_bytes());
            assert_eq!(found.unwrap().to_string(), expected, "for {spelling}");
        }
    }
}

#[test]
fn a_small_tag_is_no_form() {
    let mut buffer = [7; REPORT_LENGTH];
    let mut front = 0;
    let lines = PROGRAM_A.split_inclusive(|&byte| byte == b'\n');
    for (line, expected) in lines.zip(1_001..) {
        let mut text = PROGRAM_A.to_vec();
        text[front].make_ascii_lowercase();
        assert_eq!(placement_report(&text, &mut buffer), expected);
        front += line.len();
    }
    assert!(buffer.iter().all(|&byte| byte == 7));
}

#[test]
fn a_variable_with_a_capital_is_no_form() {
    let mut buffer = [7; REPORT_LENGTH];
    let mut text = PROGRAM_A.to_vec();
    let place = text.iter().position(|&byte| byte == b'g').unwrap();
    text[place] = b'G';
    assert_eq!(placement_report(&text, &mut buffer), 1_002);
    assert!(buffer.iter().all(|&byte| byte == 7));
}

#[test]
fn no_other_byte_stands_for_a_letter() {
    let line = b"E,0,NUM,1";
    let report_length = b"OK,0,1\nE,0,RAND,INT\n".len() as u32;
    for place in 4..7 {
        for byte in 0..=255 {
            let mut text = *line;
            text[place] = byte;
            let expected = match text.eq_ignore_ascii_case(line) {
                true => 100_000 + report_length,
                false => 1_001,
            };
            let found = placement_report(&text, &mut [0; REPORT_LENGTH]);
            assert_eq!(found, expected, "for {}", text.escape_ascii());
        }
    }
}
