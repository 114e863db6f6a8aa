//! The report's bytes.

use crate::schemes::SchemeTable;
use crate::typing::{Judgement, Shape, Slot};

/// A length that no report exceeds; a report buffer has at least this length.
pub const LONGEST_REPORT: usize = 6280;

/// The report of a program that has a typing, in the words of its scheme table.
pub fn bytes(schemes: &SchemeTable, judgement: &Judgement) -> Vec<u8> {
    let mut report = format!("OK,{},{}\n", judgement.params.len(), judgement.terms.len());
    for &(variable, word) in &judgement.variables {
        report += &format!("G,{},{}\n", variable, schemes.word(word));
    }
    for (number, slot) in judgement.params.iter().enumerate() {
        report += &slot_line(schemes, 'P', number, slot);
    }
    for (number, slot) in judgement.terms.iter().enumerate() {
        report += &slot_line(schemes, 'E', number, slot);
    }
    report.into_bytes()
}

/// The line of a parameter or a term row.
fn slot_line(schemes: &SchemeTable, list: char, number: usize, slot: &Slot) -> String {
    let (word, shape) = (schemes.word(slot.word), shape_word(slot.shape));
    format!("{list},{number},{word},{shape}\n")
}

/// The word that stands for a shape in a report.
fn shape_word(shape: Shape) -> &'static str {
    match shape {
        Shape::Int => "INT",
        Shape::Arrow => "ARROW",
        Shape::Any => "ANY",
    }
}
