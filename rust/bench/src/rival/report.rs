//! The report's bytes, written straight into the buffer.

use super::solver::{Slot, Slots, NO_WORD};
use super::types::Kind;
use second::qualifier::Qualifier;
use second::Table;

/// A buffer with the number of bytes written so far.
struct Writer<'a> {
    buffer: &'a mut [u8],
    length: usize,
}

/// Writes the report and gives its length.
pub fn write(table: &Table, slots: &Slots, buffer: &mut [u8]) -> usize {
    let mut writer = Writer { buffer, length: 0 };
    let (params, terms) = (table.params.len(), table.terms.len());
    writer.bytes(b"OK,");
    writer.number(params);
    writer.bytes(b",");
    writer.number(terms);
    writer.bytes(b"\n");
    for (variable, &word) in slots.variables.iter().enumerate() {
        if word != NO_WORD {
            writer.bytes(b"G,");
            writer.number(variable);
            writer.bytes(b",");
            writer.word(word);
            writer.bytes(b"\n");
        }
    }
    for (number, slot) in slots.params[..params].iter().enumerate() {
        writer.slot(b"P,", number, slot);
    }
    for (number, slot) in slots.terms[..terms].iter().enumerate() {
        writer.slot(b"E,", number, slot);
    }
    writer.length
}

impl Writer<'_> {
    fn bytes(&mut self, bytes: &[u8]) {
        let end = self.length + bytes.len();
        self.buffer[self.length..end].copy_from_slice(bytes);
        self.length = end;
    }

    /// A number below 1,000 in decimal digits.
    fn number(&mut self, number: usize) {
        let digit = |place: usize| b'0' + (number / place % 10) as u8;
        match number {
            0..10 => self.bytes(&[digit(1)]),
            10..100 => self.bytes(&[digit(10), digit(1)]),
            _ => self.bytes(&[digit(100), digit(10), digit(1)]),
        }
    }

    fn word(&mut self, code: u8) {
        self.bytes(Qualifier::ALL[usize::from(code)].word().as_bytes());
    }

    fn slot(&mut self, list: &[u8], number: usize, slot: &Slot) {
        self.bytes(list);
        self.number(number);
        self.bytes(b",");
        self.word(slot.word);
        self.bytes(match slot.shape {
            Kind::Int => b",INT\n",
            Kind::Arrow => b",ARROW\n",
            Kind::Unknown => b",ANY\n",
        });
    }
}
