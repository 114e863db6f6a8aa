//! The rival: a program in ordinary safe Rust, written for speed.
//!
//! A reader of one pass; union by rank with path halving, an occurs check where an unknown type is
//! bound, rings of what is PLAIN once it is an arrow, and one row after the other; a report that is
//! written straight into the buffer. Its state is kept between calls, so that nothing is allocated
//! while it is measured.

#![forbid(unsafe_code)]

mod closed;
mod forest;
mod loader;
mod qualifiers;
mod reader;
mod report;
mod solver;
mod standing;
mod types;
mod words;

use loader::Loader;
use qualifiers::at_or_below;
use second::report::LONGEST_REPORT;
use second::{Answer, Table};
use solver::{Slots, Solver};

pub use closed::closed;
pub use qualifiers::MEET;
pub use solver::Refusal;
pub use types::Failure;

/// What the entry returns for a buffer that is shorter than the longest report.
const SHORT_BUFFER: u32 = 11_000;

/// The rival with its storage; one serves for any number of tables.
#[derive(Default)]
pub struct Rival {
    loader: Loader,
    solver: Solver,
    slots: Slots,
}

impl Rival {
    /// The solver alone: finds all words and shapes, or names the least row without a typing.
    pub fn solve(&mut self, table: &Table) -> Result<(), Refusal> {
        self.solver.solve(table, &mut self.slots)
    }

    /// A whole infer call, as [`Table::infer`] answers it.
    pub fn infer(&mut self, table: &Table, buffer: &mut [u8]) -> Answer {
        infer(&mut self.solver, &mut self.slots, table, buffer)
    }

    /// The whole entry, as [`second::entry`] answers it: a text in, a report or a refusal out.
    pub fn report(&mut self, text: &[u8], buffer: &mut [u8]) -> u32 {
        if buffer.len() < LONGEST_REPORT {
            return SHORT_BUFFER;
        }
        match self.loader.load(text) {
            Ok(table) => returned(infer(&mut self.solver, &mut self.slots, table, buffer)),
            Err((number, line)) => refused(number, line),
        }
    }
}

/// What the entry returns for what an infer call answers.
pub fn returned(answer: Answer) -> u32 {
    match answer {
        Answer { number: 0, length, .. } => 100_000 + length,
        Answer { number, row, .. } => refused(number, row),
    }
}

/// What the entry returns for a refusal with its line, row or parameter.
fn refused(number: u32, place: u32) -> u32 {
    number * 1_000 + place
}

fn infer(solver: &mut Solver, slots: &mut Slots, table: &Table, buffer: &mut [u8]) -> Answer {
    let refused = |number, row| Answer { number, row, length: 0 };
    if buffer.len() < LONGEST_REPORT {
        return refused(11, 0);
    }
    if !closed(table) {
        return refused(10, 0);
    }
    if let Err(refusal) = solver.solve(table, slots) {
        return refused(refusal.number(), refusal.row());
    }
    if let Some(parameter) = missed_floor(table, slots) {
        return refused(24, parameter);
    }
    let length = report::write(table, slots, buffer);
    Answer { number: 0, row: 0, length: length as u32 }
}

/// The lowest parameter whose word is not at or above its floor.
fn missed_floor(table: &Table, slots: &Slots) -> Option<u32> {
    let mut params = table.params.iter().zip(&slots.params);
    let missed = params.position(|(param, slot)| !at_or_below(param.floor, slot.word));
    missed.map(|parameter| parameter as u32)
}
