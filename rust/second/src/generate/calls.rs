//! Random lists of calls on one table, accepted and refused.

use super::damage::{any_bytes, changed_line_under, damaged_line};
use super::floors::program_with_floors_under;
use super::random::Random;
use crate::report::LONGEST_REPORT;
use crate::rows::Parameter;
use crate::schemes::{Code, SchemeTable, PLAIN};
use crate::table::Table;

/// One call on a table.
#[derive(Clone, Debug, PartialEq, Eq)]
pub enum Call {
    /// Add this line.
    Add(Vec<u8>),
    /// Redeclare this parameter with this code.
    Redeclare(u64, u64),
    /// Take back the last term row.
    TakeBack,
    /// Infer with a buffer of this length, filled with this byte.
    Infer(usize, u8),
}

impl Call {
    /// An infer with a buffer that is long enough.
    pub const INFER: Call = Call::Infer(LONGEST_REPORT, 0);
}

/// Calls on a fresh table of the built-in six, as [`call_list_under`] makes them.
pub fn call_list(random: &mut Random, rows: usize) -> Vec<Call> {
    call_list_under(random, SchemeTable::six(), rows)
}

/// Calls that build a program of up to so many rows, with other calls between, accepted and refused.
pub fn call_list_under(random: &mut Random, schemes: &SchemeTable, rows: usize) -> Vec<Call> {
    let program = program_with_floors_under(random, schemes, rows);
    let table = program.table();
    let mut calls = vec![];
    let mut rows_added: Vec<Vec<u8>> = vec![];
    for line in program.lines {
        let line = line.into_bytes();
        // In long programs few lines name type rows, so other calls are more frequent there.
        let others = if line.starts_with(b"E") { 6 } else { 4 };
        if random.one_in(others) {
            calls.push(other_call(random, schemes, &line));
        }
        if random.one_in(12) {
            calls.extend(taken_back_and_added(random, &rows_added));
        }
        if line.starts_with(b"E") {
            rows_added.push(line.clone());
        }
        calls.push(Call::Add(line));
    }
    for (parameter, code) in program.redeclarations {
        calls.push(Call::Redeclare(parameter, code));
    }
    calls.push(Call::INFER);
    if let Some(lowered) = lowered_and_restored(random, &table) {
        calls.extend(lowered);
        calls.push(Call::INFER);
    }
    calls.extend(taken_back_and_added(random, &rows_added));
    calls.push(redeclare(random, schemes));
    calls.push(Call::Infer(random.between(LONGEST_REPORT, LONGEST_REPORT + 40), 255));
    calls
}

/// A call that is no part of building the program; most are refused.
fn other_call(random: &mut Random, schemes: &SchemeTable, line: &[u8]) -> Call {
    match random.below(5) {
        0 => Call::Add(any_bytes(random, 70)),
        1 => Call::Add(damaged_line(random, line)),
        2 => Call::Add(changed_line_under(random, schemes, line)),
        3 => redeclare(random, schemes),
        _ => infer(random),
    }
}

/// Take-backs of the last rows, followed by adds of the same rows.
fn taken_back_and_added(random: &mut Random, rows_added: &[Vec<u8>]) -> Vec<Call> {
    let count = random.below(rows_added.len().min(5) + 1);
    let again = &rows_added[rows_added.len() - count..];
    let mut calls = vec![Call::TakeBack; count];
    calls.push(infer(random));
    calls.extend(again.iter().cloned().map(Call::Add));
    calls
}

/// A redeclaration that cannot meet a parameter's floor, an infer, and a redeclaration as the table has it.
///
/// `None` if every floor is PLAIN, which is always met.
pub fn lowered_and_restored(random: &mut Random, table: &Table) -> Option<Vec<Call>> {
    let has_floor = |&own: &usize| table.params[own].floor != PLAIN;
    let candidates: Vec<usize> = (0..table.params.len()).filter(has_floor).collect();
    let &own = random.pick(&candidates)?;
    let Parameter { qualifier, floor, .. } = table.params[own];
    let misses = |&word: &Code| !table.schemes().at_or_below(floor, word);
    let lower: Vec<Code> = table.schemes().qualifiers().filter(misses).collect();
    let redeclare = |code: Code| Call::Redeclare(own as u64, code.into());
    Some(vec![redeclare(*random.pick(&lower)?), Call::INFER, redeclare(qualifier)])
}

/// A redeclaration, mostly with numbers near the limits.
fn redeclare(random: &mut Random, schemes: &SchemeTable) -> Call {
    let parameter = match random.below(6) {
        0 => random.number(),
        _ => random.below(66) as u64,
    };
    let code = match random.below(6) {
        0 => random.number(),
        // Two codes above the last variable's are refused.
        _ => random.below(usize::from(schemes.last_variable()) + 3) as u64,
    };
    Call::Redeclare(parameter, code)
}

/// An inference with a buffer of any length, mostly long enough.
fn infer(random: &mut Random) -> Call {
    let length = match random.below(4) {
        0 => random.below(LONGEST_REPORT),
        1 => LONGEST_REPORT - 1,
        _ => LONGEST_REPORT + random.below(3),
    };
    Call::Infer(length, random.number() as u8)
}
