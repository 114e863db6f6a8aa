//! Random questions to a closed program: what if its parameters were declared otherwise, or its last rows were others?

use super::calls::{lowered_and_restored, Call};
use super::floors::{program_with_floors_under, with_floors_in_any_case};
use super::functions::function_program_under;
use super::goals::{any_code, any_scheme, any_word};
use super::letter_case::in_any_case;
use super::random::Random;
use crate::operation::Operation;
use crate::schemes::{SchemeTable, PLAIN};
use crate::table::Table;
use crate::word::capitals;

/// The most rows that one question takes back.
const MOST_TAKEN_BACK: usize = 12;

/// Calls on a fresh table of the built-in six, as [`what_if_list_under`] makes them.
pub fn what_if_list(random: &mut Random, rows: usize, questions: usize) -> Vec<Call> {
    what_if_list_under(random, SchemeTable::six(), rows, questions)
}

/// Calls that build a closed program and infer, then so many questions, each with an infer at its end.
///
/// The program has up to so many rows, or is one of any size about functions. All calls but infers are accepted.
pub fn what_if_list_under(
    random: &mut Random,
    schemes: &SchemeTable,
    rows: usize,
    questions: usize,
) -> Vec<Call> {
    let program = if random.one_in(8) {
        let program = function_program_under(random, schemes);
        with_floors_in_any_case(random, program)
    } else {
        program_with_floors_under(random, schemes, rows)
    };
    // Only its parameters are kept as the calls leave them.
    let mut table = program.table();
    let lines: Vec<Vec<u8>> = program.lines.into_iter().map(String::into_bytes).collect();
    let rows: Vec<Vec<u8>> = lines.iter().filter(|line| line.starts_with(b"E")).cloned().collect();
    let mut calls: Vec<Call> = lines.into_iter().map(Call::Add).collect();
    let redeclarations = program.redeclarations.into_iter();
    calls.extend(redeclarations.map(|(parameter, code)| Call::Redeclare(parameter, code)));
    calls.push(Call::INFER);
    for _ in 0..questions {
        calls.extend(match random.below(5) {
            0 | 1 if !table.params.is_empty() => vec![redeclared(random, &mut table)],
            2 => lowered_and_restored(random, &table)
                .unwrap_or_else(|| rebuilt(random, schemes, &rows)),
            _ => rebuilt(random, schemes, &rows),
        });
        calls.push(Call::INFER);
    }
    calls
}

/// A redeclaration of one of the table's parameters, as a word, as its floor or as any code.
fn redeclared(random: &mut Random, table: &mut Table) -> Call {
    let own = random.below(table.params.len());
    let floor = table.params[own].floor;
    let code = match random.below(3) {
        0 => any_word(random, table.schemes()),
        1 if floor != PLAIN => floor,
        _ => any_code(random, table.schemes()),
    };
    table.params[own].qualifier = code;
    Call::Redeclare(own as u64, code.into())
}

/// Take-backs of the last rows, followed by adds of the program's own rows or of slightly other ones.
fn rebuilt(random: &mut Random, schemes: &SchemeTable, rows: &[Vec<u8>]) -> Vec<Call> {
    let count = random.between(1, rows.len().min(MOST_TAKEN_BACK));
    let mut calls = vec![Call::TakeBack; count];
    if random.one_in(2) {
        calls.push(Call::INFER);
    }
    let others = random.one_in(2);
    for row in &rows[rows.len() - count..] {
        let line = if others { other_row(random, schemes, row) } else { row.clone() };
        calls.push(Call::Add(line));
    }
    calls
}

/// The row with any operation in the place of its own, or any encrypted number or a number in the place of one; its words are in any case.
fn other_row(random: &mut Random, schemes: &SchemeTable, row: &[u8]) -> Vec<u8> {
    let mut fields: Vec<&[u8]> = row.split(|&byte| byte == b',').collect();
    let operation = Operation::ALL[random.below(Operation::ALL.len())];
    let scheme = schemes.word(any_scheme(random, schemes));
    match &capitals(fields[2])[..] {
        b"OP" => fields[3] = operation.word().as_bytes(),
        b"NUM" | b"ENC" => {
            fields.truncate(2);
            match random.one_in(3) {
                true => fields.extend([&b"NUM"[..], b"5"]),
                false => fields.extend([&b"ENC"[..], scheme.as_bytes(), b"5"]),
            }
        }
        _ => {}
    }
    in_any_case(random, &fields.join(&b','))
}
