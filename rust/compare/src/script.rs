//! The script that `run_calls` reads and the bytes that it writes.

use crate::calls::Call;
use second::generate::Random;
use second::rows::{Parameter, Term, TypeRow};
use second::Table;

/// How many bytes a call has in a script.
pub const CALL_BYTES: usize = 72;

/// How many bytes an entry has.
pub const ENTRY_BYTES: usize = 10;

/// How many bytes all entries of the three lists have.
pub const ALL_ENTRIES_BYTES: usize =
    ENTRY_BYTES * (Table::TYPE_LIMIT + Table::PARAMETER_LIMIT + Table::TERM_LIMIT);

/// One entry as bytes; all are 0 where none stands.
pub type EntryBytes = [u8; ENTRY_BYTES];

/// The script of some calls.
pub fn script(random: &mut Random, calls: &[Call]) -> Vec<u8> {
    calls.iter().flat_map(|call| call_bytes(random, call)).collect()
}

/// One call in a script; what does not matter is random.
fn call_bytes(random: &mut Random, call: &Call) -> [u8; CALL_BYTES] {
    let mut bytes = [0; CALL_BYTES].map(|_: u8| random.number() as u8);
    match call {
        Call::Add(line) => {
            bytes[0] = 0;
            bytes[1] = line.len() as u8;
            bytes[2..2 + line.len()].copy_from_slice(line);
        }
        Call::Redeclare(parameter, code) => {
            bytes[0] = 1;
            bytes[1..5].copy_from_slice(&parameter.to_le_bytes());
            bytes[5..9].copy_from_slice(&code.to_le_bytes());
        }
        Call::TakeBack => bytes[0] = random.between(2, 255) as u8,
    }
    bytes
}

/// How many entries stand in each list, as one number.
pub fn sizes(table: &Table) -> u64 {
    let [types, params, terms] =
        [table.types.len(), table.params.len(), table.terms.len()].map(|size| size as u64);
    types + (params << 8) + (terms << 16)
}

/// All entries of a table: the type rows, the parameters, the term rows.
pub fn entries(table: &Table) -> Vec<u8> {
    let types = filled(table.types.iter().map(type_bytes), Table::TYPE_LIMIT);
    let params = filled(table.params.iter().map(parameter_bytes), Table::PARAMETER_LIMIT);
    let terms = filled(table.terms.iter().map(term_bytes), Table::TERM_LIMIT);
    types.chain(params).chain(terms).flatten().collect()
}

/// The entries of a list, then as many empty ones as it has room for.
fn filled(
    entries: impl Iterator<Item = EntryBytes>,
    limit: usize,
) -> impl Iterator<Item = EntryBytes> {
    entries.chain(std::iter::repeat([0; ENTRY_BYTES])).take(limit)
}

/// The bytes of a type row.
fn type_bytes(row: &TypeRow) -> EntryBytes {
    match *row {
        TypeRow::Int => [1, 0, 0, 0, 0, 0, 0, 0, 0, 0],
        TypeRow::Any => [2, 0, 0, 0, 0, 0, 0, 0, 0, 0],
        TypeRow::Arrow { argument, result } => {
            let [low, high] = argument.type_row.to_le_bytes();
            let [result_low, result_high] = result.type_row.to_le_bytes();
            let (from, to) = (argument.qualifier, result.qualifier);
            [3, from, low, high, to, result_low, result_high, 0, 0, 0]
        }
    }
}

/// The bytes of a parameter.
fn parameter_bytes(parameter: &Parameter) -> EntryBytes {
    let [low, high] = parameter.type_row.to_le_bytes();
    [1, parameter.qualifier, low, high, parameter.floor, 0, 0, 0, 0, 0]
}

/// The bytes of a term row.
fn term_bytes(term: &Term) -> EntryBytes {
    match *term {
        Term::Lambda { parameter, body } => pair_bytes(1, 0, parameter, body),
        Term::Apply { function, argument } => pair_bytes(2, 0, function, argument),
        Term::Operate { operation, left, right } => pair_bytes(3, operation.code(), left, right),
        Term::Variable { parameter } => pair_bytes(4, 0, parameter, 0),
        Term::Number { value } => number_bytes(5, 0, value),
        Term::Encrypted { scheme, value } => number_bytes(6, scheme, value),
    }
}

/// The bytes of a term row that names two others at most.
fn pair_bytes(kind: u8, code: u8, first: u16, second: u16) -> EntryBytes {
    number_bytes(kind, code, u32::from(first) | u32::from(second) << 16)
}

/// The bytes of a term row that holds a number.
fn number_bytes(kind: u8, code: u8, number: u32) -> EntryBytes {
    let [first, second, third, fourth] = number.to_le_bytes();
    [kind, code, first, second, third, fourth, 0, 0, 0, 0]
}
