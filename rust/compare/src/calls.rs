//! Lists of the calls that change a table.

use crate::well_formed::{random_form, random_text, Field};
use second::generate::{self, damaged_line, in_any_case, Random};
use second::Table;

/// The greatest length of a line in a script, above that of the lines that are read.
pub const LONGEST_LINE: usize = 70;

/// A call that changes a table, or is refused.
#[derive(Clone, Debug, PartialEq, Eq)]
pub enum Call {
    /// Add this line, of at most [`LONGEST_LINE`] bytes.
    Add(Vec<u8>),
    /// Redeclare this parameter with this code.
    Redeclare(u32, u32),
    /// Take back the last term row.
    TakeBack,
}

impl Call {
    /// Makes this call on a reference table; returns 0 or the refusal's number.
    pub fn apply(&self, table: &mut Table) -> u32 {
        match self {
            Call::Add(line) => table.add(line),
            Call::Redeclare(parameter, code) => {
                table.redeclare(u64::from(*parameter), u64::from(*code))
            }
            Call::TakeBack => table.take_back(),
        }
    }

    /// The call as a script can hold it; an inference changes no table and is left out.
    fn of_generated(call: generate::Call) -> Option<Call> {
        match call {
            generate::Call::Add(line) => Some(Call::add(line)),
            generate::Call::Redeclare(parameter, code) => {
                Some(Call::Redeclare(parameter as u32, code as u32))
            }
            generate::Call::TakeBack => Some(Call::TakeBack),
            generate::Call::Infer(..) => None,
        }
    }

    /// The add of a line, shortened to what a script can hold.
    fn add(mut line: Vec<u8>) -> Call {
        line.truncate(LONGEST_LINE);
        Call::Add(line)
    }
}

impl From<Call> for generate::Call {
    fn from(call: Call) -> generate::Call {
        match call {
            Call::Add(line) => generate::Call::Add(line),
            Call::Redeclare(parameter, code) => {
                generate::Call::Redeclare(parameter.into(), code.into())
            }
            Call::TakeBack => generate::Call::TakeBack,
        }
    }
}

/// Calls that build a program of up to so many rows, with other calls between.
pub fn program_calls(random: &mut Random, rows: usize) -> Vec<Call> {
    let calls = generate::call_list(random, rows);
    calls.into_iter().filter_map(Call::of_generated).collect()
}

/// So many calls that fit the table before them, or nearly fit it; a long list fills the table.
pub fn fitting_calls(random: &mut Random, count: usize) -> Vec<Call> {
    fitting_calls_on(random, Table::fresh(), count)
}

/// So many calls from this table on that fit the table before them, or nearly fit it.
pub fn fitting_calls_on(random: &mut Random, mut table: Table, count: usize) -> Vec<Call> {
    let next = |_| {
        let call = fitting_call(random, &table);
        call.apply(&mut table);
        call
    };
    (0..count).map(next).collect()
}

/// The lines that fill a table. Most of its term rows have children, or bind a parameter, that are looked
/// for in all rows before: 96 operations join 97 numbers, and 63 LAMs stand around the sum.
pub fn filling_lines() -> impl Iterator<Item = String> {
    let types = (0..Table::TYPE_LIMIT).map(|i| format!("T,{i},ANY"));
    let params = (0..Table::PARAMETER_LIMIT).map(|p| format!("P,{p},g{p},{p}"));
    let terms = (0..Table::TERM_LIMIT).map(|i| match i {
        0..97 => format!("E,{i},NUM,{i}"),
        97..193 => format!("E,{i},OP,ADD,{},{}", i - 97, i - 1),
        _ => format!("E,{i},LAM,{},{}", i - 193, i - 1),
    });
    types.chain(params).chain(terms)
}

/// One call that fits the table, or nearly fits it.
fn fitting_call(random: &mut Random, table: &Table) -> Call {
    match random.below(20) {
        0 => Call::TakeBack,
        1 | 2 => {
            let parameter = random.below(table.params.len() + 2);
            Call::Redeclare(parameter as u32, random.below(80) as u32)
        }
        3 => {
            let line = fitting_line(random, table);
            Call::add(damaged_line(random, &line))
        }
        _ => Call::Add(fitting_line(random, table)),
    }
}

/// A line that fits the table, or nearly fits it, with its words in any case.
fn fitting_line(random: &mut Random, table: &Table) -> Vec<u8> {
    let form = random_form(random);
    let next = match form.list {
        "T" => table.types.len(),
        "P" => table.params.len(),
        _ => table.terms.len(),
    };
    let text = |field| match field {
        Field::Own if random.one_in(20) => random.between(0, next + 1).to_string(),
        Field::Own => next.to_string(),
        Field::TypeRow => random.between(0, table.types.len()).to_string(),
        Field::Parameter => random.between(0, table.params.len()).to_string(),
        Field::Row => recent_row(random, table.terms.len()).to_string(),
        _ => random_text(random, table.schemes(), field),
    };
    let line = form.line(text);
    in_any_case(random, line.as_bytes())
}

/// One of the last rows, which are mostly unused, or seldom the next one or an earlier one.
fn recent_row(random: &mut Random, rows: usize) -> usize {
    match random.below(10) {
        0 => random.between(0, rows),
        _ => rows.saturating_sub(random.between(1, 6)),
    }
}
