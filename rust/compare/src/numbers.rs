//! Entries as the six numbers that `read_line` writes for them.

use second::rows::{Entry, Parameter, Term, TypeRow};

/// The form, the own number, what the form holds, and 0 beyond.
pub type Numbers = [u32; 6];

/// How many forms there are: 0 for none of the forms, then 1 to 10.
pub const FORMS: usize = 11;

/// The numbers of what a line declares; all 0 if it has none of the forms.
pub fn numbers(entry: Option<Entry>) -> Numbers {
    match entry {
        None => [0; 6],
        Some(Entry::T(own, row)) => type_numbers(own.into(), row),
        Some(Entry::P(own, parameter)) => parameter_numbers(own.into(), parameter),
        Some(Entry::E(own, term)) => term_numbers(own.into(), term),
    }
}

/// The numbers of a type row.
fn type_numbers(own: u32, row: TypeRow) -> Numbers {
    match row {
        TypeRow::Int => [1, own, 0, 0, 0, 0],
        TypeRow::Any => [2, own, 0, 0, 0, 0],
        TypeRow::Arrow { argument, result } => [
            3,
            own,
            argument.qualifier.into(),
            argument.type_row.into(),
            result.qualifier.into(),
            result.type_row.into(),
        ],
    }
}

/// The numbers of a parameter.
fn parameter_numbers(own: u32, parameter: Parameter) -> Numbers {
    let Parameter { qualifier, type_row, floor } = parameter;
    [4, own, qualifier.into(), type_row.into(), floor.into(), 0]
}

/// The numbers of a term row.
fn term_numbers(own: u32, term: Term) -> Numbers {
    match term {
        Term::Lambda { parameter, body } => [5, own, parameter.into(), body.into(), 0, 0],
        Term::Apply { function, argument } => [6, own, function.into(), argument.into(), 0, 0],
        Term::Operate { operation, left, right } => {
            [7, own, operation.code().into(), left.into(), right.into(), 0]
        }
        Term::Variable { parameter } => [8, own, parameter.into(), 0, 0, 0],
        Term::Number { value } => [9, own, value, 0, 0, 0],
        Term::Encrypted { scheme, value } => [10, own, scheme.into(), value, 0, 0],
    }
}
