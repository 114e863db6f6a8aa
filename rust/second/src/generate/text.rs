//! The lines that declare given rows, and texts of lines.

use crate::rows::{Parameter, QualifiedRow, Term, TypeRow};
use crate::schemes::{Code, SchemeTable, PLAIN};
use crate::table::Table;

/// Lines that are separated by white space, as a text in which each is ended by a line feed.
pub fn text_of_lines(lines: &str) -> Vec<u8> {
    lines.split_whitespace().flat_map(|line| format!("{line}\n").into_bytes()).collect()
}

/// The text that declares what a table's lists hold, list after list, in the words of its scheme table.
pub fn text_of_table(table: &Table) -> Vec<u8> {
    let schemes = table.schemes();
    let types = table.types.iter().enumerate().map(|(own, row)| type_line(schemes, own, row));
    let params =
        table.params.iter().enumerate().map(|(own, row)| parameter_line(schemes, own, row));
    let terms = table.terms.iter().enumerate().map(|(own, row)| term_line(schemes, own, row));
    let lines: Vec<String> = types.chain(params).chain(terms).collect();
    text_of_lines(&lines.join(" "))
}

/// The text of a declared qualifier with this code.
pub fn code_text(schemes: &SchemeTable, code: Code) -> String {
    match code.checked_sub(schemes.first_variable()) {
        Some(variable) => format!("g{variable}"),
        None => schemes.word(code).to_string(),
    }
}

/// The line of a type row.
pub fn type_line(schemes: &SchemeTable, own: usize, row: &TypeRow) -> String {
    let part = |QualifiedRow { qualifier, type_row }| {
        format!("{},{type_row}", code_text(schemes, qualifier))
    };
    match *row {
        TypeRow::Int => format!("T,{own},INT"),
        TypeRow::Any => format!("T,{own},ANY"),
        TypeRow::Arrow { argument, result } => {
            format!("T,{own},ARROW,{},{}", part(argument), part(result))
        }
    }
}

/// The line of a parameter.
pub fn parameter_line(schemes: &SchemeTable, own: usize, parameter: &Parameter) -> String {
    let &Parameter { qualifier, type_row, floor } = parameter;
    let line = format!("P,{own},{},{type_row}", code_text(schemes, qualifier));
    match floor {
        PLAIN => line,
        _ => with_floor(schemes, &line, floor),
    }
}

/// A parameter's line of four fields with a fifth one.
pub fn with_floor(schemes: &SchemeTable, line: &str, floor: Code) -> String {
    format!("{line},{}", schemes.word(floor))
}

/// The line of a term row.
pub fn term_line(schemes: &SchemeTable, own: usize, term: &Term) -> String {
    match *term {
        Term::Lambda { parameter, body } => format!("E,{own},LAM,{parameter},{body}"),
        Term::Apply { function, argument } => format!("E,{own},APP,{function},{argument}"),
        Term::Operate { operation, left, right } => {
            format!("E,{own},OP,{},{left},{right}", operation.word())
        }
        Term::Variable { parameter } => format!("E,{own},VAR,{parameter}"),
        Term::Number { value } => format!("E,{own},NUM,{value}"),
        Term::Encrypted { scheme, value } => {
            format!("E,{own},ENC,{},{value}", schemes.word(scheme))
        }
    }
}
