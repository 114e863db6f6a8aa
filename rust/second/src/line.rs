//! Reads one line into the entry that it declares.

use crate::operation::Operation;
use crate::qualifier::NAMED_VARIABLES;
use crate::rows::{Entry, Parameter, QualifiedRow, Term, TypeRow};
use crate::schemes::{Code, SchemeTable, PLAIN};
use crate::word::capitals;

/// The greatest length of a line, without its line feed.
pub const LONGEST_LINE: usize = 64;

/// Reads a line given without its line feed, under the built-in six; `None` if it has none of the forms.
pub fn read(line: &[u8]) -> Option<Entry> {
    read_under(SchemeTable::six(), line)
}

/// Reads a line given without its line feed, its qualifier words being a scheme table's.
pub fn read_under(schemes: &SchemeTable, line: &[u8]) -> Option<Entry> {
    if line.len() > LONGEST_LINE {
        return None;
    }
    let fields: Vec<&[u8]> = line.split(|&byte| byte == b',').collect();
    // The tags are no words: they are capitals only.
    match *fields.as_slice() {
        [b"T", own, ref rest @ ..] => Some(Entry::T(small(own)?, type_row(schemes, rest)?)),
        [b"P", own, ref rest @ ..] => Some(Entry::P(small(own)?, parameter(schemes, rest)?)),
        [b"E", own, ref rest @ ..] => Some(Entry::E(small(own)?, term(schemes, rest)?)),
        _ => None,
    }
}

/// Reads the fields of a type row after its own number.
fn type_row(schemes: &SchemeTable, fields: &[&[u8]]) -> Option<TypeRow> {
    let (kind, rest) = fields.split_first()?;
    match (&capitals(kind)[..], rest) {
        (b"INT", []) => Some(TypeRow::Int),
        (b"ANY", []) => Some(TypeRow::Any),
        (b"ARROW", [from, argument, to, result]) => Some(TypeRow::Arrow {
            argument: qualified_row(schemes, from, argument)?,
            result: qualified_row(schemes, to, result)?,
        }),
        _ => None,
    }
}

/// Reads the fields of a parameter after its own number; without a floor it is PLAIN.
fn parameter(schemes: &SchemeTable, fields: &[&[u8]]) -> Option<Parameter> {
    let (qualifier, row, floor) = match *fields {
        [qualifier, row] => (qualifier, row, PLAIN),
        [qualifier, row, floor] => (qualifier, row, schemes.of_word(floor)?),
        _ => return None,
    };
    let qualifier = qualifier_code(schemes, qualifier)?;
    Some(Parameter { qualifier, type_row: small(row)?, floor })
}

/// Reads the fields of a term row after its own number.
fn term(schemes: &SchemeTable, fields: &[&[u8]]) -> Option<Term> {
    let (kind, rest) = fields.split_first()?;
    match (&capitals(kind)[..], rest) {
        (b"LAM", [parameter, body]) => {
            Some(Term::Lambda { parameter: small(parameter)?, body: small(body)? })
        }
        (b"APP", [function, argument]) => {
            Some(Term::Apply { function: small(function)?, argument: small(argument)? })
        }
        (b"OP", [operation, left, right]) => Some(Term::Operate {
            operation: Operation::of_word(operation)?,
            left: small(left)?,
            right: small(right)?,
        }),
        (b"VAR", [parameter]) => Some(Term::Variable { parameter: small(parameter)? }),
        (b"NUM", [value]) => Some(Term::Number { value: number(value)? }),
        (b"ENC", [scheme, value]) => {
            Some(Term::Encrypted { scheme: scheme_code(schemes, scheme)?, value: number(value)? })
        }
        _ => None,
    }
}

/// Reads a qualifier and a type row.
fn qualified_row(schemes: &SchemeTable, qualifier: &[u8], row: &[u8]) -> Option<QualifiedRow> {
    Some(QualifiedRow { qualifier: qualifier_code(schemes, qualifier)?, type_row: small(row)? })
}

/// Reads a qualifier word, or a named variable `g0` to `g63`, whose `g` is small, into its code.
fn qualifier_code(schemes: &SchemeTable, field: &[u8]) -> Option<Code> {
    // No word has a digit, so that none is a variable too.
    if let Some(qualifier) = schemes.of_word(field) {
        return Some(qualifier);
    }
    let variable = u8::try_from(number(field.strip_prefix(b"g")?)?).ok()?;
    (variable < NAMED_VARIABLES).then_some(schemes.first_variable() + variable)
}

/// Reads a scheme's word; PLAIN is not a scheme.
fn scheme_code(schemes: &SchemeTable, field: &[u8]) -> Option<Code> {
    schemes.of_word(field).filter(|&code| code != PLAIN)
}

/// Reads a number from 0 to 65535.
fn small(field: &[u8]) -> Option<u16> {
    u16::try_from(number(field)?).ok()
}

/// Reads a decimal number from 0 to 4294967295 without leading zeros.
pub fn number(field: &[u8]) -> Option<u32> {
    if field.is_empty() || (field.len() > 1 && field[0] == b'0') {
        return None;
    }
    field.iter().try_fold(0u32, |value, &byte| {
        let digit = byte.is_ascii_digit().then(|| u32::from(byte - b'0'))?;
        value.checked_mul(10)?.checked_add(digit)
    })
}
