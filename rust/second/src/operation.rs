//! The five operations, the highest of the six schemes for each, and the qualifier of its result.

use crate::qualifier::Qualifier;
use crate::word::capitals;

/// An operation; its code is its position in this list.
#[derive(Clone, Copy, Debug, PartialEq, Eq, PartialOrd, Ord, Hash)]
pub enum Operation {
    /// Addition.
    Add,
    /// Multiplication.
    Mul,
    /// Equality.
    Eq,
    /// Less than.
    Lt,
    /// Greater than.
    Gt,
}

impl Operation {
    /// All operations in the order of their codes.
    pub const ALL: [Operation; 5] =
        [Operation::Add, Operation::Mul, Operation::Eq, Operation::Lt, Operation::Gt];

    /// The code of this operation, 0 to 4.
    pub fn code(self) -> u8 {
        self as u8
    }

    /// The word that names this operation.
    pub fn word(self) -> &'static str {
        match self {
            Operation::Add => "ADD",
            Operation::Mul => "MUL",
            Operation::Eq => "EQ",
            Operation::Lt => "LT",
            Operation::Gt => "GT",
        }
    }

    /// The operation whose word a field spells, if any.
    pub fn of_word(field: &[u8]) -> Option<Operation> {
        let word = capitals(field);
        Self::ALL.into_iter().find(|operation| operation.word().as_bytes() == word)
    }

    /// The highest of the six schemes that supports this operation, in document 01's own words.
    pub fn highest_scheme(self) -> Qualifier {
        match self {
            Operation::Add => Qualifier::Ah,
            Operation::Mul => Qualifier::Mh,
            Operation::Eq => Qualifier::Det,
            Operation::Lt | Operation::Gt => Qualifier::Op,
        }
    }

    /// Tells whether the result has the operands' qualifier; otherwise it is PLAIN.
    pub fn keeps_qualifier(self) -> bool {
        matches!(self, Operation::Add | Operation::Mul)
    }
}
