//! The entries of the three lists: type rows, parameters and term rows.

use crate::operation::Operation;
use crate::schemes::Code;

/// A declared qualifier with a type row.
#[derive(Clone, Copy, Debug, PartialEq, Eq)]
pub struct QualifiedRow {
    /// The qualifier: PLAIN, a scheme or a named variable.
    pub qualifier: Code,
    /// Number of the type row.
    pub type_row: u16,
}

/// An entry of the list of type rows.
#[derive(Clone, Copy, Debug, PartialEq, Eq)]
pub enum TypeRow {
    /// The type of integers.
    Int,
    /// One unknown type, the same at every use of the row.
    Any,
    /// The type of functions.
    Arrow {
        /// The qualified type of the argument.
        argument: QualifiedRow,
        /// The qualified type of the result.
        result: QualifiedRow,
    },
}

/// An entry of the list of parameters.
#[derive(Clone, Copy, Debug, PartialEq, Eq)]
pub struct Parameter {
    /// The present qualifier, as in a [`QualifiedRow`].
    pub qualifier: Code,
    /// Number of the type row.
    pub type_row: u16,
    /// The weakest qualifier that its owner tolerates, never a variable; all are at or above PLAIN.
    pub floor: Code,
}

/// An entry of the list of term rows.
#[derive(Clone, Copy, Debug, PartialEq, Eq)]
pub enum Term {
    /// `LAM`: a function of a parameter.
    Lambda {
        /// The parameter that it binds.
        parameter: u16,
        /// The row of its body.
        body: u16,
    },
    /// `APP`: a function applied to an argument.
    Apply {
        /// The row of the function.
        function: u16,
        /// The row of the argument.
        argument: u16,
    },
    /// `OP`: an operation on two operands.
    Operate {
        /// The operation.
        operation: Operation,
        /// The row of the left operand.
        left: u16,
        /// The row of the right operand.
        right: u16,
    },
    /// `VAR`: a parameter's value.
    Variable {
        /// The parameter.
        parameter: u16,
    },
    /// `NUM`: a number that is encrypted before upload where its qualifier is a scheme.
    Number {
        /// The number.
        value: u32,
    },
    /// `ENC`: an encrypted number.
    Encrypted {
        /// A scheme, never PLAIN or a named variable.
        scheme: Code,
        /// The number.
        value: u32,
    },
}

/// What one line declares, with the own number that it states.
#[derive(Clone, Copy, Debug, PartialEq, Eq)]
pub enum Entry {
    /// A type row.
    T(u16, TypeRow),
    /// A parameter.
    P(u16, Parameter),
    /// A term row.
    E(u16, Term),
}

impl TypeRow {
    /// The argument and the result of an arrow; nothing for other types.
    pub fn parts(&self) -> Vec<QualifiedRow> {
        match *self {
            TypeRow::Int | TypeRow::Any => vec![],
            TypeRow::Arrow { argument, result } => vec![argument, result],
        }
    }
}

impl Parameter {
    /// The present qualifier with the type row: all of a parameter that its typings depend on.
    pub fn declared(&self) -> QualifiedRow {
        QualifiedRow { qualifier: self.qualifier, type_row: self.type_row }
    }
}

impl Term {
    /// The rows that this row names as its children, in the order of the line.
    pub fn children(&self) -> impl Iterator<Item = u16> {
        let children = match *self {
            Term::Lambda { body, .. } => [Some(body), None],
            Term::Apply { function, argument } => [Some(function), Some(argument)],
            Term::Operate { left, right, .. } => [Some(left), Some(right)],
            Term::Variable { .. } | Term::Number { .. } | Term::Encrypted { .. } => [None, None],
        };
        children.into_iter().flatten()
    }

    /// Tells whether this row names one row as both of its children.
    pub fn has_equal_children(&self) -> bool {
        match *self {
            Term::Apply { function, argument } => function == argument,
            Term::Operate { left, right, .. } => left == right,
            _ => false,
        }
    }

    /// The parameter that this row names, if any.
    pub fn parameter(&self) -> Option<u16> {
        match *self {
            Term::Lambda { parameter, .. } | Term::Variable { parameter } => Some(parameter),
            _ => None,
        }
    }

    /// The parameter that this row binds, if it is a LAM.
    pub fn bound_parameter(&self) -> Option<u16> {
        match *self {
            Term::Lambda { parameter, .. } => Some(parameter),
            _ => None,
        }
    }
}

impl Entry {
    /// The own number that the line states.
    pub fn own_number(&self) -> u16 {
        match *self {
            Entry::T(own, _) | Entry::P(own, _) | Entry::E(own, _) => own,
        }
    }

    /// The type rows that the line names.
    pub fn type_rows(&self) -> Vec<u16> {
        match self {
            Entry::T(_, row) => row.parts().iter().map(|part| part.type_row).collect(),
            Entry::P(_, parameter) => vec![parameter.type_row],
            Entry::E(..) => vec![],
        }
    }
}
