//! Expressions as trees, as section 1.1 of source document 001 has them, and substitution in them.

use crate::operation::Operation;
use crate::rows::Term;
use crate::schemes::{Code, PLAIN};
use crate::table::Table;
use std::mem;
use std::rc::Rc;

/// A number with its tag: the scheme that it is encrypted under, or PLAIN where it has none.
#[derive(Clone, Copy, Debug, PartialEq, Eq)]
pub struct Number {
    /// The number.
    pub value: u32,
    /// The code of the scheme, or of PLAIN.
    pub tag: Code,
}

/// What an expression is, with its parts.
#[derive(Clone)]
pub enum Form {
    /// A number.
    Number(Number),
    /// A parameter.
    Variable(u16),
    /// A function.
    Lambda {
        /// The parameter that it binds.
        parameter: u16,
        /// Its body.
        body: Expression,
    },
    /// A function applied to an argument.
    Apply {
        /// The function.
        function: Expression,
        /// The argument.
        argument: Expression,
    },
    /// An operation on two operands.
    Operate {
        /// The operation.
        operation: Operation,
        /// The left operand.
        left: Expression,
        /// The right operand.
        right: Expression,
    },
}

/// A set of parameters: a bit for each, of which a table has at most 64.
type Parameters = u64;

const _: () = assert!(Table::PARAMETER_LIMIT <= Parameters::BITS as usize);

/// The set of one parameter.
fn only(parameter: u16) -> Parameters {
    1 << parameter
}

/// An expression; one that stands in several places is kept once.
#[derive(Clone)]
pub struct Expression(Rc<Node>);

/// The root of an expression.
struct Node {
    form: Form,
    /// The parameters that are free in the expression.
    free: Parameters,
}

impl Expression {
    /// A number.
    pub fn number(number: Number) -> Expression {
        Expression::with(Form::Number(number), 0)
    }

    /// A parameter.
    pub fn variable(parameter: u16) -> Expression {
        Expression::with(Form::Variable(parameter), only(parameter))
    }

    /// A function of a parameter.
    pub fn lambda(parameter: u16, body: Expression) -> Expression {
        let free = body.0.free & !only(parameter);
        Expression::with(Form::Lambda { parameter, body }, free)
    }

    /// A function applied to an argument.
    pub fn apply(function: Expression, argument: Expression) -> Expression {
        let free = function.0.free | argument.0.free;
        Expression::with(Form::Apply { function, argument }, free)
    }

    /// An operation on two operands.
    pub fn operate(operation: Operation, left: Expression, right: Expression) -> Expression {
        let free = left.0.free | right.0.free;
        Expression::with(Form::Operate { operation, left, right }, free)
    }

    /// The expression of this form with these free parameters.
    fn with(form: Form, free: Parameters) -> Expression {
        Expression(Rc::new(Node { form, free }))
    }

    /// What the expression is.
    pub fn form(&self) -> &Form {
        &self.0.form
    }

    /// Tells whether it is a number or a function.
    pub fn is_value(&self) -> bool {
        matches!(self.form(), Form::Number(_) | Form::Lambda { .. })
    }

    /// Tells whether no parameter is free in it.
    pub fn is_closed(&self) -> bool {
        self.0.free == 0
    }

    /// The expression with a closed value in each place where a parameter is free.
    ///
    /// What has no such place is shared and not entered. Such are the closed values that were put in before, so that no way
    /// into the tree is longer than one through a table's rows; and a LAM of the parameter itself, in which it is not free.
    pub fn substituted(&self, parameter: u16, value: &Expression) -> Expression {
        if self.0.free & only(parameter) == 0 {
            return self.clone();
        }
        let part = |part: &Expression| part.substituted(parameter, value);
        match self.form() {
            Form::Variable(_) => value.clone(),
            Form::Number(_) => self.clone(),
            Form::Lambda { parameter: own, body } => Expression::lambda(*own, part(body)),
            Form::Apply { function, argument } => Expression::apply(part(function), part(argument)),
            Form::Operate { operation, left, right } => {
                Expression::operate(*operation, part(left), part(right))
            }
        }
    }

    /// The expression with no tags, which the source calls decr; it must not be much deeper than a table's rows.
    pub fn untagged(&self) -> Expression {
        match self.form() {
            Form::Number(number) => Expression::number(Number { tag: PLAIN, ..*number }),
            Form::Variable(_) => self.clone(),
            Form::Lambda { parameter, body } => Expression::lambda(*parameter, body.untagged()),
            Form::Apply { function, argument } => {
                Expression::apply(function.untagged(), argument.untagged())
            }
            Form::Operate { operation, left, right } => {
                Expression::operate(*operation, left.untagged(), right.untagged())
            }
        }
    }

    /// The expression of a table's last row, each NUM and ENC row tagged with the word that is given for it.
    ///
    /// `None` if there is no row.
    pub fn of_last_row(table: &Table, word: impl Fn(usize) -> Code) -> Option<Expression> {
        let mut rows: Vec<Expression> = vec![];
        for (own, term) in table.terms.iter().enumerate() {
            // A row's children stand below it.
            let row = |row: u16| rows[usize::from(row)].clone();
            let expression = match *term {
                Term::Lambda { parameter, body } => Expression::lambda(parameter, row(body)),
                Term::Apply { function, argument } => {
                    Expression::apply(row(function), row(argument))
                }
                Term::Operate { operation, left, right } => {
                    Expression::operate(operation, row(left), row(right))
                }
                Term::Variable { parameter } => Expression::variable(parameter),
                Term::Number { value } | Term::Encrypted { value, .. } => {
                    Expression::number(Number { value, tag: word(own) })
                }
            };
            rows.push(expression);
        }
        rows.pop()
    }
}

impl Form {
    /// Takes the parts out; what is left has none.
    fn take_parts(&mut self) -> impl Iterator<Item = Expression> {
        let leaf = Form::Number(Number { value: 0, tag: PLAIN });
        let parts = match mem::replace(self, leaf) {
            Form::Number(_) | Form::Variable(_) => [None, None],
            Form::Lambda { body, .. } => [Some(body), None],
            Form::Apply { function, argument } => [Some(function), Some(argument)],
            Form::Operate { left, right, .. } => [Some(left), Some(right)],
        };
        parts.into_iter().flatten()
    }
}

impl Drop for Node {
    /// Drops the parts one after the other: a value may hold values inside each other, thousands deep.
    fn drop(&mut self) {
        let mut pending: Vec<Expression> = self.form.take_parts().collect();
        while let Some(Expression(part)) = pending.pop() {
            if let Some(mut unshared) = Rc::into_inner(part) {
                pending.extend(unshared.form.take_parts());
            }
        }
    }
}
