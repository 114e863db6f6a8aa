//! Terms of jobs before they stand in a table.

use crate::operation::Operation;
use crate::rows::Term;

/// A term; each of its LAMs has a parameter of its own.
#[derive(Clone)]
pub enum Tree {
    /// A parameter.
    Variable(u16),
    /// A number.
    Number(u32),
    /// A function.
    Lambda(u16, Box<Tree>),
    /// A function applied to an argument.
    Apply(Box<Tree>, Box<Tree>),
    /// An operation on two operands.
    Operate(Operation, Box<Tree>, Box<Tree>),
}

impl Tree {
    /// This term applied to another.
    pub fn applied_to(self, argument: Tree) -> Tree {
        Tree::Apply(Box::new(self), Box::new(argument))
    }

    /// An operation on two terms.
    pub fn operation(operation: Operation, left: Tree, right: Tree) -> Tree {
        Tree::Operate(operation, Box::new(left), Box::new(right))
    }

    /// The sum of two terms.
    pub fn sum(left: Tree, right: Tree) -> Tree {
        Tree::operation(Operation::Add, left, right)
    }

    /// The rows of this term, each child below its parent.
    pub fn rows(&self) -> Vec<Term> {
        let mut rows = vec![];
        self.push_rows(&mut rows);
        rows
    }

    /// Appends the rows of this term; gives the number of the last one.
    fn push_rows(&self, rows: &mut Vec<Term>) -> u16 {
        let term = match self {
            Tree::Variable(parameter) => Term::Variable { parameter: *parameter },
            Tree::Number(value) => Term::Number { value: *value },
            Tree::Lambda(parameter, body) => {
                Term::Lambda { parameter: *parameter, body: body.push_rows(rows) }
            }
            Tree::Apply(function, argument) => Term::Apply {
                function: function.push_rows(rows),
                argument: argument.push_rows(rows),
            },
            Tree::Operate(operation, left, right) => Term::Operate {
                operation: *operation,
                left: left.push_rows(rows),
                right: right.push_rows(rows),
            },
        };
        rows.push(term);
        (rows.len() - 1) as u16
    }
}

/// Gives parameters to LAMs, each once.
#[derive(Default)]
pub struct Names {
    /// How many were given.
    pub given: u16,
}

impl Names {
    /// A parameter that was not given before.
    pub fn fresh(&mut self) -> u16 {
        self.given += 1;
        self.given - 1
    }

    /// A function whose body is made with its parameter.
    pub fn function(&mut self, body: impl FnOnce(&mut Names, Tree) -> Tree) -> Tree {
        let parameter = self.fresh();
        Tree::Lambda(parameter, Box::new(body(self, Tree::Variable(parameter))))
    }

    /// A function of two arguments, one after the other.
    pub fn function_of_two(&mut self, body: impl FnOnce(&mut Names, Tree, Tree) -> Tree) -> Tree {
        self.function(|names, first| names.function(|names, second| body(names, first, second)))
    }

    /// A term with a value for a parameter: the function of the parameter applied to the value.
    pub fn with(&mut self, value: Tree, body: impl FnOnce(&mut Names, Tree) -> Tree) -> Tree {
        self.function(body).applied_to(value)
    }

    /// A numeral: \f. \x. f (f (... x)), with f so many times.
    pub fn numeral(&mut self, times: usize) -> Tree {
        self.function_of_two(|_, function, start| {
            (0..times).fold(start, |inner, _| function.clone().applied_to(inner))
        })
    }
}
