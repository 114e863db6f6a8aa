//! Section 1.3.2 word for word: a whole expression is taken apart from its root for each step, and nothing is shared.

use second::expression::{Expression, Form, Number};
use second::operation::Operation;
use second::schemes::{SchemeTable, PLAIN};

/// An expression.
#[derive(Clone, Debug, PartialEq, Eq)]
pub enum Literal {
    /// A number with its tag.
    Number(Number),
    /// A parameter.
    Variable(u16),
    /// A function.
    Lambda(u16, Box<Literal>),
    /// An application.
    Apply(Box<Literal>, Box<Literal>),
    /// An operation.
    Operate(Operation, Box<Literal>, Box<Literal>),
}

use Literal::{Apply, Lambda, Operate, Variable};

impl Literal {
    /// The same expression, if it has no more nodes than there are left to count.
    pub fn of(expression: &Expression, left: &mut usize) -> Option<Literal> {
        *left = left.checked_sub(1)?;
        let mut part = |it: &Expression| Literal::of(it, left).map(Box::new);
        Some(match expression.form() {
            Form::Number(number) => Literal::Number(*number),
            Form::Variable(parameter) => Variable(*parameter),
            Form::Lambda { parameter, body } => Lambda(*parameter, part(body)?),
            Form::Apply { function, argument } => Apply(part(function)?, part(argument)?),
            Form::Operate { operation, left, right } => {
                Operate(*operation, part(left)?, part(right)?)
            }
        })
    }

    /// decr of section 1.1.
    pub fn untagged(&self) -> Literal {
        let part = |it: &Literal| Box::new(it.untagged());
        match self {
            Literal::Number(number) => Literal::Number(Number { tag: PLAIN, ..*number }),
            Variable(parameter) => Variable(*parameter),
            Lambda(parameter, body) => Lambda(*parameter, part(body)),
            Apply(function, argument) => Apply(part(function), part(argument)),
            Operate(operation, left, right) => Operate(*operation, part(left), part(right)),
        }
    }

    fn is_value(&self) -> bool {
        matches!(self, Literal::Number(_) | Lambda(..))
    }

    /// e[x -> v] for a closed v: what stands under a LAM of x itself is another x.
    fn substituted(&self, parameter: u16, value: &Literal) -> Literal {
        let part = |it: &Literal| Box::new(it.substituted(parameter, value));
        match self {
            Variable(own) if *own == parameter => value.clone(),
            Lambda(own, body) if *own != parameter => Lambda(*own, part(body)),
            Apply(function, argument) => Apply(part(function), part(argument)),
            Operate(operation, left, right) => Operate(*operation, part(left), part(right)),
            _ => self.clone(),
        }
    }

    /// The transition from this expression with the number of contexts around it; `None` if it is a value, is stuck or passes the greatest number.
    pub fn step(&self, schemes: &SchemeTable) -> Option<(Literal, usize)> {
        let inside =
            |part: &Literal| part.step(schemes).map(|(it, depth)| (Box::new(it), depth + 1));
        match self {
            Apply(function, argument) if !function.is_value() => {
                inside(function).map(|(it, depth)| (Apply(it, argument.clone()), depth))
            }
            Apply(function, argument) if !argument.is_value() => {
                inside(argument).map(|(it, depth)| (Apply(function.clone(), it), depth))
            }
            Apply(function, argument) => match &**function {
                Lambda(parameter, body) => Some((body.substituted(*parameter, argument), 0)),
                _ => None,
            },
            Operate(operation, left, right) if !left.is_value() => {
                inside(left).map(|(it, depth)| (Operate(*operation, it, right.clone()), depth))
            }
            Operate(operation, left, right) if !right.is_value() => {
                inside(right).map(|(it, depth)| (Operate(*operation, left.clone(), it), depth))
            }
            Operate(operation, left, right) => match (&**left, &**right) {
                (Literal::Number(left), Literal::Number(right)) => {
                    operated(schemes, *operation, *left, *right)
                        .map(|number| (Literal::Number(number), 0))
                }
                _ => None,
            },
            _ => None,
        }
    }
}

/// n_l f n'_l where l is at or below the highest scheme of f, and n f n'.
fn operated(
    schemes: &SchemeTable,
    operation: Operation,
    Number { value, tag }: Number,
    other: Number,
) -> Option<Number> {
    let is_made = tag == other.tag && schemes.at_or_below(tag, schemes.highest(operation));
    let (left, right) = (u64::from(value), u64::from(other.value));
    let (result, tag) = match operation {
        Operation::Add => (left + right, tag),
        Operation::Mul => (left * right, tag),
        Operation::Eq => (u64::from(left == right), PLAIN),
        Operation::Lt => (u64::from(left < right), PLAIN),
        Operation::Gt => (u64::from(left > right), PLAIN),
    };
    let value = u32::try_from(result).ok()?;
    is_made.then_some(Number { value, tag })
}
