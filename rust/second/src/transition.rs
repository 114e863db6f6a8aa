//! The transitions of section 1.3.2 of source document 001, and the plain ones of section 1.2.1.
//!
//! The reduction contexts are R ::= [] | R e | v R | R f e | v f R, so that a step is made call by value and from left to right.

use crate::expression::{Expression, Form, Number};
use crate::operation::Operation;
use crate::schemes::{Code, SchemeTable, PLAIN};

/// What a step does.
#[derive(Clone, Copy, Debug, PartialEq, Eq, PartialOrd, Ord)]
pub enum Step {
    /// A function is applied to a value.
    Application,
    /// An operation is made on two numbers.
    Operation,
}

/// Why there is no transition though the expression is no value; no run of an accepted job comes to this.
#[derive(Clone, Copy, Debug, PartialEq, Eq, PartialOrd, Ord)]
pub enum Stuck {
    /// The next expression is a parameter.
    FreeParameter,
    /// A number is applied.
    NumberApplied,
    /// A function is applied to a value in which a parameter is free.
    OpenArgument,
    /// An operand is a function.
    FunctionAsOperand,
    /// The operands have different tags.
    DifferentTags,
    /// The operands' tag is no scheme that supports the operation.
    Unsupported,
}

/// Why a step is not made.
#[derive(Clone, Copy, Debug, PartialEq, Eq, PartialOrd, Ord)]
pub enum Halt {
    /// The result would pass 4294967295.
    TooLarge,
    /// There is no transition.
    Stuck(Stuck),
}

/// Which transitions are made.
#[derive(Clone, Copy)]
pub enum Rules<'a> {
    /// Those of section 1.2.1, on numbers without tags.
    Plain,
    /// Those of section 1.3.2, under these schemes; two plain operands work by the plain rules.
    Tagged(&'a SchemeTable),
}

impl Rules<'_> {
    /// The result of an operation.
    fn operated(self, operation: Operation, left: Number, right: Number) -> Result<Number, Halt> {
        if left.tag != right.tag {
            return Err(Halt::Stuck(Stuck::DifferentTags));
        }
        if !self.supports(left.tag, operation) {
            return Err(Halt::Stuck(Stuck::Unsupported));
        }
        let value = operated(operation, left.value, right.value).ok_or(Halt::TooLarge)?;
        let tag = if operation.keeps_qualifier() { left.tag } else { PLAIN };
        Ok(Number { value, tag })
    }

    /// Tells whether an operation is made on numbers with this tag.
    fn supports(self, tag: Code, operation: Operation) -> bool {
        match self {
            Rules::Plain => tag == PLAIN,
            Rules::Tagged(schemes) => schemes.at_or_below(tag, schemes.highest(operation)),
        }
    }

    /// The expression that a redex goes over to, and what the step does.
    fn contracted(self, redex: &Expression) -> Result<(Expression, Step), Halt> {
        match redex.form() {
            Form::Apply { function, argument } => {
                Ok((applied(function, argument)?, Step::Application))
            }
            Form::Operate { operation, left, right } => match (left.form(), right.form()) {
                (&Form::Number(left), &Form::Number(right)) => {
                    let number = self.operated(*operation, left, right)?;
                    Ok((Expression::number(number), Step::Operation))
                }
                _ => Err(Halt::Stuck(Stuck::FunctionAsOperand)),
            },
            _ => Err(Halt::Stuck(Stuck::FreeParameter)),
        }
    }
}

/// The value of an operation on numbers, if it does not pass 4294967295; a comparison gives 1 when true, else 0.
fn operated(operation: Operation, left: u32, right: u32) -> Option<u32> {
    match operation {
        Operation::Add => left.checked_add(right),
        Operation::Mul => left.checked_mul(right),
        Operation::Eq => Some((left == right).into()),
        Operation::Lt => Some((left < right).into()),
        Operation::Gt => Some((left > right).into()),
    }
}

/// The body of a function with a value in its parameter's place.
fn applied(function: &Expression, value: &Expression) -> Result<Expression, Halt> {
    match function.form() {
        Form::Lambda { parameter, body } if value.is_closed() => {
            Ok(body.substituted(*parameter, value))
        }
        Form::Lambda { .. } => Err(Halt::Stuck(Stuck::OpenArgument)),
        _ => Err(Halt::Stuck(Stuck::NumberApplied)),
    }
}

/// One reduction context, which stands around an expression.
#[derive(Clone)]
enum Context {
    /// R e: the function that is applied to this argument.
    Applied(Expression),
    /// v R: the argument of this function.
    Argument(Expression),
    /// R f e: the left operand beside this right one.
    Left(Operation, Expression),
    /// v f R: the right operand beside this left one.
    Right(Operation, Expression),
}

impl Context {
    /// The context with an expression in its place.
    fn around(self, inner: Expression) -> Expression {
        match self {
            Context::Applied(argument) => Expression::apply(inner, argument),
            Context::Argument(function) => Expression::apply(function, inner),
            Context::Left(operation, right) => Expression::operate(operation, inner, right),
            Context::Right(operation, left) => Expression::operate(operation, left, inner),
        }
    }
}

/// An expression as R[e], with the contexts of R, the outermost first, and e: the redex of the next step, or a value where R is empty.
#[derive(Clone)]
pub struct Reduction {
    contexts: Vec<Context>,
    inner: Expression,
}

impl Reduction {
    /// The expression with its next step found.
    pub fn of(expression: Expression) -> Reduction {
        let mut reduction = Reduction { contexts: vec![], inner: expression };
        reduction.find_next();
        reduction
    }

    /// The value that the whole expression is, if it is one.
    pub fn value(&self) -> Option<&Expression> {
        Some(&self.inner).filter(|inner| inner.is_value())
    }

    /// How many contexts stand around the next step.
    pub fn contexts(&self) -> usize {
        self.contexts.len()
    }

    /// Makes the next step of an expression that is no value; a step that is not made leaves it as it is.
    pub fn step(&mut self, rules: Rules) -> Result<Step, Halt> {
        let (inner, step) = rules.contracted(&self.inner)?;
        self.inner = inner;
        self.find_next();
        Ok(step)
    }

    /// The whole expression.
    pub fn whole(self) -> Expression {
        self.contexts.into_iter().rev().fold(self.inner, |inner, context| context.around(inner))
    }

    /// Finds the next step from any place in the expression whose contexts are contexts.
    fn find_next(&mut self) {
        loop {
            match split(&self.inner) {
                Some((context, part)) => {
                    self.contexts.push(context);
                    self.inner = part;
                }
                None if self.inner.is_value() => match self.contexts.pop() {
                    Some(context) => self.inner = context.around(self.inner.clone()),
                    None => return,
                },
                None => return,
            }
        }
    }
}

/// The part of an expression in which its next step is, with the context of the part; `None` for a value and for a redex.
fn split(expression: &Expression) -> Option<(Context, Expression)> {
    let (first, second) = match expression.form() {
        Form::Apply { function, argument } => (function, argument),
        Form::Operate { left, right, .. } => (left, right),
        _ => return None,
    };
    let is_first = !first.is_value();
    if !is_first && second.is_value() {
        return None;
    }
    let (part, other) = if is_first { (first, second) } else { (second, first) };
    let (part, other) = (part.clone(), other.clone());
    let context = match (expression.form(), is_first) {
        (Form::Operate { operation, .. }, true) => Context::Left(*operation, other),
        (Form::Operate { operation, .. }, false) => Context::Right(*operation, other),
        (_, true) => Context::Applied(other),
        (_, false) => Context::Argument(other),
    };
    Some((context, part))
}
