//! The dry run of an accepted job, as document 02 has it under e).

use crate::expression::{Expression, Form, Number};
use crate::rows::Term;
use crate::schemes::PLAIN;
use crate::table::Table;
use crate::transition::{Halt, Reduction, Rules, Step, Stuck};
use crate::typing::Shape;

/// The most steps that a run makes; a greater budget counts as this one.
pub const MOST_STEPS: u32 = 10_000;

/// The most reduction contexts that may stand around a step.
pub const MOST_CONTEXTS: usize = 4_096;

/// How a run ends.
#[derive(Clone, Copy, Debug, PartialEq, Eq)]
pub enum Ending {
    /// With a number and its tag.
    Number(Number),
    /// With a function.
    Function,
    /// It is refused with 28, 29 or 30.
    Refused(u32),
    /// There is no next step; this must not happen.
    Stuck(Stuck),
}

/// How a run ends, with the steps that it made.
#[derive(Clone, Copy, Debug, PartialEq, Eq)]
pub struct Outcome {
    /// How it ends.
    pub ending: Ending,
    /// How many applications it made.
    pub applications: u32,
    /// How many operations it made.
    pub operations: u32,
}

impl Outcome {
    /// How many steps the run made.
    pub fn steps(&self) -> u32 {
        self.applications + self.operations
    }

    /// The same without the tag of a number.
    pub fn untagged(self) -> Outcome {
        let ending = match self.ending {
            Ending::Number(Number { value, .. }) => Ending::Number(Number { value, tag: PLAIN }),
            other => other,
        };
        Outcome { ending, ..self }
    }
}

/// Runs the program that stands in a table on these numbers with a budget of steps.
pub fn dry_run(table: &Table, numbers: &[u32], budget: u32) -> Outcome {
    run(start(table, numbers), Rules::Tagged(table.schemes()), budget)
}

/// The same with no tags at all and by the plain rules.
pub fn plain_run(table: &Table, numbers: &[u32], budget: u32) -> Outcome {
    run(start(table, numbers).map(|start| start.untagged()), Rules::Plain, budget)
}

/// The leading LAMs of an accepted job applied to numbers, each tagged with its parameter's word; `None` where 28 refuses it.
pub fn start(table: &Table, numbers: &[u32]) -> Option<Expression> {
    let judgement = table.accepted().ok()?;
    let leading = leading_parameters(table);
    let slots: Vec<_> = leading.iter().map(|&own| judgement.params[usize::from(own)]).collect();
    if numbers.len() != slots.len() || slots.iter().any(|slot| slot.shape == Shape::Arrow) {
        return None;
    }
    let job = Expression::of_last_row(table, |row| judgement.terms[row].word)?;
    let tagged = numbers.iter().zip(slots).map(|(&value, slot)| Number { value, tag: slot.word });
    Some(tagged.fold(job, |job, number| Expression::apply(job, Expression::number(number))))
}

/// The parameters of the leading LAMs, the outermost first: the last row, if it is a LAM, its body, if that is one, and so on.
pub fn leading_parameters(table: &Table) -> Vec<u16> {
    let mut parameters = vec![];
    let mut row = table.terms.last();
    while let Some(&Term::Lambda { parameter, body }) = row {
        parameters.push(parameter);
        row = table.terms.get(usize::from(body));
    }
    parameters
}

/// Runs an expression; without one the run is refused with 28.
fn run(start: Option<Expression>, rules: Rules, budget: u32) -> Outcome {
    let mut outcome = Outcome { ending: Ending::Refused(28), applications: 0, operations: 0 };
    let Some(start) = start else {
        return outcome;
    };
    let mut reduction = Reduction::of(start);
    loop {
        if let Some(ending) = ending(&reduction, outcome.steps(), budget.min(MOST_STEPS)) {
            return Outcome { ending, ..outcome };
        }
        match reduction.step(rules) {
            Ok(Step::Application) => outcome.applications += 1,
            Ok(Step::Operation) => outcome.operations += 1,
            Err(Halt::TooLarge) => return Outcome { ending: Ending::Refused(29), ..outcome },
            Err(Halt::Stuck(stuck)) => return Outcome { ending: Ending::Stuck(stuck), ..outcome },
        }
    }
}

/// How a run ends before its next step, if it does.
fn ending(reduction: &Reduction, steps: u32, budget: u32) -> Option<Ending> {
    match reduction.value().map(Expression::form) {
        Some(&Form::Number(number)) => Some(Ending::Number(number)),
        Some(_) => Some(Ending::Function),
        None if steps == budget || reduction.contexts() > MOST_CONTEXTS => {
            Some(Ending::Refused(30))
        }
        None => None,
    }
}
