//! Goals that direct the generation of programs, and how often a program departs from them.

use super::random::Random;
use crate::operation::Operation;
use crate::qualifier::NAMED_VARIABLES;
use crate::schemes::{Code, SchemeTable, PLAIN};

/// The shape that a term is meant to have.
#[derive(Clone, PartialEq)]
pub enum Aim {
    /// An integer.
    Int,
    /// A function from the first goal to the second.
    Arrow(Box<Goal>, Box<Goal>),
}

/// The qualified type that a term is meant to have.
#[derive(Clone, PartialEq)]
pub struct Goal {
    /// The class of its qualifier.
    pub class: usize,
    /// Its shape.
    pub aim: Aim,
}

impl Goal {
    /// An integer of a class.
    pub fn int(class: usize) -> Goal {
        Goal { class, aim: Aim::Int }
    }

    /// The fewest rows of a term that reaches this goal without parameters in scope.
    pub fn fewest_rows(&self) -> usize {
        match &self.aim {
            Aim::Int => 1,
            Aim::Arrow(_, result) => 1 + result.fewest_rows(),
        }
    }
}

/// How often a program departs from its goals: once in so many choices, 0 for never.
pub struct Departures {
    /// A term with a goal of another shape.
    pub wrong_shape: usize,
    /// A declared qualifier or a constant of another class.
    pub wrong_qualifier: usize,
    /// An operation that the class does not support.
    pub wrong_operation: usize,
}

impl Departures {
    /// Departures for a program: each kind is left out or happens at a random rate.
    pub fn random(random: &mut Random, rows: usize) -> Departures {
        let rare = rows / 2 + 1;
        let mut rate = |times| {
            if random.one_in(times) {
                random.between(1, rare)
            } else {
                0
            }
        };
        Departures { wrong_shape: rate(2), wrong_qualifier: rate(4), wrong_operation: rate(3) }
    }
}

/// The classes of qualifiers that a program is built from; class 0 is always PLAIN.
pub struct QualifierPlan {
    constants: Vec<Option<Code>>,
    first_variable: Code,
}

impl QualifierPlan {
    /// A plan with so many classes of a scheme table's qualifiers.
    pub fn random(random: &mut Random, schemes: &SchemeTable, classes: usize) -> QualifierPlan {
        let mut constants = vec![Some(PLAIN)];
        for _ in 1..classes {
            // Class 0 is PLAIN, so the others have schemes.
            let constant = any_scheme(random, schemes);
            constants.push(random.one_in(2).then_some(constant));
        }
        QualifierPlan { constants, first_variable: schemes.first_variable() }
    }

    /// The number of classes.
    pub fn classes(&self) -> usize {
        self.constants.len()
    }

    /// The qualifier that a class is meant to have, if it is fixed.
    pub fn constant(&self, class: usize) -> Option<Code> {
        self.constants[class]
    }

    /// The code of a qualifier for the class: its constant or one of its variables.
    pub fn code(&self, random: &mut Random, class: usize) -> Code {
        if let (Some(constant), true) = (self.constants[class], random.one_in(2)) {
            return constant;
        }
        // A variable belongs to the class that its number gives modulo the number of classes.
        let classes = self.classes();
        let members = (usize::from(NAMED_VARIABLES) - class).div_ceil(classes);
        self.first_variable + (class + classes * random.below(members)) as Code
    }

    /// A goal of any class: mostly an integer, otherwise an arrow of small depth.
    pub fn goal(&self, random: &mut Random, depth: usize) -> Goal {
        if depth == 0 || !random.one_in(4) {
            return Goal::int(random.below(self.classes()));
        }
        let argument = self.goal(random, depth - 1);
        let result = self.goal(random, depth - 1);
        // Functions cannot be ciphertext, so arrows have the class of PLAIN.
        Goal { class: 0, aim: Aim::Arrow(Box::new(argument), Box::new(result)) }
    }
}

/// Any of a scheme table's qualifiers.
pub fn any_word(random: &mut Random, schemes: &SchemeTable) -> Code {
    random.below(schemes.qualifiers().count()) as Code
}

/// Any of a scheme table's schemes.
pub fn any_scheme(random: &mut Random, schemes: &SchemeTable) -> Code {
    // The first qualifier is PLAIN, which is no scheme.
    random.between(1, schemes.schemes().count()) as Code
}

/// A scheme for a wrong place, often the one that supports the most: it clashes where others break a bound.
pub fn wrong_scheme(random: &mut Random, schemes: &SchemeTable) -> Code {
    match random.one_in(2) {
        true => fullest_scheme(schemes),
        false => any_scheme(random, schemes),
    }
}

/// A scheme that no other supports more operations than, FHE of the six.
fn fullest_scheme(schemes: &SchemeTable) -> Code {
    let supports = |&scheme: &Code| {
        Operation::ALL.into_iter().filter(|&it| schemes.supports(scheme, it)).count()
    };
    schemes.schemes().max_by_key(supports).unwrap_or(PLAIN)
}

/// Any code of a declared qualifier.
pub fn any_code(random: &mut Random, schemes: &SchemeTable) -> Code {
    random.below(usize::from(schemes.last_variable()) + 1) as Code
}

/// A code for a wrong place, often that of a qualifier: most codes are variables, which clash with nothing.
pub fn wrong_code(random: &mut Random, schemes: &SchemeTable) -> Code {
    match random.one_in(2) {
        true => any_word(random, schemes),
        false => any_code(random, schemes),
    }
}
