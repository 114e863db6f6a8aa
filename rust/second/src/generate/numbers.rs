//! Where the NUM rows of tables stand, what stands beside them, and the words that they have.

use super::order::parents;
use crate::counts::Counts;
use crate::operation::Operation;
use crate::rows::Term;
use crate::schemes::SchemeTable;
use crate::table::Table;
use crate::typing::judge;
use std::collections::BTreeSet;

/// Where a NUM row stands.
#[derive(Clone, Copy, Debug, PartialEq, Eq, PartialOrd, Ord)]
pub enum Place {
    /// The left operand of an operation.
    Left(Operation),
    /// The right operand of an operation.
    Right(Operation),
    /// The argument of a LAM whose parameter has no VAR.
    IgnoredArgument,
    /// The argument of any other function.
    Argument,
    /// The function of an application, which has no typing.
    Function,
    /// The body of a LAM that is applied at once.
    Result,
    /// The body of any other LAM.
    Body,
    /// The last row, or a row of an open program that is no child.
    NoChild,
}

impl Place {
    /// All places.
    pub fn all() -> Vec<Place> {
        let mut all = Place::operands();
        all.extend([
            Place::IgnoredArgument,
            Place::Argument,
            Place::Function,
            Place::Result,
            Place::Body,
            Place::NoChild,
        ]);
        all
    }

    /// The places in operations.
    pub fn operands() -> Vec<Place> {
        let left = Operation::ALL.map(Place::Left);
        left.into_iter().chain(Operation::ALL.map(Place::Right)).collect()
    }

    /// The place of a row whose parent is known.
    fn of(table: &Table, parents: &[Option<usize>], row: usize) -> Place {
        let Some(parent) = parents[row] else {
            return Place::NoChild;
        };
        let is_row = |child: u16| usize::from(child) == row;
        match table.terms[parent] {
            Term::Operate { operation, left, .. } if is_row(left) => Place::Left(operation),
            Term::Operate { operation, .. } => Place::Right(operation),
            Term::Apply { function, .. } if is_row(function) => Place::Function,
            Term::Apply { function, .. } if ignores_argument(table, function) => {
                Place::IgnoredArgument
            }
            Term::Apply { .. } => Place::Argument,
            _ if Place::is_function(table, parents, parent) => Place::Result,
            _ => Place::Body,
        }
    }

    /// Tells whether a row is the function of an application.
    fn is_function(table: &Table, parents: &[Option<usize>], row: usize) -> bool {
        let term = parents[row].map(|parent| table.terms[parent]);
        matches!(term, Some(Term::Apply { function, .. }) if usize::from(function) == row)
    }

    /// The operation that a row in this place is an operand of.
    fn operation(self) -> Option<Operation> {
        match self {
            Place::Left(operation) | Place::Right(operation) => Some(operation),
            _ => None,
        }
    }
}

/// Tells whether a row is a LAM whose parameter has no VAR.
fn ignores_argument(table: &Table, row: u16) -> bool {
    let bound = table.terms[usize::from(row)].bound_parameter();
    bound.is_some_and(|parameter| !table.terms.contains(&Term::Variable { parameter }))
}

/// What is the other operand of a NUM row's operation; qualifiers are given as words.
#[derive(Clone, Debug, PartialEq, Eq, PartialOrd, Ord)]
pub enum Partner {
    /// A parameter that is declared with this qualifier.
    Declared(String),
    /// A parameter that is declared with a named variable.
    NamedVariable,
    /// Another NUM row.
    Number,
    /// A number that is encrypted with this scheme.
    Encrypted(String),
    /// The result of a comparison.
    Comparison,
    /// The result of ADD or MUL.
    Arithmetic,
    /// The result of an application.
    Application,
    /// A function, which has no typing.
    Function,
}

impl Partner {
    /// All of them under a scheme table.
    pub fn all(schemes: &SchemeTable) -> Vec<Partner> {
        let declared = schemes.words().into_iter().map(Partner::Declared);
        // The first word is PLAIN, which is no scheme.
        let encrypted = schemes.words().into_iter().skip(1).map(Partner::Encrypted);
        let others = [
            Partner::NamedVariable,
            Partner::Number,
            Partner::Comparison,
            Partner::Arithmetic,
            Partner::Application,
            Partner::Function,
        ];
        declared.chain(encrypted).chain(others).collect()
    }

    /// What a row is to the other operand.
    fn of(table: &Table, row: u16) -> Partner {
        match table.terms[usize::from(row)] {
            Term::Variable { parameter } => {
                let code = table.params[usize::from(parameter)].qualifier;
                match code < table.schemes().first_variable() {
                    true => Partner::Declared(table.schemes().word(code).to_string()),
                    false => Partner::NamedVariable,
                }
            }
            Term::Number { .. } => Partner::Number,
            Term::Encrypted { scheme, .. } => {
                Partner::Encrypted(table.schemes().word(scheme).to_string())
            }
            Term::Operate { operation, .. } if operation.keeps_qualifier() => Partner::Arithmetic,
            Term::Operate { .. } => Partner::Comparison,
            Term::Apply { .. } => Partner::Application,
            Term::Lambda { .. } => Partner::Function,
        }
    }
}

/// The operation that a NUM row is an operand of, or none, with its word.
pub type OperandWord = (Option<Operation>, String);

/// The words that NUM rows can have in a typing under a scheme table, for operands of each operation and for others.
pub fn possible_words(schemes: &SchemeTable) -> Vec<OperandWord> {
    let operations = [None].into_iter().chain(Operation::ALL.map(Some));
    let possible = |operation: Option<Operation>| {
        let highest = operation.map_or(schemes.greatest(), |it| schemes.highest(it));
        let words = schemes.qualifiers().filter(move |&code| schemes.at_or_below(code, highest));
        words.map(move |code| (operation, schemes.word(code).to_string()))
    };
    operations.flat_map(possible).collect()
}

/// What was seen of the NUM rows of many tables.
#[derive(Debug, Default)]
pub struct NumberCounts {
    /// Where they stand.
    pub places: Counts<Place>,
    /// What stands beside them in operations.
    pub partners: Counts<Partner>,
    /// Their words in tables that have a typing.
    pub words: Counts<String>,
    /// The same with the operations that they are operands of.
    pub operand_words: Counts<OperandWord>,
    /// How many different words they have in a table that has a typing.
    pub different_words: Counts<usize>,
}

impl NumberCounts {
    /// Counts what is seen of a table's NUM rows.
    pub fn take(&mut self, table: &Table) {
        let (judgement, parents) = (judge(table).ok(), parents(&table.terms));
        let mut words = BTreeSet::new();
        for (row, term) in table.terms.iter().enumerate() {
            match *term {
                Term::Operate { left, right, .. } => self.take_operands(table, left, right),
                Term::Number { .. } => {
                    let place = Place::of(table, &parents, row);
                    self.places.add(place);
                    if let Some(judgement) = &judgement {
                        let word = table.schemes().word(judgement.terms[row].word).to_string();
                        self.words.add(word.clone());
                        self.operand_words.add((place.operation(), word.clone()));
                        words.insert(word);
                    }
                }
                _ => {}
            }
        }
        if judgement.is_some() {
            self.different_words.add(words.len());
        }
    }

    /// Counts what stands beside each NUM row among two operands.
    fn take_operands(&mut self, table: &Table, left: u16, right: u16) {
        for (one, other) in [(left, right), (right, left)] {
            if Partner::of(table, one) == Partner::Number {
                self.partners.add(Partner::of(table, other));
            }
        }
    }
}
