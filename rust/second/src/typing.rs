//! The typing rules as equations, the least row without a typing, and the greatest words.

use crate::operation::Operation;
use crate::qualifier::NAMED_VARIABLES;
use crate::rows::{Parameter, QualifiedRow, Term, TypeRow};
use crate::schemes::{Code, PLAIN};
use crate::solution::{Qualified, Solution, TypeId};
use crate::table::Table;

pub use crate::solution::{Shape, Strength};

/// The word and the shape of a parameter or a term row.
#[derive(Clone, Copy, Debug, PartialEq, Eq)]
pub struct Slot {
    /// The greatest qualifier that a typing gives.
    pub word: Code,
    /// The shape that the typings give.
    pub shape: Shape,
}

/// What the typings of a program give to its slots.
#[derive(Clone, Debug, PartialEq, Eq)]
pub struct Judgement {
    /// The number and the word of each named variable that stands in the lines, rising.
    pub variables: Vec<(u8, Code)>,
    /// The parameters in their order.
    pub params: Vec<Slot>,
    /// The term rows in their order.
    pub terms: Vec<Slot>,
}

/// Why a program has no typing.
#[derive(Clone, Copy, Debug, PartialEq, Eq)]
pub struct NoTyping {
    /// 21, 22 or 23.
    pub number: u32,
    /// The least row up to which the rows have no typing; 0 where the T and P lines alone have none.
    pub row: u32,
}

/// Judges the program that stands in the table, closed or not.
pub fn judge(table: &Table) -> Result<Judgement, NoTyping> {
    match solve(table, table.terms.len(), Strength::Full) {
        Ok(inference) => Ok(inference.judgement()),
        Err(row) => Err(NoTyping { number: refusal_number(table, row), row: row as u32 }),
    }
}

/// The same where "at or below" is dropped; `None` without a typing.
pub fn judge_without_bounds(table: &Table) -> Option<Judgement> {
    let inference = solve(table, table.terms.len(), Strength::Equalities);
    inference.ok().map(|inference| inference.judgement())
}

/// The same where a function may stand under a scheme, as before document 02, f); or the least row without a typing.
pub fn judge_with_encrypted_functions(table: &Table) -> Result<Judgement, u32> {
    match solve(table, table.terms.len(), Strength::EncryptedFunctions) {
        Ok(inference) => Ok(inference.judgement()),
        Err(row) => Err(row as u32),
    }
}

/// Tells whether the T and P lines alone have a typing.
pub fn lines_have_typing(table: &Table) -> bool {
    solve(table, 0, Strength::Full).is_ok()
}

/// The refusal's number for the least row up to which the rows have no typing.
fn refusal_number(table: &Table, row: usize) -> u32 {
    let has_typing = |strength| solve(table, row + 1, strength).is_ok();
    if !has_typing(Strength::Shapes) {
        21
    } else if !has_typing(Strength::Equalities) {
        22
    } else {
        23
    }
}

/// Solves the T and P lines with the first rows, or names the least row without a typing, 0 for the lines alone.
fn solve(table: &Table, rows: usize, strength: Strength) -> Result<Inference<'_>, usize> {
    let mut inference = Inference::of_declarations(table, strength);
    inference.make_functions_plain().ok_or(0usize)?;
    for (row, &term) in table.terms.iter().take(rows).enumerate() {
        let qualified = inference.apply_rule(term).ok_or(row)?;
        inference.terms.push(qualified);
        // No other row makes a type an arrow that was none.
        if let Term::Apply { .. } = term {
            inference.make_functions_plain().ok_or(row)?;
        }
    }
    inference.make_encrypted_integers();
    Ok(inference)
}

/// The solution for the lines taken so far, with the places of the lines in it.
struct Inference<'a> {
    table: &'a Table,
    solution: Solution<'a>,
    type_rows: Vec<TypeId>,
    terms: Vec<Qualified>,
}

impl<'a> Inference<'a> {
    /// Takes all T and P lines; without the rule for functions they have a typing, as type rows refer below.
    fn of_declarations(table: &'a Table, strength: Strength) -> Inference<'a> {
        let mut inference = Inference {
            table,
            solution: Solution::new(table.schemes(), strength),
            type_rows: vec![],
            terms: vec![],
        };
        for row in &table.types {
            let type_id = match *row {
                TypeRow::Int => Solution::INT,
                TypeRow::Any => inference.solution.unknown_type(),
                TypeRow::Arrow { argument, result } => {
                    let argument = inference.declared(argument);
                    let result = inference.declared(result);
                    inference.solution.arrow(argument, result)
                }
            };
            inference.type_rows.push(type_id);
        }
        inference
    }

    /// The qualified type that a line declares.
    fn declared(&self, row: QualifiedRow) -> Qualified {
        Qualified {
            qualifier: usize::from(row.qualifier),
            type_id: self.type_rows[usize::from(row.type_row)],
        }
    }

    /// The qualified type of a parameter.
    fn parameter(&self, parameter: u16) -> Qualified {
        self.declared(self.table.params[usize::from(parameter)].declared())
    }

    /// The qualified type of a term row.
    fn term(&self, row: u16) -> Qualified {
        self.terms[usize::from(row)]
    }

    /// Each qualifier with the type that it stands with: in type rows, used or not, in parameters and in the term rows taken.
    ///
    /// Those inside the types of other rows are equal to some of these.
    fn standing(&self) -> Vec<Qualified> {
        let declared = declared_rows(self.table).map(|row| self.declared(row));
        declared.chain(self.terms.iter().copied()).collect()
    }

    /// Document 02, f): "Wherever a qualifier stands with an arrow [..] it is PLAIN"; `None` without a typing.
    ///
    /// Equal qualifiers make no new arrow, so that one look at each is enough.
    fn make_functions_plain(&mut self) -> Option<()> {
        let mut standing = self.standing().into_iter();
        standing.all(|it| self.solution.make_function_plain(it)).then_some(())
    }

    /// The other side of that rule: a type under a scheme is no arrow.
    fn make_encrypted_integers(&mut self) {
        for qualified in self.standing() {
            self.solution.make_encrypted_integer(qualified);
        }
    }

    /// Takes the equations of a term's rule; gives its qualified type, or `None` without a typing.
    fn apply_rule(&mut self, term: Term) -> Option<Qualified> {
        match term {
            Term::Lambda { parameter, body } => {
                let (argument, result) = (self.parameter(parameter), self.term(body));
                let arrow = self.solution.arrow(argument, result);
                Some(constant(PLAIN, arrow))
            }
            Term::Apply { function, argument } => self.apply(function, argument),
            Term::Operate { operation, left, right } => self.operate(operation, left, right),
            Term::Variable { parameter } => Some(self.parameter(parameter)),
            // Document 02, b): "a NUM row now has type INT under any one qualifier".
            Term::Number { .. } => Some(self.solution.unknown_integer()),
            Term::Encrypted { scheme, .. } => Some(constant(scheme, Solution::INT)),
        }
    }

    /// The rule of APP: the function has an arrow from exactly the argument's qualified type.
    fn apply(&mut self, function: u16, argument: u16) -> Option<Qualified> {
        let (function, argument) = (self.term(function), self.term(argument));
        let result = self.solution.unknown();
        let arrow = self.solution.arrow(argument, result);
        let solved = self.solution.equate_types(function.type_id, arrow);
        solved.then_some(result)
    }

    /// The rule of OP: both operands are INT under one qualifier that supports the operation.
    fn operate(&mut self, operation: Operation, left: u16, right: u16) -> Option<Qualified> {
        let (left, right) = (self.term(left), self.term(right));
        let highest = self.table.schemes().highest(operation);
        let solved = self.solution.equate_types(left.type_id, Solution::INT)
            && self.solution.equate(left, right)
            && self.solution.limit(left.qualifier, highest);
        let result = if operation.keeps_qualifier() {
            Qualified { qualifier: left.qualifier, type_id: Solution::INT }
        } else {
            constant(PLAIN, Solution::INT)
        };
        solved.then_some(result)
    }

    /// Reads the words and shapes of all slots from the solution.
    fn judgement(&self) -> Judgement {
        let slot = |qualified: Qualified| Slot {
            word: self.solution.greatest(qualified.qualifier),
            shape: self.solution.shape(qualified.type_id),
        };
        let word = |variable: u8| {
            let code = self.table.schemes().first_variable() + variable;
            (variable, self.solution.greatest(usize::from(code)))
        };
        let params = self.table.params.iter();
        Judgement {
            variables: standing_variables(self.table).into_iter().map(word).collect(),
            params: params.map(|parameter| slot(self.declared(parameter.declared()))).collect(),
            terms: self.terms.iter().map(|&qualified| slot(qualified)).collect(),
        }
    }
}

/// A type under a qualifier that the rules fix.
fn constant(qualifier: Code, type_id: TypeId) -> Qualified {
    Qualified { qualifier: usize::from(qualifier), type_id }
}

/// The qualifiers with their type rows in the T lines and in the parameters as they are declared at present.
fn declared_rows(table: &Table) -> impl Iterator<Item = QualifiedRow> + '_ {
    let in_types = table.types.iter().flat_map(TypeRow::parts);
    in_types.chain(table.params.iter().map(Parameter::declared))
}

/// The named variables in any T line or in a parameter's present qualifier, rising.
fn standing_variables(table: &Table) -> Vec<u8> {
    let codes: Vec<Code> = declared_rows(table).map(|row| row.qualifier).collect();
    let first = table.schemes().first_variable();
    (0..NAMED_VARIABLES).filter(|variable| codes.contains(&(first + variable))).collect()
}
