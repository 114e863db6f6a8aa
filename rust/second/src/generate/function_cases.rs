//! What the rule that functions are PLAIN means for a table.

use crate::counts::Counts;
use crate::rows::{Parameter, Term, TypeRow};
use crate::schemes::PLAIN;
use crate::table::Table;
use crate::typing::{
    judge, judge_with_encrypted_functions, lines_have_typing, Judgement, Shape, Slot,
};

/// What is seen of a table with document 02, f), in mind: "Functions cannot be ciphertext".
#[derive(Clone, Copy, Debug, PartialEq, Eq, PartialOrd, Ord)]
pub enum FunctionCase {
    /// The T and P lines alone have no typing.
    LinesRefused,
    /// The lines alone have a typing, and the rows have none; where functions may be encrypted, they have one.
    RowsRefused,
    /// The lines alone have a typing, and a row is refused; where functions may be encrypted, it is a later one.
    RefusedSooner,
    /// A slot is PLAIN that has a scheme where functions may be encrypted.
    PlainByFunction,
    /// A slot is INT that is ANY where functions may be encrypted.
    IntegerByScheme,
    /// Parameters with different qualifiers have one ANY row, and the rows make it an arrow.
    SharedUnknown,
    /// A type row that no line names has an ARROW row under another qualifier than PLAIN.
    UnusedArrow,
    /// What an unknown function gives is applied by another row.
    ResultApplied,
}

/// The ways to be refused.
const REFUSALS: [FunctionCase; 3] =
    [FunctionCase::LinesRefused, FunctionCase::RowsRefused, FunctionCase::RefusedSooner];

/// The ways to have another report.
const CHANGES: [FunctionCase; 2] = [FunctionCase::PlainByFunction, FunctionCase::IntegerByScheme];

/// What stands in tables with a typing and in others.
const STANDING: [FunctionCase; 3] =
    [FunctionCase::SharedUnknown, FunctionCase::UnusedArrow, FunctionCase::ResultApplied];

impl FunctionCase {
    /// All that is seen of a table.
    pub fn of(table: &Table) -> Vec<FunctionCase> {
        let encrypted = judge_with_encrypted_functions(table);
        let mut cases = match (judge(table), &encrypted) {
            _ if !lines_have_typing(table) => vec![FunctionCase::LinesRefused],
            (Ok(judgement), Ok(encrypted)) => changes(&judgement, encrypted),
            (Err(_), Ok(_)) => vec![FunctionCase::RowsRefused],
            (Err(refusal), Err(row)) if refusal.row < *row => vec![FunctionCase::RefusedSooner],
            _ => vec![],
        };
        let has_shared_unknown = encrypted.is_ok_and(|it| has_shared_unknown(table, &it));
        cases.extend(has_shared_unknown.then_some(FunctionCase::SharedUnknown));
        cases.extend(has_unused_arrow(table).then_some(FunctionCase::UnusedArrow));
        cases.extend(has_result_applied(table).then_some(FunctionCase::ResultApplied));
        cases
    }
}

/// How a report differs from the one where functions may be encrypted.
fn changes(judgement: &Judgement, encrypted: &Judgement) -> Vec<FunctionCase> {
    let slots =
        |it: &Judgement| -> Vec<Slot> { it.params.iter().chain(&it.terms).copied().collect() };
    let pairs = || slots(judgement).into_iter().zip(slots(encrypted));
    let mut changes = vec![];
    if pairs().any(|(slot, other)| slot.word == PLAIN && other.word != PLAIN) {
        changes.push(FunctionCase::PlainByFunction);
    }
    if pairs().any(|(slot, other)| slot.shape == Shape::Int && other.shape == Shape::Any) {
        changes.push(FunctionCase::IntegerByScheme);
    }
    changes
}

/// Tells whether parameters with different qualifiers have one ANY row that is an arrow in this judgement.
fn has_shared_unknown(table: &Table, judgement: &Judgement) -> bool {
    let is_any = |row: u16| table.types[usize::from(row)] == TypeRow::Any;
    let differs = |one: &Parameter, other: &Parameter| {
        one.type_row == other.type_row && one.qualifier != other.qualifier
    };
    table.params.iter().zip(&judgement.params).any(|(one, slot)| {
        slot.shape == Shape::Arrow
            && is_any(one.type_row)
            && table.params.iter().any(|other| differs(one, other))
    })
}

/// Tells whether a type row that no line names has an ARROW row under another qualifier than PLAIN.
fn has_unused_arrow(table: &Table) -> bool {
    let is_arrow = |row: u16| !table.types[usize::from(row)].parts().is_empty();
    let in_types = || table.types.iter().flat_map(TypeRow::parts);
    let is_named = |own: usize| {
        let mut declared = in_types().chain(table.params.iter().map(Parameter::declared));
        declared.any(|it| usize::from(it.type_row) == own)
    };
    let has_arrow = |row: &TypeRow| {
        row.parts().iter().any(|part| is_arrow(part.type_row) && part.qualifier != PLAIN)
    };
    table.types.iter().enumerate().any(|(own, row)| has_arrow(row) && !is_named(own))
}

/// Tells whether a row applies what an application of an unknown function gives.
fn has_result_applied(table: &Table) -> bool {
    table.terms.iter().filter_map(function_of).any(|applied| {
        let inner = table.terms.get(usize::from(applied)).and_then(function_of);
        inner.is_some_and(|function| is_unknown(table, function))
    })
}

/// The row that an APP applies.
fn function_of(term: &Term) -> Option<u16> {
    match *term {
        Term::Apply { function, .. } => Some(function),
        _ => None,
    }
}

/// Tells whether a row is a VAR of an ANY row, or an application of such a row or of what it gives.
fn is_unknown(table: &Table, row: u16) -> bool {
    match table.terms[usize::from(row)] {
        Term::Variable { parameter } => {
            let type_row = table.params[usize::from(parameter)].type_row;
            table.types[usize::from(type_row)] == TypeRow::Any
        }
        Term::Apply { function, .. } => is_unknown(table, function),
        _ => false,
    }
}

/// How often each case was seen in tables with a typing and in others.
#[derive(Debug, Default)]
pub struct FunctionCounts(pub Counts<(FunctionCase, bool)>);

impl FunctionCounts {
    /// Counts what is seen of a table.
    pub fn take(&mut self, table: &Table) {
        let has_typing = judge(table).is_ok();
        FunctionCase::of(table).into_iter().for_each(|case| self.0.add((case, has_typing)));
    }

    /// Asserts that each case was seen so often, and what stands in tables with a typing and without one so often each.
    pub fn assert_each(&self, fewest: usize) {
        let refusals = REFUSALS.into_iter().chain(STANDING).map(|case| (case, false));
        let changes = CHANGES.into_iter().chain(STANDING).map(|case| (case, true));
        self.0.assert_each(refusals.chain(changes), fewest);
    }
}
