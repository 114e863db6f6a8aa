//! Tables of jobs: a term with types, qualifiers and floors for its parameters, such that infer accepts it.

use super::tree::Tree;
use crate::generate::goals::{any_scheme, any_word};
use crate::generate::order;
use crate::generate::random::Random;
use crate::rows::{Parameter, Term, TypeRow};
use crate::schemes::{Code, SchemeTable, PLAIN};
use crate::table::Table;
use crate::typing::{Judgement, Shape};

/// The most changes that are tried on a table.
const MOST_CHANGES: usize = 7;

/// The table of a typable term with so many parameters; `None` if it has no room.
pub fn table_of(
    random: &mut Random,
    schemes: &SchemeTable,
    tree: &Tree,
    parameters: u16,
) -> Option<Table> {
    let terms = tree.rows();
    if terms.len() > Table::TERM_LIMIT || usize::from(parameters) > Table::PARAMETER_LIMIT {
        return None;
    }
    let mut table = Table::fresh_of(schemes.clone());
    table.terms = order::numbered(random, &terms);
    let shared = random.one_in(6);
    for own in 0..parameters {
        let variable = if shared { random.below(8) as u16 } else { own };
        let qualifier = schemes.first_variable() + variable as Code;
        table.types.push(TypeRow::Any);
        table.params.push(Parameter { qualifier, type_row: own, floor: PLAIN });
    }
    change(random, &mut table);
    Some(table)
}

/// Makes changes one after the other, each of which is kept where the table is still accepted.
fn change(random: &mut Random, table: &mut Table) {
    for _ in 0..random.below(MOST_CHANGES + 1) {
        let Ok(judgement) = table.accepted() else {
            return;
        };
        let before = table.clone();
        change_once(random, table, &judgement);
        if table.accepted().is_err() {
            *table = before;
        }
    }
}

/// Fixes a qualifier, a type or a floor that a table left open.
fn change_once(random: &mut Random, table: &mut Table, judgement: &Judgement) {
    let schemes = table.schemes().clone();
    let own = random.below(table.params.len());
    match table.params.get_mut(own) {
        Some(parameter) if random.one_in(2) => match random.below(4) {
            0 => parameter.floor = lower_word(random, &schemes, judgement.params[own].word),
            1 if judgement.params[own].shape != Shape::Arrow => {
                table.types[usize::from(parameter.type_row)] = TypeRow::Int;
            }
            _ => parameter.qualifier = lower_word(random, &schemes, judgement.params[own].word),
        },
        _ => encrypt(random, table),
    }
}

/// A qualifier at or below a word, often the word itself.
fn lower_word(random: &mut Random, schemes: &SchemeTable, word: Code) -> Code {
    let lower = any_word(random, schemes);
    match schemes.at_or_below(lower, word) {
        true => lower,
        false => word,
    }
}

/// Makes an encrypted number of a number, if there is one.
fn encrypt(random: &mut Random, table: &mut Table) {
    let scheme = any_scheme(random, table.schemes());
    let is_number = |row: &usize| matches!(table.terms[*row], Term::Number { .. });
    let numbers: Vec<usize> = (0..table.terms.len()).filter(is_number).collect();
    if let Some(&row) = random.pick(&numbers) {
        if let Term::Number { value } = table.terms[row] {
            table.terms[row] = Term::Encrypted { scheme, value };
        }
    }
}
