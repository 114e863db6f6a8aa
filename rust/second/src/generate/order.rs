//! Orders the rows of a generated program and the lines of its three lists.

use super::random::Random;
use super::text::{parameter_line, term_line, type_line};
use crate::rows::{Parameter, Term};
use crate::table::Table;

/// The same terms, as they stand or in a random order with every child below its parent.
pub fn numbered(random: &mut Random, terms: &[Term]) -> Vec<Term> {
    if random.one_in(2) {
        return terms.to_vec();
    }
    let mut missing: Vec<usize> = terms.iter().map(|term| term.children().count()).collect();
    let mut ready: Vec<usize> = (0..terms.len()).filter(|&row| missing[row] == 0).collect();
    let parents = parents(terms);
    let mut numbers = vec![0; terms.len()];
    let mut ordered = vec![];
    while !ready.is_empty() {
        let row = ready.swap_remove(random.below(ready.len()));
        numbers[row] = ordered.len() as u16;
        ordered.push(renumbered(terms[row], &numbers));
        if let Some(parent) = parents[row] {
            missing[parent] -= 1;
            if missing[parent] == 0 {
                ready.push(parent);
            }
        }
    }
    ordered
}

/// For each row, the row that has it as a child.
pub fn parents(terms: &[Term]) -> Vec<Option<usize>> {
    let mut parents = vec![None; terms.len()];
    for (row, term) in terms.iter().enumerate() {
        for child in term.children() {
            parents[usize::from(child)] = Some(row);
        }
    }
    parents
}

/// The term with its children's new numbers.
fn renumbered(term: Term, numbers: &[u16]) -> Term {
    let number = |row: u16| numbers[usize::from(row)];
    match term {
        Term::Lambda { parameter, body } => Term::Lambda { parameter, body: number(body) },
        Term::Apply { function, argument } => {
            Term::Apply { function: number(function), argument: number(argument) }
        }
        Term::Operate { operation, left, right } => {
            Term::Operate { operation, left: number(left), right: number(right) }
        }
        leaf => leaf,
    }
}

/// The lines of a table's three lists: declarations first, or mixed so that uses follow declarations.
pub fn lines(random: &mut Random, table: &Table) -> Vec<String> {
    let (schemes, types) = (table.schemes(), &table.types);
    let declarations_first = random.one_in(2);
    let (mut next_type, mut next_param, mut next_term) = (0, 0, 0);
    let mut lines = vec![];
    loop {
        let type_declared = |p: &Parameter| usize::from(p.type_row) < next_type;
        let param_declared = |p: u16| usize::from(p) < next_param;
        let mut possible = vec![];
        possible.extend(types.get(next_type).map(|row| type_line(schemes, next_type, row)));
        let parameter = table.params.get(next_param).filter(|&p| type_declared(p));
        possible.extend(parameter.map(|p| parameter_line(schemes, next_param, p)));
        let is_possible = |term: &&Term| term.parameter().is_none_or(param_declared);
        let term = table.terms.get(next_term).filter(is_possible);
        possible.extend(term.map(|term| term_line(schemes, next_term, term)));
        let choice = if declarations_first { possible.first() } else { random.pick(&possible) };
        let Some(line) = choice else {
            return lines;
        };
        match line.as_bytes()[0] {
            b'T' => next_type += 1,
            b'P' => next_param += 1,
            _ => next_term += 1,
        }
        lines.push(line.clone());
    }
}
