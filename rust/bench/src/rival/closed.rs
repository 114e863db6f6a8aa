//! The closed test: one pass with the set of free parameters of each row.

use second::rows::Term;
use second::Table;

/// Tells whether the program is closed.
///
/// No row is used twice and no parameter bound twice, so counting children and LAMs is enough.
pub fn closed(table: &Table) -> bool {
    let mut free = [0u64; Table::TERM_LIMIT];
    let (mut children, mut lambdas) = (0, 0);
    for (row, term) in table.terms.iter().enumerate() {
        free[row] = match *term {
            Term::Lambda { parameter, body } => {
                children += 1;
                lambdas += 1;
                free[usize::from(body)] & !(1 << parameter)
            }
            Term::Apply { function: left, argument: right } | Term::Operate { left, right, .. } => {
                children += 2;
                free[usize::from(left)] | free[usize::from(right)]
            }
            Term::Variable { parameter } => 1 << parameter,
            Term::Number { .. } | Term::Encrypted { .. } => 0,
        };
    }
    let rows = table.terms.len();
    rows > 0 && children == rows - 1 && lambdas == table.params.len() && free[rows - 1] == 0
}
