//! Closed programs that are refused only because a function would be a ciphertext.

use crate::full::add_lambda;
use second::generate::Random;
use second::rows::{QualifiedRow, TypeRow};
use second::schemes::Code;
use second::Table;

/// The schemes have the codes from 1 to this one.
const SCHEMES: usize = 6;

/// A program with a scheme for one of its unknown types, for each of them, from a random one on.
pub fn under_schemes<'a>(
    random: &'a mut Random,
    program: &'a Table,
) -> impl Iterator<Item = Table> + 'a {
    let count = program.types.len();
    let first = random.below(count);
    let rows = (0..count).map(move |row| (first + row) % count);
    let unknowns = rows.filter(|&row| program.types[row] == TypeRow::Any);
    unknowns.filter_map(|row| under_scheme(random, program.clone(), row as u16))
}

/// A program with a scheme for a type, declared by a new LAM's parameter, or by a new type row where the rows are full.
///
/// No equation reaches that scheme. So an accepted program is refused now where the type is an arrow, and for no other reason.
fn under_scheme(random: &mut Random, mut program: Table, type_row: u16) -> Option<Table> {
    let declared = QualifiedRow { qualifier: random.between(1, SCHEMES) as Code, type_row };
    if program.terms.len() < Table::TERM_LIMIT {
        add_lambda(&mut program, declared);
    } else {
        program.types.push(TypeRow::Arrow { argument: declared, result: declared });
    }
    let fits =
        program.types.len() <= Table::TYPE_LIMIT && program.params.len() <= Table::PARAMETER_LIMIT;
    fits.then_some(program)
}
