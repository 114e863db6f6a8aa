//! Random closed programs with as many types, parameters and rows as a table can hold.

use second::generate::{closed_program, Random};
use second::qualifier::GREATEST_CODE;
use second::rows::{Parameter, QualifiedRow, Term, TypeRow};
use second::schemes::{Code, PLAIN};
use second::Table;

/// The most rows of a closed program with 64 parameters: the number of rows that are no LAM is always odd.
pub const FULL_ROWS: usize = 255;

/// The rows of a program before it is filled up: with fewer the parameters run out, with more the rows do.
const FEWEST_INNER_ROWS: usize = 180;
const MOST_INNER_ROWS: usize = 220;

/// A random closed program with further types, and with further parameters whose LAMs stand around it.
///
/// Not all of them come out even at [`FULL_ROWS`].
pub fn full_program(random: &mut Random) -> Table {
    let rows = random.between(FEWEST_INNER_ROWS, MOST_INNER_ROWS);
    let mut table = closed_program(random, rows).table();
    fill_types(random, &mut table);
    fill_rows(random, &mut table);
    table
}

/// Adds arrows until the list of types is full; without a type there is none to build them from.
fn fill_types(random: &mut Random, table: &mut Table) {
    if table.types.is_empty() {
        table.types.push(TypeRow::Int);
    }
    while table.types.len() < Table::TYPE_LIMIT {
        let (argument, result) =
            (any_qualified_row(random, table), any_qualified_row(random, table));
        table.types.push(TypeRow::Arrow { argument, result });
    }
}

/// Adds parameters with their LAMs until the list of parameters is full; the first LAMs are applied, as long as there are rows for it.
fn fill_rows(random: &mut Random, table: &mut Table) {
    while table.params.len() < Table::PARAMETER_LIMIT {
        // The first type row is no arrow, so that the parameter can take a number.
        let declared = any_qualifier_with(random, table, 0);
        add_lambda(table, declared);
        let to_come = Table::PARAMETER_LIMIT - table.params.len();
        if table.terms.len() + to_come < FULL_ROWS {
            apply_to_number(table);
        }
    }
}

/// Puts a LAM of a new parameter around a program.
pub fn add_lambda(table: &mut Table, QualifiedRow { qualifier, type_row }: QualifiedRow) {
    let (parameter, body) = (table.params.len() as u16, last_row(table));
    table.params.push(Parameter { qualifier, type_row, floor: PLAIN });
    table.terms.push(Term::Lambda { parameter, body });
}

/// Applies a program to a number.
fn apply_to_number(table: &mut Table) {
    let function = last_row(table);
    table.terms.push(Term::Number { value: 4_294_967_295 });
    let argument = last_row(table);
    table.terms.push(Term::Apply { function, argument });
}

/// The number of a program's last row.
fn last_row(table: &Table) -> u16 {
    table.terms.len() as u16 - 1
}

/// Any of a table's type rows with a qualifier.
fn any_qualified_row(random: &mut Random, table: &Table) -> QualifiedRow {
    let type_row = random.below(table.types.len());
    any_qualifier_with(random, table, type_row)
}

/// A type row with any qualifier, but with PLAIN where it can be a function.
fn any_qualifier_with(random: &mut Random, table: &Table, type_row: usize) -> QualifiedRow {
    let qualifier = match table.types[type_row] {
        TypeRow::Int => random.between(0, GREATEST_CODE.into()) as Code,
        TypeRow::Any | TypeRow::Arrow { .. } => PLAIN,
    };
    QualifiedRow { qualifier, type_row: type_row as u16 }
}
