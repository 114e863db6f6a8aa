//! Fills a table from a text, with the checks of add.

use super::reader::Reader;
use second::rows::{Entry, Parameter, Term, TypeRow};
use second::Table;

/// The rows that one number of a set stands for.
const BITS: usize = u64::BITS as usize;

/// The table of the text that was loaded last.
pub struct Loader {
    /// Its lists have room for any text.
    table: Table,
    /// The rows that are children, as a set.
    used: [u64; Table::TERM_LIMIT / BITS],
    /// The parameters that a LAM binds, as a set.
    bound: u64,
}

impl Default for Loader {
    fn default() -> Loader {
        let mut table = Table::fresh();
        table.types.reserve_exact(Table::TYPE_LIMIT);
        table.params.reserve_exact(Table::PARAMETER_LIMIT);
        table.terms.reserve_exact(Table::TERM_LIMIT);
        Loader { table, used: [0; Table::TERM_LIMIT / BITS], bound: 0 }
    }
}

impl Loader {
    /// The table that a text fills, or the number and the line from 1 of the first refusal.
    pub fn load(&mut self, text: &[u8]) -> Result<&Table, (u32, u32)> {
        self.clear();
        let (mut reader, mut line) = (Reader::new(text), 0);
        while reader.has_line() {
            line += 1;
            let entry = reader.line().ok_or((1, line))?;
            self.add(entry).map_err(|number| (number, line))?;
        }
        Ok(&self.table)
    }

    /// Empties the lists and the sets.
    fn clear(&mut self) {
        self.table.types.clear();
        self.table.params.clear();
        self.table.terms.clear();
        self.used = [0; Table::TERM_LIMIT / BITS];
        self.bound = 0;
    }

    /// Appends an entry, or gives the first of the refusals 2 to 8 that applies.
    ///
    /// A refused entry may leave the sets changed, as it ends the text.
    fn add(&mut self, entry: Entry) -> Result<(), u32> {
        match entry {
            Entry::T(own, row) => self.add_type(own, row),
            Entry::P(own, parameter) => self.add_parameter(own, parameter),
            Entry::E(own, term) => self.add_term(own, term),
        }
    }

    fn add_type(&mut self, own: u16, row: TypeRow) -> Result<(), u32> {
        is_next(own, self.table.types.len(), Table::TYPE_LIMIT)?;
        if let TypeRow::Arrow { argument, result } = row {
            is_below(argument.type_row, self.table.types.len(), 4)?;
            is_below(result.type_row, self.table.types.len(), 4)?;
        }
        self.table.types.push(row);
        Ok(())
    }

    fn add_parameter(&mut self, own: u16, parameter: Parameter) -> Result<(), u32> {
        is_next(own, self.table.params.len(), Table::PARAMETER_LIMIT)?;
        is_below(parameter.type_row, self.table.types.len(), 4)?;
        self.table.params.push(parameter);
        Ok(())
    }

    fn add_term(&mut self, own: u16, term: Term) -> Result<(), u32> {
        let (params, rows) = (self.table.params.len(), self.table.terms.len());
        is_next(own, rows, Table::TERM_LIMIT)?;
        match term {
            Term::Lambda { parameter, body } => {
                is_below(parameter, params, 5)?;
                is_below(body, rows, 6)?;
                self.take_child(body)?;
                self.bind(parameter)?;
            }
            Term::Apply { function: left, argument: right } | Term::Operate { left, right, .. } => {
                is_below(left, rows, 6)?;
                is_below(right, rows, 6)?;
                self.take_child(left)?;
                // A row that is both children was taken just now.
                self.take_child(right)?;
            }
            Term::Variable { parameter } => is_below(parameter, params, 5)?,
            Term::Number { .. } | Term::Encrypted { .. } => {}
        }
        self.table.terms.push(term);
        Ok(())
    }

    /// Notes that a row is a child; refused with 7 if it is one already.
    fn take_child(&mut self, row: u16) -> Result<(), u32> {
        let row = usize::from(row);
        put(&mut self.used[row / BITS], row % BITS, 7)
    }

    /// Notes that a LAM binds a parameter; refused with 8 if one does already.
    fn bind(&mut self, parameter: u16) -> Result<(), u32> {
        put(&mut self.bound, usize::from(parameter), 8)
    }
}

/// Refuses an own number that is not the next of its list with 2, and an entry of a full list with 3.
fn is_next(own: u16, next: usize, limit: usize) -> Result<(), u32> {
    is(usize::from(own) == next, 2)?;
    is(next < limit, 3)
}

/// Refuses the number of an entry that is not among the first so many.
fn is_below(number: u16, count: usize, refusal: u32) -> Result<(), u32> {
    is(usize::from(number) < count, refusal)
}

/// Puts an element into a set, and refuses one that is there already.
fn put(set: &mut u64, element: usize, refusal: u32) -> Result<(), u32> {
    let bit = 1 << element;
    is(*set & bit == 0, refusal)?;
    *set |= bit;
    Ok(())
}

/// Refuses where a condition does not hold.
fn is(holds: bool, refusal: u32) -> Result<(), u32> {
    if holds {
        Ok(())
    } else {
        Err(refusal)
    }
}
