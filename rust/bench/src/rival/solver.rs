//! The rules of the rows, and the words and shapes of all slots.

use super::qualifiers::{Qualifiers, PLAIN};
use super::types::{Failure, Kind, Qualified, Types, INT};
use second::operation::Operation;
use second::qualifier::{FIRST_VARIABLE_CODE, NAMED_VARIABLES};
use second::rows::{QualifiedRow, Term, TypeRow};
use second::Table;

/// The word of a named variable that stands in no line.
pub const NO_WORD: u8 = 255;

/// Why a program has no typing, with the least row up to which the rows have none.
#[derive(Clone, Copy, Debug, PartialEq, Eq)]
pub enum Refusal {
    /// 21: the types cannot be made equal.
    Types(Failure, u32),
    /// 22: two constants would be equal.
    Apart(u32),
    /// 23: a constant is not at or below a bound.
    Broken(u32),
}

impl Refusal {
    /// 21, 22 or 23.
    pub fn number(self) -> u32 {
        match self {
            Refusal::Types(..) => 21,
            Refusal::Apart(_) => 22,
            Refusal::Broken(_) => 23,
        }
    }

    /// The row that the refusal names.
    pub fn row(self) -> u32 {
        match self {
            Refusal::Types(_, row) | Refusal::Apart(row) | Refusal::Broken(row) => row,
        }
    }
}

/// A word's code with a shape.
#[derive(Clone, Copy)]
pub struct Slot {
    /// The code of the word.
    pub word: u8,
    /// The shape.
    pub shape: Kind,
}

/// The words and shapes of a program, as many as its lists are long.
pub struct Slots {
    /// The words of the named variables, or [`NO_WORD`].
    pub variables: [u8; NAMED_VARIABLES as usize],
    /// The parameters.
    pub params: [Slot; Table::PARAMETER_LIMIT],
    /// The term rows.
    pub terms: [Slot; Table::TERM_LIMIT],
}

impl Default for Slots {
    fn default() -> Slots {
        let slot = Slot { word: 0, shape: Kind::Unknown };
        Slots {
            variables: [NO_WORD; NAMED_VARIABLES as usize],
            params: [slot; Table::PARAMETER_LIMIT],
            terms: [slot; Table::TERM_LIMIT],
        }
    }
}

/// How a row failed, before its number is added.
enum Stop {
    Types(Failure),
    Apart,
    Broken,
}

impl Stop {
    fn at(self, row: usize) -> Refusal {
        let row = row as u32;
        match self {
            Stop::Types(failure) => Refusal::Types(failure, row),
            Stop::Apart => Refusal::Apart(row),
            Stop::Broken => Refusal::Broken(row),
        }
    }
}

impl From<Failure> for Stop {
    fn from(failure: Failure) -> Stop {
        Stop::Types(failure)
    }
}

/// The solver's state; one serves for any number of tables.
pub struct Solver {
    qualifiers: Qualifiers,
    types: Types,
    rows: [Qualified; Table::TERM_LIMIT],
}

impl Default for Solver {
    fn default() -> Solver {
        let rows = [Qualified::default(); Table::TERM_LIMIT];
        Solver { qualifiers: Qualifiers::new(), types: Types::new(), rows }
    }
}

impl Solver {
    /// Fills the slots, or names the least row without a typing.
    pub fn solve(&mut self, table: &Table, slots: &mut Slots) -> Result<(), Refusal> {
        self.start(table).map_err(|stop| stop.at(0))?;
        for (row, &term) in table.terms.iter().enumerate() {
            self.rows[row] = self.rule(table, term).map_err(|stop| stop.at(row))?;
        }
        self.read(table, slots);
        Ok(())
    }

    /// Takes the T and P lines; the node of type row t is t + 1.
    fn start(&mut self, table: &Table) -> Result<(), Stop> {
        self.qualifiers.start();
        self.types.start();
        for row in &table.types {
            match *row {
                TypeRow::Int => self.types.fresh_int(),
                TypeRow::Any => self.types.fresh_any(),
                TypeRow::Arrow { argument, result } => {
                    let (argument, result) = (declared(argument), declared(result));
                    self.take(argument)?;
                    self.take(result)?;
                    self.types.fresh_arrow(argument, result);
                }
            }
        }
        table.params.iter().try_for_each(|param| self.take(declared(param.declared())))
    }

    /// Takes what a line declares: a qualifier that stands with an arrow is PLAIN.
    fn take(&mut self, Qualified { qualifier, node }: Qualified) -> Result<(), Stop> {
        // Before the first row each node is a root.
        match self.types.kind(node.into()) {
            Kind::Int => {}
            Kind::Unknown => self.types.stand(node, qualifier),
            Kind::Arrow => possible(self.qualifiers.make_plain(qualifier))?,
        }
        Ok(())
    }

    /// Takes the equations of a row; gives its qualified type.
    fn rule(&mut self, table: &Table, term: Term) -> Result<Qualified, Stop> {
        let parameter = |own: u16| declared(table.params[usize::from(own)].declared());
        Ok(match term {
            Term::Lambda { parameter: own, body } => {
                let node = self.types.fresh_arrow(parameter(own), self.rows[usize::from(body)]);
                Qualified { qualifier: PLAIN, node }
            }
            Term::Apply { function, argument } => {
                let function = self.rows[usize::from(function)];
                return self.apply(function, self.rows[usize::from(argument)]);
            }
            Term::Operate { operation, left, right } => {
                let left = self.rows[usize::from(left)];
                return self.operate(operation, left, self.rows[usize::from(right)]);
            }
            Term::Variable { parameter: own } => parameter(own),
            Term::Number { .. } => Qualified { qualifier: self.qualifiers.fresh(), node: INT },
            Term::Encrypted { scheme, .. } => Qualified { qualifier: scheme.into(), node: INT },
        })
    }

    /// The rule of APP: a function that is an arrow already gives its own result.
    fn apply(&mut self, function: Qualified, argument: Qualified) -> Result<Qualified, Stop> {
        let root = self.types.find(function.node);
        self.types.next_row();
        let result = match self.types.kind(root) {
            Kind::Int => return Err(Stop::Types(Failure::Clash)),
            Kind::Unknown => {
                let qualifier = self.qualifiers.fresh();
                self.types.make_arrow(root, argument, qualifier)?
            }
            Kind::Arrow => {
                let (expected, result) = self.types.parts(root);
                self.types.equate(expected, argument)?;
                result
            }
        };
        self.take_noted()?;
        Ok(result)
    }

    /// The rule of OP: types first, then equal qualifiers, then the bound.
    fn operate(
        &mut self,
        operation: Operation,
        left: Qualified,
        right: Qualified,
    ) -> Result<Qualified, Stop> {
        self.types.make_int(left.node)?;
        self.types.make_int(right.node)?;
        possible(self.qualifiers.unite(left.qualifier, right.qualifier))?;
        self.qualifiers.restrict(left.qualifier, operation.highest_scheme().code());
        self.within_bounds()?;
        Ok(match operation.keeps_qualifier() {
            true => Qualified { qualifier: left.qualifier, node: INT },
            false => Qualified { qualifier: PLAIN, node: INT },
        })
    }

    /// Takes the noted qualifiers, all of them before the bounds are judged.
    fn take_noted(&mut self) -> Result<(), Stop> {
        for &(left, right) in &self.types.pairs {
            possible(self.qualifiers.unite(left, right))?;
        }
        for &qualifier in &self.types.plain {
            possible(self.qualifiers.make_plain(qualifier))?;
        }
        self.within_bounds()
    }

    fn within_bounds(&self) -> Result<(), Stop> {
        if self.qualifiers.broken {
            return Err(Stop::Broken);
        }
        Ok(())
    }

    /// Reads the words and shapes of all slots.
    fn read(&mut self, table: &Table, slots: &mut Slots) {
        slots.variables.fill(NO_WORD);
        for row in &table.types {
            if let TypeRow::Arrow { argument, result } = *row {
                self.read_variable(argument, slots);
                self.read_variable(result, slots);
            }
        }
        for (param, slot) in table.params.iter().zip(&mut slots.params) {
            *slot = self.slot(declared(param.declared()));
        }
        for param in &table.params {
            self.read_variable(param.declared(), slots);
        }
        for (row, slot) in slots.terms[..table.terms.len()].iter_mut().enumerate() {
            *slot = self.slot(self.rows[row]);
        }
    }

    /// Reads the word of a declared qualifier that is a named variable.
    fn read_variable(&mut self, row: QualifiedRow, slots: &mut Slots) {
        if row.qualifier >= FIRST_VARIABLE_CODE {
            let variable = usize::from(row.qualifier - FIRST_VARIABLE_CODE);
            slots.variables[variable] = self.qualifiers.word(row.qualifier.into());
        }
    }

    fn slot(&mut self, qualified: Qualified) -> Slot {
        let root = self.types.find(qualified.node);
        if self.types.kind(root) == Kind::Unknown {
            self.types.settle(root, |qualifier| self.qualifiers.is_scheme(qualifier));
        }
        Slot { word: self.qualifiers.word(qualified.qualifier), shape: self.types.kind(root) }
    }
}

/// Refuses what would make two constants one.
fn possible(made: bool) -> Result<(), Stop> {
    made.then_some(()).ok_or(Stop::Apart)
}

/// The qualified type that a line declares.
fn declared(row: QualifiedRow) -> Qualified {
    Qualified { qualifier: row.qualifier.into(), node: row.type_row + 1 }
}
