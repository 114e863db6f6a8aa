//! The table of three lists under a scheme table, the three calls that change it, and the closed test.

use crate::line;
use crate::rows::{Entry, Parameter, Term, TypeRow};
use crate::schemes::SchemeTable;

/// The three lists beside the scheme table. Entries come in only by [`Table::add`], so every reference is valid.
#[derive(Clone, Debug, PartialEq, Eq)]
pub struct Table {
    /// The scheme table, which no call changes.
    schemes: SchemeTable,
    /// The type rows.
    pub types: Vec<TypeRow>,
    /// The parameters with their present qualifiers and their floors.
    pub params: Vec<Parameter>,
    /// The term rows.
    pub terms: Vec<Term>,
}

impl Table {
    /// The most type rows that a table holds.
    pub const TYPE_LIMIT: usize = 64;
    /// The most parameters that a table holds.
    pub const PARAMETER_LIMIT: usize = 64;
    /// The most term rows that a table holds.
    pub const TERM_LIMIT: usize = 256;

    /// The table of the built-in six whose lists are empty.
    pub fn fresh() -> Table {
        Table::fresh_of(SchemeTable::six().clone())
    }

    /// The table of a scheme file whose lists are empty, and 0; or the refusal's number with a fresh table of the six.
    pub fn fresh_under(file: &[u8]) -> (Table, u32) {
        match SchemeTable::open(file) {
            Ok(schemes) => (Table::fresh_of(schemes), 0),
            Err(number) => (Table::fresh(), number),
        }
    }

    /// The table of a scheme table whose lists are empty.
    pub fn fresh_of(schemes: SchemeTable) -> Table {
        Table { schemes, types: vec![], params: vec![], terms: vec![] }
    }

    /// The scheme table that this table holds.
    pub fn schemes(&self) -> &SchemeTable {
        &self.schemes
    }

    /// Appends the entry that a line declares; returns 0 or the refusal's number.
    pub fn add(&mut self, line: &[u8]) -> u32 {
        let Some(entry) = line::read_under(&self.schemes, line) else {
            return 1;
        };
        let refusal = self.refusal(&entry);
        if refusal == 0 {
            match entry {
                Entry::T(_, row) => self.types.push(row),
                Entry::P(_, parameter) => self.params.push(parameter),
                Entry::E(_, term) => self.terms.push(term),
            }
        }
        refusal
    }

    /// Replaces a parameter's qualifier and leaves its floor; returns 0 or the refusal's number.
    pub fn redeclare(&mut self, parameter: u64, code: u64) -> u32 {
        let position = usize::try_from(parameter).ok();
        let Some(declared) = position.and_then(|position| self.params.get_mut(position)) else {
            return 5;
        };
        match u8::try_from(code) {
            Ok(code) if code <= self.schemes.last_variable() => {
                declared.qualifier = code;
                0
            }
            _ => 12,
        }
    }

    /// Drops the last term row; returns 0 or the refusal's number.
    pub fn take_back(&mut self) -> u32 {
        match self.terms.pop() {
            Some(_) => 0,
            None => 9,
        }
    }

    /// Tells whether the program is closed.
    pub fn closed(&self) -> bool {
        let Some(last) = self.terms.len().checked_sub(1) else {
            return false;
        };
        let parents = self.parents();
        let bound = |parameter| self.is_bound(parameter as u16);
        let inside = |row: usize| match self.terms[row] {
            Term::Variable { parameter } => self.stands_inside(row, parameter, &parents),
            _ => true,
        };
        parents[..last].iter().all(Option::is_some)
            && (0..self.params.len()).all(bound)
            && (0..self.terms.len()).all(inside)
    }

    /// The first of the refusals 2 to 8 that applies to the entry, or 0.
    fn refusal(&self, entry: &Entry) -> u32 {
        let (next, limit) = self.next_and_limit(entry);
        if usize::from(entry.own_number()) != next {
            return 2;
        }
        if next >= limit {
            return 3;
        }
        let declared_type = |&row: &u16| usize::from(row) < self.types.len();
        if !entry.type_rows().iter().all(declared_type) {
            return 4;
        }
        match entry {
            Entry::E(_, term) => self.term_refusal(term),
            _ => 0,
        }
    }

    /// The first of the refusals 5 to 8 that applies to a term that would be the next row, or 0.
    fn term_refusal(&self, term: &Term) -> u32 {
        let undeclared = |parameter: u16| usize::from(parameter) >= self.params.len();
        let not_below = |child: u16| usize::from(child) >= self.terms.len();
        if term.parameter().is_some_and(undeclared) {
            5
        } else if term.children().any(not_below) {
            6
        } else if term.has_equal_children() || term.children().any(|child| self.is_used(child)) {
            7
        } else if term.bound_parameter().is_some_and(|parameter| self.is_bound(parameter)) {
            8
        } else {
            0
        }
    }

    /// The next own number of the entry's list, and that list's limit.
    fn next_and_limit(&self, entry: &Entry) -> (usize, usize) {
        match entry {
            Entry::T(..) => (self.types.len(), Self::TYPE_LIMIT),
            Entry::P(..) => (self.params.len(), Self::PARAMETER_LIMIT),
            Entry::E(..) => (self.terms.len(), Self::TERM_LIMIT),
        }
    }

    /// Tells whether a standing row names this row as a child.
    fn is_used(&self, row: u16) -> bool {
        self.terms.iter().any(|term| term.children().any(|child| child == row))
    }

    /// Tells whether a standing LAM binds this parameter.
    fn is_bound(&self, parameter: u16) -> bool {
        self.terms.iter().any(|term| term.bound_parameter() == Some(parameter))
    }

    /// For each row, the row that names it as a child.
    fn parents(&self) -> Vec<Option<usize>> {
        let mut parents = vec![None; self.terms.len()];
        for (row, term) in self.terms.iter().enumerate() {
            for child in term.children() {
                parents[usize::from(child)] = Some(row);
            }
        }
        parents
    }

    /// Tells whether a row stands in the body of the LAM that binds the parameter.
    fn stands_inside(&self, row: usize, parameter: u16, parents: &[Option<usize>]) -> bool {
        let mut above = parents[row];
        while let Some(ancestor) = above {
            if self.terms[ancestor].bound_parameter() == Some(parameter) {
                return true;
            }
            above = parents[ancestor];
        }
        false
    }
}
