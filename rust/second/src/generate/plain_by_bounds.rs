//! Variables that are PLAIN only by what operations support.

use crate::rows::Term;
use crate::schemes::PLAIN;
use crate::table::Table;
use crate::typing::{judge, judge_without_bounds};

/// Why a named variable is PLAIN in every typing though no constant makes it so.
#[derive(Clone, Copy, Debug, PartialEq, Eq, PartialOrd, Ord)]
pub enum PlainByBounds {
    /// Some operation of the table is supported by no scheme.
    Unsupported,
    /// Each operation of the table has a scheme for its highest, and only PLAIN is below several of them.
    Meet,
}

impl PlainByBounds {
    /// All reasons.
    pub const ALL: [PlainByBounds; 2] = [PlainByBounds::Unsupported, PlainByBounds::Meet];

    /// The reason in a table that has typings and such a variable.
    pub fn of(table: &Table) -> Option<PlainByBounds> {
        let (all, without_bounds) = (judge(table).ok()?, judge_without_bounds(table)?);
        let mut words = all.variables.iter().zip(&without_bounds.variables);
        let has_one = words.any(|(word, free_word)| word.1 == PLAIN && free_word.1 != PLAIN);
        has_one.then(|| PlainByBounds::reason(table))
    }

    /// The reason in a table that has such a variable.
    fn reason(table: &Table) -> PlainByBounds {
        let is_unsupported = |term: &Term| match *term {
            Term::Operate { operation, .. } => table.schemes().highest(operation) == PLAIN,
            _ => false,
        };
        match table.terms.iter().any(is_unsupported) {
            true => PlainByBounds::Unsupported,
            false => PlainByBounds::Meet,
        }
    }
}
