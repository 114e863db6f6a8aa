//! The seven qualifiers of document 01, their order, and greatest lower bounds derived from the order.
//!
//! Nothing is solved with them: they say in the document's own words what the scheme table of the built-in six is.

use crate::word::capitals;

/// A qualifier; its code is its position in this list.
#[derive(Clone, Copy, Debug, PartialEq, Eq, Hash)]
pub enum Qualifier {
    /// Not encrypted.
    Plain,
    /// Fully homomorphic.
    Fhe,
    /// Order preserving.
    Op,
    /// Deterministic.
    Det,
    /// Multiplicatively homomorphic.
    Mh,
    /// Additively homomorphic.
    Ah,
    /// Randomised, supports no operation.
    Rand,
}

use Qualifier::{Ah, Det, Fhe, Mh, Op, Plain, Rand};

/// The number of named qualifier variables, `g0` to `g63`.
pub const NAMED_VARIABLES: u8 = 64;

/// The code of the variable `g0` under the built-in six; the seven qualifiers have the codes below it.
pub const FIRST_VARIABLE_CODE: u8 = 7;

/// The greatest code that a declared qualifier can have under the built-in six, that of `g63`.
pub const GREATEST_CODE: u8 = FIRST_VARIABLE_CODE + NAMED_VARIABLES - 1;

/// The pairs (lower, upper) that define the order; all others follow from them.
const DEFINING_PAIRS: [(Qualifier, Qualifier); 13] = [
    (Fhe, Op),
    (Fhe, Mh),
    (Fhe, Ah),
    (Op, Det),
    (Det, Rand),
    (Mh, Rand),
    (Ah, Rand),
    (Plain, Fhe),
    (Plain, Op),
    (Plain, Det),
    (Plain, Mh),
    (Plain, Ah),
    (Plain, Rand),
];

impl Qualifier {
    /// All qualifiers in the order of their codes.
    pub const ALL: [Qualifier; 7] = [Plain, Fhe, Op, Det, Mh, Ah, Rand];

    /// The code of this qualifier, 0 to 6.
    pub fn code(self) -> u8 {
        self as u8
    }

    /// The word that names this qualifier, as reports have it.
    pub fn word(self) -> &'static str {
        match self {
            Plain => "PLAIN",
            Fhe => "FHE",
            Op => "OP",
            Det => "DET",
            Mh => "MH",
            Ah => "AH",
            Rand => "RAND",
        }
    }

    /// The qualifier whose word a field spells, if any.
    pub fn of_word(field: &[u8]) -> Option<Qualifier> {
        let word = capitals(field);
        Self::ALL.into_iter().find(|qualifier| qualifier.word().as_bytes() == word)
    }
}

/// Tells whether `lower` is at or below `upper`: the reflexive and transitive closure.
pub fn at_or_below(lower: Qualifier, upper: Qualifier) -> bool {
    lower == upper
        || DEFINING_PAIRS.iter().any(|&(from, to)| from == lower && at_or_below(to, upper))
}

/// The greatest lower bound: the common lower bound that has all others at or below it.
pub fn meet(left: Qualifier, right: Qualifier) -> Qualifier {
    // Of two that are ordered it is the lower one, so most searches are spared.
    if at_or_below(left, right) {
        return left;
    }
    if at_or_below(right, left) {
        return right;
    }
    let common =
        |candidate: Qualifier| at_or_below(candidate, left) && at_or_below(candidate, right);
    let lower_bounds = || Qualifier::ALL.into_iter().filter(|&candidate| common(candidate));
    lower_bounds()
        .find(|&greatest| lower_bounds().all(|other| at_or_below(other, greatest)))
        // The order has all greatest lower bounds, and PLAIN is below everything.
        .unwrap_or(Plain)
}
