//! What accepted scheme tables may have that the built-in six have not, or that is easily taken for granted.

use crate::operation::Operation;
use crate::schemes::{SchemeTable, PLAIN};

/// The words of lines that are no qualifier words, the tags, and the letter of a variable.
const OTHER_WORDS: [&str; 18] = [
    "INT", "ANY", "ARROW", "LAM", "APP", "OP", "VAR", "NUM", "ENC", "ADD", "MUL", "EQ", "LT", "GT",
    "T", "P", "E", "G",
];

/// Something that is seen of a scheme table.
#[derive(Clone, Copy, Debug, PartialEq, Eq, PartialOrd, Ord)]
pub enum SchemeProperty {
    /// There is one scheme.
    OneScheme,
    /// There are eight schemes.
    EightSchemes,
    /// No scheme supports all five operations.
    NoFullScheme,
    /// The greatest scheme supports some operation.
    GreatestSupports,
    /// The greatest scheme is not the last line's.
    GreatestNotLast,
    /// Two schemes have the greatest lower bound PLAIN.
    PlainMeet,
    /// No scheme supports some operation, so that PLAIN is its highest.
    UnsupportedOperation,
    /// Two schemes, neither of which is at or below the other, have a scheme for their greatest lower bound.
    SchemeMeet,
    /// No scheme is named RAND.
    WithoutRand,
    /// No scheme is named FHE.
    WithoutFhe,
    /// A scheme is named as another word of lines.
    OtherWord,
}

use SchemeProperty::{
    EightSchemes, GreatestNotLast, GreatestSupports, NoFullScheme, OneScheme, OtherWord, PlainMeet,
    SchemeMeet, UnsupportedOperation, WithoutFhe, WithoutRand,
};

impl SchemeProperty {
    /// All of them.
    pub const ALL: [SchemeProperty; 11] = [
        OneScheme, EightSchemes, NoFullScheme, GreatestSupports, GreatestNotLast, PlainMeet,
        UnsupportedOperation, SchemeMeet, WithoutRand, WithoutFhe, OtherWord,
    ];

    /// Those that a scheme table has.
    pub fn of(schemes: &SchemeTable) -> impl Iterator<Item = SchemeProperty> + '_ {
        Self::ALL.into_iter().filter(|property| property.holds(schemes))
    }

    /// Tells whether a scheme table has this.
    pub fn holds(self, schemes: &SchemeTable) -> bool {
        let supports = |scheme| Operation::ALL.map(|operation| schemes.supports(scheme, operation));
        let has_name = |name: &str| schemes.of_word(name.as_bytes()).is_some();
        match self {
            OneScheme => schemes.schemes().count() == 1,
            EightSchemes => schemes.schemes().count() == 8,
            NoFullScheme => !schemes.schemes().any(|scheme| supports(scheme) == [true; 5]),
            GreatestSupports => supports(schemes.greatest()) != [false; 5],
            GreatestNotLast => Some(schemes.greatest()) != schemes.schemes().last(),
            PlainMeet => apart(schemes).any(|(one, other)| schemes.meet(one, other) == PLAIN),
            UnsupportedOperation => {
                Operation::ALL.into_iter().any(|operation| schemes.highest(operation) == PLAIN)
            }
            SchemeMeet => apart(schemes).any(|(one, other)| schemes.meet(one, other) != PLAIN),
            WithoutRand => !has_name("RAND"),
            WithoutFhe => !has_name("FHE"),
            OtherWord => OTHER_WORDS.into_iter().any(has_name),
        }
    }
}

/// The pairs of schemes of which neither is at or below the other.
fn apart(schemes: &SchemeTable) -> impl Iterator<Item = (u8, u8)> + '_ {
    let pairs = schemes.schemes().flat_map(|one| schemes.schemes().map(move |other| (one, other)));
    pairs.filter(|&(one, other)| {
        !schemes.at_or_below(one, other) && !schemes.at_or_below(other, one)
    })
}
