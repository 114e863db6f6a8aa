//! The order of the qualifiers and its greatest lower bounds, against tables made by hand.

use second::operation::Operation;
use second::qualifier::Qualifier::{self, Ah, Det, Fhe, Mh, Op, Plain, Rand};
use second::qualifier::{at_or_below, meet, FIRST_VARIABLE_CODE, GREATEST_CODE};
use second::SchemeTable;

/// For each qualifier, those at or below it.
const LOWER: [(Qualifier, &[Qualifier]); 7] = [
    (Plain, &[Plain]),
    (Fhe, &[Plain, Fhe]),
    (Op, &[Plain, Fhe, Op]),
    (Det, &[Plain, Fhe, Op, Det]),
    (Mh, &[Plain, Fhe, Mh]),
    (Ah, &[Plain, Fhe, Ah]),
    (Rand, &[Plain, Fhe, Op, Det, Mh, Ah, Rand]),
];

/// The greatest lower bounds, row by row in the order of the codes.
const MEETS: [[Qualifier; 7]; 7] = [
    [Plain, Plain, Plain, Plain, Plain, Plain, Plain],
    [Plain, Fhe, Fhe, Fhe, Fhe, Fhe, Fhe],
    [Plain, Fhe, Op, Op, Fhe, Fhe, Op],
    [Plain, Fhe, Op, Det, Fhe, Fhe, Det],
    [Plain, Fhe, Fhe, Fhe, Mh, Fhe, Mh],
    [Plain, Fhe, Fhe, Fhe, Fhe, Ah, Ah],
    [Plain, Fhe, Op, Det, Mh, Ah, Rand],
];

#[test]
fn codes_and_words_follow_the_list() {
    let words = ["PLAIN", "FHE", "OP", "DET", "MH", "AH", "RAND"];
    for (code, qualifier) in Qualifier::ALL.into_iter().enumerate() {
        assert_eq!(usize::from(qualifier.code()), code);
        assert_eq!(qualifier.word(), words[code]);
        assert_eq!(Qualifier::of_word(words[code].as_bytes()), Some(qualifier));
    }
}

#[test]
fn the_order_is_the_one_by_hand() {
    for (upper, lower) in LOWER {
        for qualifier in Qualifier::ALL {
            assert_eq!(at_or_below(qualifier, upper), lower.contains(&qualifier));
        }
    }
}

#[test]
fn the_meets_are_those_by_hand() {
    for left in Qualifier::ALL {
        for right in Qualifier::ALL {
            let expected = MEETS[usize::from(left.code())][usize::from(right.code())];
            assert_eq!(meet(left, right), expected);
        }
    }
}

#[test]
fn the_meets_are_greatest_lower_bounds() {
    for left in Qualifier::ALL {
        for right in Qualifier::ALL {
            let bound = meet(left, right);
            for other in Qualifier::ALL {
                let below_both = at_or_below(other, left) && at_or_below(other, right);
                assert_eq!(at_or_below(other, bound), below_both);
            }
        }
    }
}

#[test]
fn operations_have_their_highest_schemes() {
    let highest = Operation::ALL.map(Operation::highest_scheme);
    assert_eq!(highest, [Ah, Mh, Det, Op, Op]);
    let keeps = Operation::ALL.map(Operation::keeps_qualifier);
    assert_eq!(keeps, [true, true, false, false, false]);
}

#[test]
fn the_scheme_table_of_the_six_has_the_documents_order() {
    let six = SchemeTable::six();
    for left in Qualifier::ALL {
        for right in Qualifier::ALL {
            let (one, other) = (left.code(), right.code());
            assert_eq!(six.at_or_below(one, other), at_or_below(left, right));
            assert_eq!(six.meet(one, other), meet(left, right).code());
        }
    }
    assert_eq!(six.greatest(), Rand.code());
    for operation in Operation::ALL {
        let highest = operation.highest_scheme();
        assert_eq!(six.highest(operation), highest.code());
        // A scheme supports what it is at or below the highest scheme of.
        for scheme in &Qualifier::ALL[1..] {
            assert_eq!(six.supports(scheme.code(), operation), at_or_below(*scheme, highest));
        }
    }
}

#[test]
fn the_scheme_table_of_the_six_has_the_documents_codes() {
    let six = SchemeTable::six();
    assert!(six.qualifiers().eq(Qualifier::ALL.map(Qualifier::code)));
    assert!(six.schemes().eq(1..=6));
    assert_eq!(six.words(), Qualifier::ALL.map(Qualifier::word));
    for qualifier in Qualifier::ALL {
        assert_eq!(six.word(qualifier.code()), qualifier.word());
        assert_eq!(six.of_word(qualifier.word().as_bytes()), Some(qualifier.code()));
    }
    assert_eq!((six.first_variable(), six.last_variable()), (FIRST_VARIABLE_CODE, GREATEST_CODE));
    assert_eq!((six.first_variable(), six.last_variable()), (7, 70));
}
