//! The numbers 21, 22 and 23, the least row, and the greatest words.

mod common;

use common::{assert_prints, assert_supported, table};
use second::qualifier::Qualifier;
use second::typing::{judge, NoTyping};

#[test]
fn shapes_decide_before_constants_in_one_row() {
    // AH against PLAIN, and INT against an arrow.
    assert_prints("T,0,INT P,0,AH,0 E,0,VAR,0 E,1,LAM,0,0 E,2,ENC,AH,1 E,3,OP,ADD,2,1", "NO,21,3");
    assert_prints("T,0,INT P,0,AH,0 E,0,VAR,0 E,1,LAM,0,0 E,2,ENC,AH,1 E,3,OP,ADD,1,2", "NO,21,3");
    // Beneath the arrows, the arguments differ in their qualifiers and the results in their shapes.
    assert_prints(
        "T,0,INT T,1,ARROW,AH,0,AH,0 T,2,ARROW,MH,0,PLAIN,1 P,0,g0,1 P,1,g1,2 P,2,g2,0
         E,0,VAR,1 E,1,LAM,1,0 E,2,VAR,0 E,3,APP,1,2 E,4,LAM,0,3 E,5,LAM,2,4",
        "NO,21,3",
    );
}

#[test]
fn shapes_decide_before_bounds_in_one_row() {
    assert_prints(
        "T,0,INT P,0,RAND,0 E,0,NUM,1 E,1,LAM,0,0 E,2,ENC,RAND,1 E,3,OP,ADD,2,1",
        "NO,21,3",
    );
}

#[test]
fn constants_decide_before_bounds_in_one_row() {
    // Neither RAND nor DET is at or below AH, but they differ.
    assert_prints("E,0,ENC,RAND,1 E,1,ENC,DET,1 E,2,OP,ADD,0,1", "NO,22,2");
    assert_prints("E,0,ENC,RAND,1 E,1,ENC,RAND,1 E,2,OP,ADD,0,1", "NO,23,2");
}

#[test]
fn a_later_pair_of_one_application_decides() {
    // At the APP: g0 = RAND breaks the bound of the sum, and AH = MH is a clash.
    let program = |result: &str| {
        format!(
            "T,0,INT T,1,ARROW,g0,0,AH,0 P,0,g0,0 P,1,g1,1 P,2,RAND,0
             E,0,VAR,0 E,1,VAR,0 E,2,OP,ADD,0,1 E,3,LAM,0,2 E,4,LAM,1,3
             E,5,ENC,{result},1 E,6,LAM,2,5 E,7,APP,4,6"
        )
    };
    assert_prints(&program("MH"), "NO,22,7");
    assert_prints(&program("AH"), "NO,23,7");
}

#[test]
fn the_least_row_decides_before_the_number() {
    // Row 2 breaks a bound, row 5 has no shape.
    assert_prints(
        "E,0,ENC,RAND,1 E,1,ENC,RAND,1 E,2,OP,MUL,0,1 E,3,NUM,1 E,4,NUM,1 E,5,APP,3,4
         E,6,OP,ADD,2,5",
        "NO,23,2",
    );
    // Row 2 mixes constants, row 5 has no shape.
    assert_prints(
        "E,0,ENC,AH,1 E,1,ENC,FHE,1 E,2,OP,ADD,0,1 E,3,NUM,1 E,4,NUM,1 E,5,APP,3,4
         E,6,OP,ADD,2,5",
        "NO,22,2",
    );
    // Row 2 breaks a bound, row 5 mixes constants.
    assert_prints(
        "E,0,ENC,DET,1 E,1,ENC,DET,1 E,2,OP,LT,0,1 E,3,ENC,FHE,1 E,4,ENC,AH,1 E,5,OP,ADD,3,4
         E,6,OP,ADD,2,5",
        "NO,23,2",
    );
}

#[test]
fn a_bound_can_break_at_an_application() {
    assert_prints(
        "T,0,ANY P,0,g0,0 E,0,VAR,0 E,1,VAR,0 E,2,OP,ADD,0,1 E,3,LAM,0,2 E,4,ENC,RAND,1
         E,5,APP,3,4",
        "NO,23,5",
    );
    assert_prints(
        "T,0,ANY P,0,g0,0 E,0,VAR,0 E,1,VAR,0 E,2,OP,ADD,0,1 E,3,LAM,0,2 E,4,ENC,FHE,1
         E,5,APP,3,4",
        "OK,1,6 G,0,FHE P,0,FHE,INT E,0,FHE,INT E,1,FHE,INT E,2,FHE,INT E,3,PLAIN,ARROW
         E,4,FHE,INT E,5,FHE,INT",
    );
}

#[test]
fn a_constant_is_tested_against_its_bounds() {
    assert_supported("VAR,0", "VAR,0");
}

#[test]
fn bounds_of_one_class_meet() {
    // x under each pair of operations, with the greatest lower bound worked out by hand.
    let pairs = [
        ("ADD", "ADD", "AH"),
        ("ADD", "MUL", "FHE"),
        ("ADD", "EQ", "FHE"),
        ("ADD", "LT", "FHE"),
        ("MUL", "EQ", "FHE"),
        ("MUL", "GT", "FHE"),
        ("EQ", "LT", "OP"),
        ("EQ", "EQ", "DET"),
        ("LT", "GT", "OP"),
    ];
    for (one, other, word) in pairs {
        for (first, second) in [(one, other), (other, one)] {
            let table = table(&format!(
                "T,0,ANY P,0,g0,0 E,0,VAR,0 E,1,VAR,0 E,2,OP,{first},0,1
                 E,3,VAR,0 E,4,VAR,0 E,5,OP,{second},3,4"
            ));
            let found = judge(&table).unwrap().params[0].word;
            assert_eq!(table.schemes().word(found), word);
        }
    }
}

#[test]
fn plain_is_below_fhe() {
    assert_prints(
        "T,0,ANY P,0,PLAIN,0 E,0,VAR,0 E,1,VAR,0 E,2,OP,ADD,0,1 E,3,VAR,0 E,4,OP,MUL,2,3
         E,5,LAM,0,4",
        "OK,1,6 P,0,PLAIN,INT E,0,PLAIN,INT E,1,PLAIN,INT E,2,PLAIN,INT E,3,PLAIN,INT
         E,4,PLAIN,INT E,5,PLAIN,ARROW",
    );
    // The comparison forces PLAIN after the class had the bound FHE.
    assert_prints(
        "T,0,ANY P,0,g0,0 E,0,VAR,0 E,1,VAR,0 E,2,OP,ADD,0,1 E,3,NUM,1 E,4,NUM,1 E,5,OP,LT,3,4
         E,6,OP,MUL,2,5 E,7,LAM,0,6",
        "OK,1,8 G,0,PLAIN P,0,PLAIN,INT E,0,PLAIN,INT E,1,PLAIN,INT E,2,PLAIN,INT E,3,OP,INT
         E,4,OP,INT E,5,PLAIN,INT E,6,PLAIN,INT E,7,PLAIN,ARROW",
    );
}

#[test]
fn a_type_does_not_contain_itself() {
    let both = "T,0,ANY T,1,ANY P,0,g0,0 P,1,g1,1 ";
    // x y, then y x: each is an argument of the other.
    assert_prints(
        &format!(
            "{both} E,0,VAR,0 E,1,VAR,1 E,2,APP,0,1 E,3,VAR,1 E,4,VAR,0 E,5,APP,3,4
             E,6,OP,ADD,2,5 E,7,LAM,1,6 E,8,LAM,0,7"
        ),
        "NO,21,5",
    );
    // One ANY row is one unknown: x y with both of row 0.
    assert_prints(
        "T,0,ANY P,0,g0,0 P,1,g1,0 E,0,VAR,0 E,1,VAR,1 E,2,APP,0,1 E,3,LAM,1,2 E,4,LAM,0,3",
        "NO,21,2",
    );
    // Two ANY rows are two unknowns.
    assert_prints(
        &format!("{both} E,0,VAR,0 E,1,VAR,1 E,2,APP,0,1 E,3,LAM,1,2 E,4,LAM,0,3"),
        "OK,2,5 G,0,PLAIN G,1,RAND P,0,PLAIN,ARROW P,1,RAND,ANY E,0,PLAIN,ARROW E,1,RAND,ANY
         E,2,RAND,ANY E,3,PLAIN,ARROW E,4,PLAIN,ARROW",
    );
    // The result of a function of row 1 is row 0, and row 1 is an arrow from row 0.
    assert_prints(
        "T,0,ANY T,1,ARROW,AH,0,AH,0 P,0,PLAIN,0 P,1,g0,1
         E,0,VAR,0 E,1,LAM,0,0 E,2,VAR,1 E,3,APP,1,2 E,4,LAM,1,3",
        "NO,21,3",
    );
}

#[test]
fn qualifiers_beneath_arrows_are_compared() {
    let program = |argument: &str, result: &str| {
        format!(
            "T,0,INT T,1,ARROW,AH,0,DET,0 P,0,PLAIN,1 P,1,{argument},0
             E,0,NUM,1 E,1,LAM,0,0 E,2,ENC,{result},1 E,3,LAM,1,2 E,4,APP,1,3"
        )
    };
    assert_prints(&program("MH", "DET"), "NO,22,4");
    assert_prints(&program("AH", "OP"), "NO,22,4");
    assert_prints(
        &program("AH", "DET"),
        "OK,2,5 P,0,PLAIN,ARROW P,1,AH,INT E,0,RAND,INT E,1,PLAIN,ARROW E,2,DET,INT
         E,3,PLAIN,ARROW E,4,RAND,INT",
    );
}

#[test]
fn an_argument_has_exactly_the_qualifier() {
    // FHE is below AH, but an argument is not lowered.
    assert_prints("T,0,INT P,0,AH,0 E,0,VAR,0 E,1,LAM,0,0 E,2,ENC,FHE,1 E,3,APP,1,2", "NO,22,3");
    // Nor is PLAIN, the qualifier of a comparison's result, raised.
    assert_prints(
        "T,0,INT P,0,AH,0 E,0,VAR,0 E,1,LAM,0,0 E,2,NUM,1 E,3,NUM,1 E,4,OP,LT,2,3 E,5,APP,1,4",
        "NO,22,5",
    );
    // The qualifier of a LAM is PLAIN, also as an argument.
    assert_prints(
        "T,0,INT T,1,ANY P,0,AH,0 P,1,AH,1 E,0,VAR,0 E,1,LAM,0,0 E,2,NUM,1 E,3,LAM,1,2
         E,4,APP,3,1",
        "NO,22,4",
    );
}

#[test]
fn declarations_after_a_row_count_in_every_prefix() {
    // The T and P lines come after all the rows that they do not concern.
    assert_prints(
        "E,0,NUM,1 T,0,ANY P,0,g0,0 E,1,LAM,0,0 T,1,ARROW,g0,0,g9,0",
        "OK,1,2 G,0,RAND G,9,RAND P,0,RAND,ANY E,0,RAND,INT E,1,PLAIN,ARROW",
    );
    // The declarations alone have a typing: the row of the APP is the least one.
    let program = |qualifier: &str| {
        format!(
            "E,0,NUM,1 E,1,NUM,1 E,2,APP,0,1 T,0,INT T,1,ARROW,AH,0,MH,0 P,0,{qualifier},1
             E,3,LAM,0,2"
        )
    };
    assert_prints(&program("g0"), "NO,21,2");
    // A function under AH: no row is needed for that, wherever the lines stand.
    assert_prints(&program("AH"), "NO,22,0");
}

#[test]
fn named_variables_are_shared() {
    // g0 stands in x, in y and in an arrow; the comparison limits all of them.
    assert_prints(
        "T,0,INT T,1,ARROW,g0,0,g1,0 P,0,g0,0 P,1,g2,1
         E,0,VAR,0 E,1,VAR,0 E,2,OP,LT,0,1 E,3,LAM,0,2 E,4,LAM,1,3",
        "OK,2,5 G,0,OP G,1,RAND G,2,PLAIN P,0,OP,INT P,1,PLAIN,ARROW E,0,OP,INT E,1,OP,INT
         E,2,PLAIN,INT E,3,PLAIN,ARROW E,4,PLAIN,ARROW",
    );
    // x of g0 and y of g0 with different constants elsewhere.
    assert_prints(
        "T,0,INT P,0,g0,0 P,1,g0,0 E,0,VAR,0 E,1,ENC,AH,1 E,2,OP,ADD,0,1 E,3,VAR,1 E,4,ENC,FHE,1
         E,5,OP,ADD,3,4 E,6,OP,ADD,2,5 E,7,LAM,0,6 E,8,LAM,1,7",
        "NO,22,5",
    );
}

#[test]
fn results_of_unknown_functions_take_constants() {
    // f NUM + AH: the result of f is AH INT; f itself is PLAIN, and its argument unlimited.
    assert_prints(
        "T,0,ANY P,0,g0,0 E,0,VAR,0 E,1,NUM,1 E,2,APP,0,1 E,3,ENC,AH,1 E,4,OP,ADD,2,3 E,5,LAM,0,4",
        "OK,1,6 G,0,PLAIN P,0,PLAIN,ARROW E,0,PLAIN,ARROW E,1,RAND,INT E,2,AH,INT E,3,AH,INT
         E,4,AH,INT E,5,PLAIN,ARROW",
    );
    // f DET, and f RAND: the argument's qualifier would have to be two constants.
    assert_prints(
        "T,0,ANY P,0,g0,0 E,0,VAR,0 E,1,ENC,DET,1 E,2,APP,0,1 E,3,VAR,0 E,4,ENC,RAND,1 E,5,APP,3,4
         E,6,OP,EQ,2,5 E,7,LAM,0,6",
        "NO,22,5",
    );
}

#[test]
fn open_programs_can_be_judged_too() {
    let judged = judge(&table("T,0,ANY P,0,g0,0 E,0,VAR,0 E,1,NUM,1 E,2,NUM,1"));
    assert_eq!(judged.unwrap().terms[0].word, Qualifier::Rand.code());
    let judged = judge(&table("E,0,NUM,1 E,1,NUM,1 E,2,APP,0,1 E,3,NUM,1"));
    assert_eq!(judged, Err(NoTyping { number: 21, row: 2 }));
}
