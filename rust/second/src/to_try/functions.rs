//! Programs about functions, which document 02, f), keeps PLAIN.

use super::program::Try;

/// The report of x, declared g0, applied to a number: x is a function, and nothing is asked of the number and the result.
pub const APPLIED_REPORT: &str =
    "OK,1,4 G,0,PLAIN P,0,PLAIN,ARROW E,0,PLAIN,ARROW E,1,RAND,INT E,2,RAND,ANY E,3,PLAIN,ARROW";

/// All of them.
pub fn all() -> Vec<Try> {
    let mut all = refused_at_an_application();
    all.extend(refused_by_their_lines());
    all.extend(with_unknown_types_made_equal());
    all.extend(with_one_variable_at_several_types());
    all.extend(with_results_that_are_functions());
    all.extend(with_free_types());
    all.extend(with_floors());
    all
}

/// An application makes a type an arrow that a scheme stands with.
fn refused_at_an_application() -> Vec<Try> {
    vec![
        Try::refused(
            "x declared RAND, x applied to NUM",
            "T,0,ANY P,0,RAND,0 E,0,VAR,0 E,1,NUM,1 E,2,APP,0,1 E,3,LAM,0,2",
            "NO,22,2",
            22_002,
        ),
        Try::refused(
            "x declared RAND, x applied to NUM before NUM applied to NUM",
            "T,0,ANY P,0,RAND,0 E,0,VAR,0 E,1,NUM,1 E,2,APP,0,1 E,3,NUM,1 E,4,NUM,1 E,5,APP,3,4
             E,6,OP,EQ,2,5 E,7,LAM,0,6",
            "NO,22,2",
            22_002,
        ),
        // Without qualifiers y may be an arrow, though RAND leaves only INT for it.
        Try::refused(
            "y of the type of x declared RAND, y applied to NUM",
            "T,0,ANY P,0,RAND,0 P,1,g0,0 E,0,VAR,1 E,1,NUM,1 E,2,APP,0,1 E,3,LAM,1,2 E,4,LAM,0,3",
            "NO,22,2",
            22_002,
        ),
        // Here the sum makes y INT, also without qualifiers.
        Try::refused(
            "y of the type of x declared RAND, y + y, then y applied to NUM",
            "T,0,ANY P,0,RAND,0 P,1,g0,0 E,0,VAR,1 E,1,VAR,1 E,2,OP,ADD,0,1 E,3,VAR,1 E,4,NUM,1
             E,5,APP,3,4 E,6,OP,ADD,2,5 E,7,LAM,1,6 E,8,LAM,0,7",
            "NO,21,5",
            21_005,
        ),
    ]
}

/// The T and P lines alone have no typing.
fn refused_by_their_lines() -> Vec<Try> {
    let unused = |qualifier: &str| {
        format!(
            "T,0,INT T,1,ARROW,g0,0,g0,0 T,2,ARROW,{qualifier},1,g1,0 P,0,PLAIN,1
             E,0,NUM,1 E,1,LAM,0,0"
        )
    };
    vec![
        Try::refused(
            "a parameter declared RAND of an ARROW row",
            "T,0,INT T,1,ARROW,g0,0,g0,0 P,0,RAND,1 E,0,NUM,1 E,1,LAM,0,0",
            "NO,22,0",
            22_000,
        ),
        Try::refused("an unused type row from AH and an arrow", &unused("AH"), "NO,22,0", 22_000),
        Try::accepted(
            "an unused type row from a variable and an arrow",
            &unused("g2"),
            "OK,1,2 G,0,RAND G,1,RAND G,2,PLAIN P,0,PLAIN,ARROW E,0,RAND,INT E,1,PLAIN,ARROW",
        ),
        // No row has to be there for the lines to fail, but a program that is not closed is refused first.
        Try::refused(
            "the same without rows",
            "T,0,INT T,1,ARROW,AH,0,AH,0 P,0,RAND,1",
            "NO,10,0",
            10_000,
        ),
        Try::refused(
            "lines without a typing before NUM applied to NUM",
            "T,0,INT T,1,ARROW,g0,0,g0,0 P,0,RAND,1 E,0,NUM,1 E,1,NUM,1 E,2,APP,0,1 E,3,LAM,0,2",
            "NO,22,0",
            22_000,
        ),
    ]
}

/// Two ANY rows become one type before that is an arrow, in the same row or in a later one.
fn with_unknown_types_made_equal() -> Vec<Try> {
    // g0 has the bound AH from the sum and would be RAND, and row 1 would be an arrow under this qualifier.
    let one_row = |qualifier: &str| {
        format!(
            "T,0,INT T,1,ANY T,2,ARROW,g0,0,g1,1 T,3,ARROW,g4,0,g4,0 T,4,ARROW,RAND,0,g2,3
             T,5,ARROW,g3,2,g5,0 P,0,g0,0 P,1,{qualifier},1 P,2,g6,5 P,3,g3,4
             E,0,VAR,0 E,1,VAR,0 E,2,OP,ADD,0,1 E,3,VAR,2 E,4,VAR,3 E,5,APP,3,4 E,6,OP,ADD,2,5
             E,7,LAM,0,6 E,8,LAM,1,7 E,9,LAM,2,8 E,10,LAM,3,9"
        )
    };
    vec![
        // No row names z: it has the type of y, which is that of x, and x is applied.
        Try::refused(
            "body x applied to y, the result applied to NUM, beside z declared AH of the type of y",
            "T,0,ANY T,1,ANY P,0,g0,0 P,1,g1,1 P,2,AH,1 E,0,VAR,0 E,1,LAM,0,0 E,2,VAR,1
             E,3,APP,1,2 E,4,NUM,1 E,5,APP,3,4 E,6,LAM,1,5 E,7,LAM,2,6",
            "NO,22,5",
            22_005,
        ),
        Try::refused("an arrow under MH and a bound in one row", &one_row("MH"), "NO,22,5", 22_005),
        Try::refused("the bound alone in that row", &one_row("g9"), "NO,23,5", 23_005),
    ]
}

/// One variable is declared for a function and for a number.
fn with_one_variable_at_several_types() -> Vec<Try> {
    vec![
        // The bound leaves AH and what is below: PLAIN, with which y is a function.
        Try::accepted(
            "x + x beside y of the same variable and a free type",
            "T,0,INT T,1,ANY P,0,g0,0 P,1,g0,1 E,0,VAR,0 E,1,VAR,0 E,2,OP,ADD,0,1 E,3,LAM,0,2
             E,4,LAM,1,3",
            "OK,2,5 G,0,AH P,0,AH,INT P,1,AH,ANY E,0,AH,INT E,1,AH,INT E,2,AH,INT E,3,PLAIN,ARROW
             E,4,PLAIN,ARROW",
        ),
        Try::accepted(
            "x + x beside y of the same variable and an ARROW row",
            "T,0,INT T,1,ARROW,g1,0,g1,0 P,0,g0,0 P,1,g0,1 E,0,VAR,0 E,1,VAR,0 E,2,OP,ADD,0,1
             E,3,LAM,0,2 E,4,LAM,1,3",
            "OK,2,5 G,0,PLAIN G,1,RAND P,0,PLAIN,INT P,1,PLAIN,ARROW E,0,PLAIN,INT E,1,PLAIN,INT
             E,2,PLAIN,INT E,3,PLAIN,ARROW E,4,PLAIN,ARROW",
        ),
        Try::refused(
            "x applied to NUM, then y of the same variable + ENC AH",
            "T,0,ANY T,1,INT P,0,g0,0 P,1,g0,1 E,0,VAR,0 E,1,NUM,1 E,2,APP,0,1 E,3,VAR,1
             E,4,ENC,AH,1 E,5,OP,ADD,3,4 E,6,OP,EQ,2,5 E,7,LAM,1,6 E,8,LAM,0,7",
            "NO,22,5",
            22_005,
        ),
    ]
}

/// The result of an application becomes a function in a later row.
fn with_results_that_are_functions() -> Vec<Try> {
    vec![
        Try::accepted(
            "x applied to NUM, the result applied to NUM",
            "T,0,ANY P,0,g0,0 E,0,VAR,0 E,1,NUM,1 E,2,APP,0,1 E,3,NUM,1 E,4,APP,2,3 E,5,LAM,0,4",
            "OK,1,6 G,0,PLAIN P,0,PLAIN,ARROW E,0,PLAIN,ARROW E,1,RAND,INT E,2,PLAIN,ARROW
             E,3,RAND,INT E,4,RAND,ANY E,5,PLAIN,ARROW",
        ),
        Try::refused(
            "x of an arrow to AH and a free type, the result applied to NUM",
            "T,0,INT T,1,ANY T,2,ARROW,g0,0,AH,1 P,0,g1,2
             E,0,VAR,0 E,1,NUM,1 E,2,APP,0,1 E,3,NUM,1 E,4,APP,2,3 E,5,LAM,0,4",
            "NO,22,4",
            22_004,
        ),
    ]
}

/// Whether a type that nothing limits may be an arrow.
fn with_free_types() -> Vec<Try> {
    let body = |declared: &str| format!("T,0,ANY P,0,{declared},0 E,0,VAR,0 E,1,LAM,0,0");
    vec![
        Try::accepted(
            "body x declared RAND",
            &body("RAND"),
            "OK,1,2 P,0,RAND,INT E,0,RAND,INT E,1,PLAIN,ARROW",
        ),
        Try::accepted(
            "body x declared PLAIN",
            &body("PLAIN"),
            "OK,1,2 P,0,PLAIN,ANY E,0,PLAIN,ANY E,1,PLAIN,ARROW",
        ),
        // The scheme stands in an unused type row, with the same unknown type.
        Try::accepted(
            "body x of a free type that a type row has under AH",
            "T,0,ANY T,1,ARROW,AH,0,g1,0 P,0,g0,0 E,0,VAR,0 E,1,LAM,0,0",
            "OK,1,2 G,0,RAND G,1,RAND P,0,RAND,INT E,0,RAND,INT E,1,PLAIN,ARROW",
        ),
    ]
}

/// A function has no floor but PLAIN.
fn with_floors() -> Vec<Try> {
    let applied = |floor: &str| {
        format!("T,0,ANY P,0,g0,0,{floor} E,0,VAR,0 E,1,NUM,3 E,2,APP,0,1 E,3,LAM,0,2")
    };
    vec![
        Try::refused("x applied to NUM, floor FHE", &applied("FHE"), "NO,24,0", 24_000),
        Try::accepted("x applied to NUM, floor PLAIN", &applied("PLAIN"), APPLIED_REPORT),
    ]
}
