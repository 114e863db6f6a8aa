//! The programs to try of document 01 under the rules of document 02 for NUM and for functions, and some about floors, literals, words in small letters and functions, each with its whole output worked out from the rules.

mod functions;
mod program;

use functions::APPLIED_REPORT;
pub use program::Try;

/// The report of a sum of x, declared g0, and x or a number.
const SUM_REPORT: &str =
    "OK,1,4 G,0,AH P,0,AH,INT E,0,AH,INT E,1,AH,INT E,2,AH,INT E,3,PLAIN,ARROW";

/// All programs to try.
pub fn all() -> Vec<Try> {
    let mut all = starred();
    all.extend(others());
    all.extend(with_floors());
    all.extend(with_floors_beside_literals());
    all.extend(with_literals());
    all.extend(with_several_literals());
    all.extend(with_applied_literals());
    all.extend(with_literals_for_functions());
    all.extend(with_small_letters());
    all.extend(with_letters_in_the_wrong_case());
    all.extend(functions::all());
    all
}

/// Program A and the starred ones, in the document's order.
fn starred() -> Vec<Try> {
    vec![
        Try::accepted(
            "A",
            "T,0,ANY P,0,g0,0 E,0,VAR,0 E,1,VAR,0 E,2,OP,ADD,0,1 E,3,LAM,0,2",
            SUM_REPORT,
        ),
        Try::accepted(
            "x + x, the sum times x",
            "T,0,ANY P,0,g0,0
             E,0,VAR,0 E,1,VAR,0 E,2,OP,ADD,0,1 E,3,VAR,0 E,4,OP,MUL,2,3 E,5,LAM,0,4",
            "OK,1,6 G,0,FHE P,0,FHE,INT
             E,0,FHE,INT E,1,FHE,INT E,2,FHE,INT E,3,FHE,INT E,4,FHE,INT E,5,PLAIN,ARROW",
        ),
        Try::accepted(
            "x = x",
            "T,0,ANY P,0,g0,0 E,0,VAR,0 E,1,VAR,0 E,2,OP,EQ,0,1 E,3,LAM,0,2",
            "OK,1,4 G,0,DET P,0,DET,INT E,0,DET,INT E,1,DET,INT E,2,PLAIN,INT E,3,PLAIN,ARROW",
        ),
        Try::accepted(
            "x < x",
            "T,0,ANY P,0,g0,0 E,0,VAR,0 E,1,VAR,0 E,2,OP,LT,0,1 E,3,LAM,0,2",
            "OK,1,4 G,0,OP P,0,OP,INT E,0,OP,INT E,1,OP,INT E,2,PLAIN,INT E,3,PLAIN,ARROW",
        ),
        Try::accepted("x + NUM", &x_and_number("g0,0", "ADD"), SUM_REPORT),
        Try::accepted(
            "body x",
            "T,0,ANY P,0,g0,0 E,0,VAR,0 E,1,LAM,0,0",
            "OK,1,2 G,0,RAND P,0,RAND,ANY E,0,RAND,ANY E,1,PLAIN,ARROW",
        ),
        Try::refused(
            "x declared RAND, x + x",
            "T,0,ANY P,0,RAND,0 E,0,VAR,0 E,1,VAR,0 E,2,OP,ADD,0,1 E,3,LAM,0,2",
            "NO,23,2",
            23_002,
        ),
        Try::refused(
            "x AH, y MH, x + y",
            "T,0,ANY T,1,ANY P,0,AH,0 P,1,MH,1
             E,0,VAR,0 E,1,VAR,1 E,2,OP,ADD,0,1 E,3,LAM,1,2 E,4,LAM,0,3",
            "NO,22,2",
            22_002,
        ),
        Try::refused(
            "x applied to x",
            "T,0,ANY P,0,g0,0 E,0,VAR,0 E,1,VAR,0 E,2,APP,0,1 E,3,LAM,0,2",
            "NO,21,2",
            21_002,
        ),
        Try::refused(
            "NUM applied to NUM",
            "T,0,ANY P,0,g0,0 E,0,NUM,1 E,1,NUM,2 E,2,APP,0,1 E,3,LAM,0,2",
            "NO,21,2",
            21_002,
        ),
        Try::refused(
            "NUM applied to NUM without parameters",
            "E,0,NUM,1 E,1,NUM,2 E,2,APP,0,1",
            "NO,21,2",
            21_002,
        ),
        Try::accepted(
            "(x < y) + (x < y)",
            "T,0,ANY T,1,ANY P,0,g0,0 P,1,g1,1
             E,0,VAR,0 E,1,VAR,1 E,2,OP,LT,0,1 E,3,VAR,0 E,4,VAR,1 E,5,OP,LT,3,4
             E,6,OP,ADD,2,5 E,7,LAM,1,6 E,8,LAM,0,7",
            "OK,2,9 G,0,OP G,1,OP P,0,OP,INT P,1,OP,INT
             E,0,OP,INT E,1,OP,INT E,2,PLAIN,INT E,3,OP,INT E,4,OP,INT E,5,PLAIN,INT
             E,6,PLAIN,INT E,7,PLAIN,ARROW E,8,PLAIN,ARROW",
        ),
        Try::accepted(
            "x applied to NUM",
            "T,0,ANY P,0,g0,0 E,0,VAR,0 E,1,NUM,3 E,2,APP,0,1 E,3,LAM,0,2",
            APPLIED_REPORT,
        ),
    ]
}

/// The programs without a star.
fn others() -> Vec<Try> {
    let numbers = |rows| (0..rows).map(|row| format!("E,{row},NUM,1 ")).collect::<String>();
    vec![
        Try::refused("empty table", "", "NO,10,0", 10_000),
        Try::refused("row 256 on 256 rows", &numbers(257), "X,3,257", 3_257),
        // All rows are added; the program is not closed, as no row is a child.
        Try::refused("row 255", &numbers(256), "NO,10,0", 10_000),
        Try::accepted("NUM 4294967295", "E,0,NUM,4294967295", "OK,0,1 E,0,RAND,INT"),
        Try::refused("NUM 4294967296", "E,0,NUM,4294967296", "X,1,1", 1_001),
        Try::refused("APP of row 0 to row 0", "E,0,NUM,1 E,1,APP,0,0", "X,7,2", 7_002),
    ]
}

/// Programs in which parameters have floors.
fn with_floors() -> Vec<Try> {
    let sum = |declared: &str| {
        format!("T,0,ANY P,0,{declared} E,0,VAR,0 E,1,VAR,0 E,2,OP,ADD,0,1 E,3,LAM,0,2")
    };
    vec![
        Try::accepted("x + x, floor PLAIN", &sum("g0,0,PLAIN"), SUM_REPORT),
        Try::accepted("x + x, floor FHE", &sum("g0,0,FHE"), SUM_REPORT),
        Try::accepted("x + x, floor AH", &sum("g0,0,AH"), SUM_REPORT),
        // AH is neither at or above MH nor below it.
        Try::refused("x + x, floor MH", &sum("g0,0,MH"), "NO,24,0", 24_000),
        Try::refused("x + x, floor RAND", &sum("g0,0,RAND"), "NO,24,0", 24_000),
        Try::refused("x declared FHE, x + x, floor AH", &sum("FHE,0,AH"), "NO,24,0", 24_000),
        Try::refused("x declared RAND, x + x, floor RAND", &sum("RAND,0,RAND"), "NO,23,2", 23_002),
        Try::refused("a variable as floor", "T,0,ANY P,0,g0,0,g0", "X,1,2", 1_002),
        Try::accepted(
            "body x, floor RAND",
            "T,0,ANY P,0,g0,0,RAND E,0,VAR,0 E,1,LAM,0,0",
            "OK,1,2 G,0,RAND P,0,RAND,ANY E,0,RAND,ANY E,1,PLAIN,ARROW",
        ),
        Try::refused(
            "x < y, floors OP and DET",
            "T,0,ANY T,1,ANY P,0,g0,0,OP P,1,g1,1,DET
             E,0,VAR,0 E,1,VAR,1 E,2,OP,LT,0,1 E,3,LAM,1,2 E,4,LAM,0,3",
            "NO,24,1",
            24_001,
        ),
        Try::refused(
            "NUM applied to NUM, floor RAND for a PLAIN x",
            "T,0,ANY P,0,PLAIN,0,RAND E,0,NUM,1 E,1,NUM,2 E,2,APP,0,1 E,3,LAM,0,2",
            "NO,21,2",
            21_002,
        ),
    ]
}

/// x and a number as operands under a LAM, with these fields of the P line from the qualifier on.
fn x_and_number(declared: &str, operation: &str) -> String {
    format!("T,0,ANY P,0,{declared} E,0,VAR,0 E,1,NUM,7 E,2,OP,{operation},0,1 E,3,LAM,0,2")
}

/// Programs in which x has a floor and is added to a literal, or to a comparison of two.
fn with_floors_beside_literals() -> Vec<Try> {
    let sum = |floor: &str| x_and_number(&format!("g0,0,{floor}"), "ADD");
    vec![
        Try::accepted("x + NUM, floor FHE", &sum("FHE"), SUM_REPORT),
        Try::accepted("x + NUM, floor AH", &sum("AH"), SUM_REPORT),
        Try::refused("x + NUM, floor DET", &sum("DET"), "NO,24,0", 24_000),
        Try::refused("x + NUM, floor RAND", &sum("RAND"), "NO,24,0", 24_000),
        // The result of the comparison is PLAIN, and x with it.
        Try::refused(
            "x + (NUM < NUM), floor FHE",
            "T,0,ANY P,0,g0,0,FHE
             E,0,VAR,0 E,1,NUM,1 E,2,NUM,2 E,3,OP,LT,1,2 E,4,OP,ADD,0,3 E,5,LAM,0,4",
            "NO,24,0",
            24_000,
        ),
    ]
}

/// Programs with a literal alone, two as operands, or one beside x.
fn with_literals() -> Vec<Try> {
    let two = |operation: &str| format!("E,0,NUM,1 E,1,NUM,2 E,2,OP,{operation},0,1");
    let declared_ah = "OK,1,4 P,0,AH,INT E,0,AH,INT E,1,AH,INT E,2,AH,INT E,3,PLAIN,ARROW";
    let rand = |operation: &str| x_and_number("RAND,0", operation);
    vec![
        Try::accepted("NUM alone", "E,0,NUM,1", "OK,0,1 E,0,RAND,INT"),
        Try::accepted("NUM + NUM", &two("ADD"), "OK,0,3 E,0,AH,INT E,1,AH,INT E,2,AH,INT"),
        Try::accepted("NUM times NUM", &two("MUL"), "OK,0,3 E,0,MH,INT E,1,MH,INT E,2,MH,INT"),
        Try::accepted("NUM = NUM", &two("EQ"), "OK,0,3 E,0,DET,INT E,1,DET,INT E,2,PLAIN,INT"),
        Try::accepted("NUM < NUM", &two("LT"), "OK,0,3 E,0,OP,INT E,1,OP,INT E,2,PLAIN,INT"),
        Try::accepted("NUM > NUM", &two("GT"), "OK,0,3 E,0,OP,INT E,1,OP,INT E,2,PLAIN,INT"),
        Try::accepted("x declared AH, x + NUM", &x_and_number("AH,0", "ADD"), declared_ah),
        Try::refused("x declared MH, x + NUM", &x_and_number("MH,0", "ADD"), "NO,23,2", 23_002),
        Try::refused("x declared RAND, x + NUM", &rand("ADD"), "NO,23,2", 23_002),
        Try::refused("x declared RAND, x = NUM", &rand("EQ"), "NO,23,2", 23_002),
        Try::accepted(
            "x = NUM",
            &x_and_number("g0,0", "EQ"),
            "OK,1,4 G,0,DET P,0,DET,INT E,0,DET,INT E,1,DET,INT E,2,PLAIN,INT E,3,PLAIN,ARROW",
        ),
    ]
}

/// Programs with literals beside results of operations, in two operations, or beside encrypted numbers.
fn with_several_literals() -> Vec<Try> {
    vec![
        Try::accepted(
            "(x < x) + NUM",
            "T,0,ANY P,0,g0,0
             E,0,VAR,0 E,1,VAR,0 E,2,OP,LT,0,1 E,3,NUM,1 E,4,OP,ADD,2,3 E,5,LAM,0,4",
            "OK,1,6 G,0,OP P,0,OP,INT
             E,0,OP,INT E,1,OP,INT E,2,PLAIN,INT E,3,PLAIN,INT E,4,PLAIN,INT E,5,PLAIN,ARROW",
        ),
        Try::accepted(
            "(x < NUM) + (y = NUM)",
            "T,0,ANY T,1,ANY P,0,g0,0 P,1,g1,1
             E,0,VAR,0 E,1,NUM,5 E,2,OP,LT,0,1 E,3,VAR,1 E,4,NUM,5 E,5,OP,EQ,3,4
             E,6,OP,ADD,2,5 E,7,LAM,1,6 E,8,LAM,0,7",
            "OK,2,9 G,0,OP G,1,DET P,0,OP,INT P,1,DET,INT
             E,0,OP,INT E,1,OP,INT E,2,PLAIN,INT E,3,DET,INT E,4,DET,INT E,5,PLAIN,INT
             E,6,PLAIN,INT E,7,PLAIN,ARROW E,8,PLAIN,ARROW",
        ),
        Try::accepted(
            "x + NUM, the sum times NUM",
            "T,0,ANY P,0,g0,0
             E,0,VAR,0 E,1,NUM,1 E,2,OP,ADD,0,1 E,3,NUM,2 E,4,OP,MUL,2,3 E,5,LAM,0,4",
            "OK,1,6 G,0,FHE P,0,FHE,INT
             E,0,FHE,INT E,1,FHE,INT E,2,FHE,INT E,3,FHE,INT E,4,FHE,INT E,5,PLAIN,ARROW",
        ),
        Try::accepted(
            "NUM + ENC AH",
            "E,0,NUM,1 E,1,ENC,AH,2 E,2,OP,ADD,0,1",
            "OK,0,3 E,0,AH,INT E,1,AH,INT E,2,AH,INT",
        ),
        Try::refused("ENC MH + NUM", "E,0,ENC,MH,1 E,1,NUM,2 E,2,OP,ADD,0,1", "NO,23,2", 23_002),
        Try::refused(
            "NUM + ENC AH, the sum + ENC FHE",
            "E,0,NUM,1 E,1,ENC,AH,2 E,2,OP,ADD,0,1 E,3,ENC,FHE,3 E,4,OP,ADD,2,3",
            "NO,22,4",
            22_004,
        ),
    ]
}

/// Programs whose literals are arguments, or bodies of LAMs.
fn with_applied_literals() -> Vec<Try> {
    vec![
        Try::accepted(
            "body NUM",
            "T,0,ANY P,0,g0,0 E,0,NUM,1 E,1,LAM,0,0",
            "OK,1,2 G,0,RAND P,0,RAND,ANY E,0,RAND,INT E,1,PLAIN,ARROW",
        ),
        Try::accepted(
            "body x for x declared AH, applied to NUM",
            "T,0,INT P,0,AH,0 E,0,VAR,0 E,1,LAM,0,0 E,2,NUM,1 E,3,APP,1,2",
            "OK,1,4 P,0,AH,INT E,0,AH,INT E,1,PLAIN,ARROW E,2,AH,INT E,3,AH,INT",
        ),
        // The argument shares nothing with the body, whose qualifier is that of the result.
        Try::accepted(
            "body NUM applied to NUM, the result + NUM",
            "T,0,ANY P,0,g0,0
             E,0,NUM,1 E,1,LAM,0,0 E,2,NUM,2 E,3,APP,1,2 E,4,NUM,3 E,5,OP,ADD,3,4",
            "OK,1,6 G,0,RAND P,0,RAND,INT
             E,0,AH,INT E,1,PLAIN,ARROW E,2,RAND,INT E,3,AH,INT E,4,AH,INT E,5,AH,INT",
        ),
        Try::accepted(
            "(x applied to NUM) = (x applied to ENC MH)",
            "T,0,ANY P,0,g0,0
             E,0,VAR,0 E,1,NUM,1 E,2,APP,0,1 E,3,VAR,0 E,4,ENC,MH,1 E,5,APP,3,4 E,6,OP,EQ,2,5
             E,7,LAM,0,6",
            "OK,1,8 G,0,PLAIN P,0,PLAIN,ARROW
             E,0,PLAIN,ARROW E,1,MH,INT E,2,DET,INT E,3,PLAIN,ARROW E,4,MH,INT E,5,DET,INT
             E,6,PLAIN,INT E,7,PLAIN,ARROW",
        ),
    ]
}

/// Programs whose literals stand where a function should, or beside one.
fn with_literals_for_functions() -> Vec<Try> {
    vec![
        Try::refused(
            "NUM applied to x",
            "T,0,ANY P,0,g0,0 E,0,NUM,1 E,1,VAR,0 E,2,APP,0,1 E,3,LAM,0,2",
            "NO,21,2",
            21_002,
        ),
        Try::refused(
            "NUM + a LAM",
            "T,0,ANY P,0,g0,0 E,0,NUM,1 E,1,VAR,0 E,2,LAM,0,1 E,3,OP,ADD,0,2",
            "NO,21,3",
            21_003,
        ),
    ]
}

/// Programs with words in small letters and in both cases.
fn with_small_letters() -> Vec<Try> {
    vec![
        Try::accepted(
            "A in small letters",
            "T,0,any P,0,g0,0 E,0,var,0 E,1,var,0 E,2,op,add,0,1 E,3,lam,0,2",
            SUM_REPORT,
        ),
        Try::accepted(
            "A in both cases",
            "T,0,Any P,0,g0,0 E,0,VaR,0 E,1,vAr,0 E,2,oP,aDD,0,1 E,3,Lam,0,2",
            SUM_REPORT,
        ),
        Try::accepted(
            "x > NUM in small letters",
            "T,0,int P,0,g0,0,op E,0,var,0 E,1,num,64 E,2,op,gt,0,1 E,3,lam,0,2",
            "OK,1,4 G,0,OP P,0,OP,INT E,0,OP,INT E,1,OP,INT E,2,PLAIN,INT E,3,PLAIN,ARROW",
        ),
        Try::accepted(
            "an arrow, applied to an encrypted number, in small letters",
            "T,0,int T,1,arrow,ah,0,plain,0 P,0,g0,1,plain
             E,0,var,0 E,1,enc,ah,5 E,2,app,0,1 E,3,lam,0,2",
            "OK,1,4 G,0,PLAIN P,0,PLAIN,ARROW
             E,0,PLAIN,ARROW E,1,AH,INT E,2,PLAIN,INT E,3,PLAIN,ARROW",
        ),
        Try::refused(
            "x declared op with the floor det in small letters",
            "T,0,int P,0,op,0,det E,0,var,0 E,1,lam,0,0",
            "NO,24,0",
            24_000,
        ),
        Try::refused(
            "x declared rand in small letters, x + x",
            "T,0,any P,0,rand,0 E,0,var,0 E,1,var,0 E,2,op,add,0,1 E,3,lam,0,2",
            "NO,23,2",
            23_002,
        ),
    ]
}

/// Lines that are refused: a tag or the `g` of a variable in the other case, PLAIN as a scheme, and bytes that are no letters.
fn with_letters_in_the_wrong_case() -> Vec<Try> {
    vec![
        Try::refused("a small t", "t,0,INT", "X,1,1", 1_001),
        Try::refused("a small p", "T,0,INT p,0,AH,0", "X,1,2", 1_002),
        Try::refused("a small e", "E,0,num,1 e,1,num,2", "X,1,2", 1_002),
        Try::refused("a capital G", "T,0,any P,0,G0,0", "X,1,2", 1_002),
        Try::refused("a capital G in an arrow", "T,0,int T,1,arrow,g0,0,G1,0", "X,1,2", 1_002),
        Try::refused("plain as a scheme", "E,0,enc,plain,5", "X,1,1", 1_001),
        Try::refused("a bracket behind Z", "T,0,[NT", "X,1,1", 1_001),
        Try::refused("a brace behind z", "T,0,{nt", "X,1,1", 1_001),
    ]
}
