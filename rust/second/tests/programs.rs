//! The programs to try, and others of their kind.

mod common;

use common::{assert_prints, assert_refused, table};
use second::to_try::{self, Try};
use second::{entry, place, Table};

#[test]
fn program_a_is_printed_in_full() {
    let program = b"T,0,ANY\nP,0,g0,0\nE,0,VAR,0\nE,1,VAR,0\nE,2,OP,ADD,0,1\nE,3,LAM,0,2\n";
    let expected = b"OK,1,4\nG,0,AH\nP,0,AH,INT\nE,0,AH,INT\nE,1,AH,INT\nE,2,AH,INT\n\
                     E,3,PLAIN,ARROW\n";
    assert_eq!(place(program), expected);
}

#[test]
fn each_program_to_try_is_printed_as_the_documents_say() {
    for Try { about, text, prints, .. } in to_try::all() {
        let printed = place(&text);
        assert_eq!(
            printed.escape_ascii().to_string(),
            prints.escape_ascii().to_string(),
            "{about}"
        );
    }
}

#[test]
fn each_program_to_try_is_answered_as_the_documents_say() {
    for program in to_try::all() {
        let mut buffer = [0x5A; 6280];
        assert_eq!(entry(&program.text, &mut buffer), program.returns, "{}", program.about);
        let report = program.report().unwrap_or(b"");
        assert!(buffer.starts_with(report), "{}", program.about);
        assert!(buffer[report.len()..].iter().all(|&byte| byte == 0x5A), "{}", program.about);
    }
}

#[test]
fn x_greater_than_x_needs_op() {
    assert_prints(
        "T,0,ANY P,0,g0,0 E,0,VAR,0 E,1,VAR,0 E,2,OP,GT,0,1 E,3,LAM,0,2",
        "OK,1,4 G,0,OP P,0,OP,INT E,0,OP,INT E,1,OP,INT E,2,PLAIN,INT E,3,PLAIN,ARROW",
    );
}

#[test]
fn row_255_is_added_and_row_256_is_refused() {
    let lines: Vec<String> = (0..257).map(|row| format!("E,{row},NUM,1")).collect();
    let mut table = table(&lines[..255].join(" "));
    assert_eq!(table.add(b"E,255,NUM,1"), 0);
    assert_refused(&mut table, "E,256,NUM,1", 3);
}

#[test]
fn a_row_is_not_applied_to_itself() {
    assert_refused(&mut table("E,0,NUM,1"), "E,1,APP,0,0", 7);
}

#[test]
fn a_number_alone_is_closed() {
    assert_prints("E,0,NUM,1", "OK,0,1 E,0,RAND,INT");
    assert_prints("E,0,ENC,MH,1", "OK,0,1 E,0,MH,INT");
    assert!(table("E,0,NUM,1").closed());
    assert!(!Table::fresh().closed());
}
