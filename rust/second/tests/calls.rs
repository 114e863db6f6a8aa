//! The refusal numbers of the calls, their order, and what the table holds after them.

mod common;

use common::{add_all, assert_prints, assert_refused, table};
use second::qualifier::Qualifier;
use second::rows::Parameter;
use second::schemes::PLAIN;
use second::typing::judge;
use second::{Answer, Table};

/// A table whose three lists are full; the parameters have the qualifier AH.
fn full_table() -> Table {
    let mut lines: Vec<String> = (0..64).map(|row| format!("T,{row},INT")).collect();
    lines.extend((0..64).map(|parameter| format!("P,{parameter},AH,0")));
    lines.extend((0..256).map(|row| format!("E,{row},NUM,1")));
    table(&lines.join(" "))
}

/// Infers with a buffer long enough; a refusal must leave the buffer as it was.
fn infer(table: &Table) -> Answer {
    let mut buffer = [0xA5; 6280];
    let answer = table.infer(&mut buffer);
    if answer.number != 0 {
        assert!(buffer.iter().all(|&byte| byte == 0xA5));
    }
    answer
}

/// A refusal of an inference.
fn refusal(number: u32, row: u32) -> Answer {
    Answer { number, row, length: 0 }
}

#[test]
fn form_is_checked_before_the_own_number() {
    let mut fresh = Table::fresh();
    assert_refused(&mut fresh, "T,5,INTEGER", 1);
    assert_refused(&mut fresh, "E,7,NUM,4294967296", 1);
    assert_refused(&mut fresh, "P,3,AH,65536", 1);
    assert_refused(&mut full_table(), "E,256,NUM,01", 1);
}

#[test]
fn own_number_is_the_next_of_its_own_list() {
    let mut fresh = Table::fresh();
    assert_refused(&mut fresh, "T,1,INT", 2);
    assert_refused(&mut fresh, "P,1,AH,0", 2);
    assert_refused(&mut fresh, "E,1,NUM,1", 2);
    assert_refused(&mut fresh, "E,65535,NUM,1", 2);
    let mut table = table("T,0,INT T,1,INT P,0,AH,0 E,0,NUM,1 E,1,NUM,2 E,2,NUM,3");
    assert_refused(&mut table, "T,1,INT", 2);
    assert_refused(&mut table, "T,3,INT", 2);
    assert_refused(&mut table, "P,0,AH,0", 2);
    assert_refused(&mut table, "P,2,AH,0", 2);
    assert_refused(&mut table, "E,2,NUM,1", 2);
    assert_refused(&mut table, "E,4,NUM,1", 2);
    add_all(&mut table, "T,2,INT P,1,AH,2 E,3,VAR,1");
}

#[test]
fn own_number_is_checked_before_the_rest() {
    let mut full = full_table();
    assert_refused(&mut full, "T,63,INT", 2);
    assert_refused(&mut full, "T,65,INT", 2);
    assert_refused(&mut full, "P,63,AH,0", 2);
    assert_refused(&mut full, "E,255,NUM,1", 2);
    assert_refused(&mut full, "E,257,NUM,1", 2);
    let mut fresh = Table::fresh();
    assert_refused(&mut fresh, "T,9,ARROW,AH,100,AH,100", 2);
    assert_refused(&mut fresh, "P,9,AH,100", 2);
    assert_refused(&mut fresh, "P,9,AH,100,AH", 2);
    assert_refused(&mut fresh, "E,9,VAR,100", 2);
    assert_refused(&mut fresh, "E,9,LAM,100,100", 2);
    assert_refused(&mut fresh, "E,9,APP,100,100", 2);
}

#[test]
fn full_lists_are_checked_before_references() {
    let mut full = full_table();
    assert_refused(&mut full, "T,64,INT", 3);
    assert_refused(&mut full, "T,64,ARROW,AH,64,AH,99", 3);
    assert_refused(&mut full, "P,64,AH,0", 3);
    assert_refused(&mut full, "P,64,AH,999", 3);
    assert_refused(&mut full, "P,64,AH,999,RAND", 3);
    assert_refused(&mut full, "E,256,VAR,77", 3);
    assert_refused(&mut full, "E,256,LAM,77,256", 3);
    assert_refused(&mut full, "E,256,APP,256,256", 3);
    assert_refused(&mut full, "E,256,OP,ADD,0,0", 3);
}

#[test]
fn type_rows_are_declared_before() {
    let mut fresh = Table::fresh();
    assert_refused(&mut fresh, "T,0,ARROW,AH,0,AH,0", 4);
    assert_refused(&mut fresh, "P,0,AH,0", 4);
    let mut table = table("T,0,INT T,1,ANY");
    assert_refused(&mut table, "T,2,ARROW,AH,2,AH,0", 4);
    assert_refused(&mut table, "T,2,ARROW,AH,0,AH,2", 4);
    assert_refused(&mut table, "T,2,ARROW,AH,0,AH,65535", 4);
    assert_refused(&mut table, "P,0,AH,2", 4);
    assert_refused(&mut table, "P,0,AH,2,AH", 4);
    add_all(&mut table, "T,2,ARROW,AH,1,AH,1 P,0,AH,2");
}

#[test]
fn parameters_are_declared_before() {
    let mut fresh = Table::fresh();
    assert_refused(&mut fresh, "E,0,VAR,0", 5);
    // 5 comes before 6: row 5 is not below row 0 either.
    assert_refused(&mut fresh, "E,0,LAM,0,5", 5);
    let mut table = table("T,0,INT P,0,AH,0 E,0,VAR,0 E,1,LAM,0,0");
    assert_refused(&mut table, "E,2,VAR,1", 5);
    // 5 comes before 7: row 0 is used.
    assert_refused(&mut table, "E,2,LAM,1,0", 5);
    assert_refused(&mut table, "E,2,LAM,65535,1", 5);
}

#[test]
fn children_are_below() {
    let mut table = table("T,0,INT P,0,AH,0 E,0,VAR,0 E,1,LAM,0,0");
    assert_refused(&mut table, "E,2,APP,2,1", 6);
    assert_refused(&mut table, "E,2,APP,1,2", 6);
    assert_refused(&mut table, "E,2,APP,65535,65535", 6);
    assert_refused(&mut table, "E,2,OP,ADD,1,3", 6);
    assert_refused(&mut table, "E,2,OP,ADD,3,1", 6);
    // 6 comes before 7: row 0 is used, and one row is named twice.
    assert_refused(&mut table, "E,2,APP,0,9", 6);
    assert_refused(&mut table, "E,2,APP,9,0", 6);
    assert_refused(&mut table, "E,2,OP,LT,2,2", 6);
    // 6 comes before 8: parameter 0 is bound.
    assert_refused(&mut table, "E,2,LAM,0,2", 6);
}

#[test]
fn children_are_used_once() {
    let mut table = table("T,0,INT P,0,AH,0 E,0,VAR,0 E,1,LAM,0,0 E,2,NUM,1 E,3,NUM,2");
    assert_refused(&mut table, "E,4,APP,0,1", 7);
    assert_refused(&mut table, "E,4,APP,1,0", 7);
    assert_refused(&mut table, "E,4,APP,1,1", 7);
    assert_refused(&mut table, "E,4,OP,EQ,2,2", 7);
    // 7 comes before 8: parameter 0 is bound.
    assert_refused(&mut table, "E,4,LAM,0,0", 7);
    add_all(&mut table, "E,4,OP,EQ,3,2");
    assert_refused(&mut table, "E,5,APP,1,2", 7);
    add_all(&mut table, "E,5,APP,1,4");
}

#[test]
fn parameters_are_bound_once() {
    let mut table = table("T,0,INT P,0,AH,0 P,1,AH,0 E,0,VAR,0 E,1,LAM,0,0");
    assert_refused(&mut table, "E,2,LAM,0,1", 8);
    add_all(&mut table, "E,2,LAM,1,1");
    assert_refused(&mut table, "E,3,LAM,0,2", 8);
    assert_refused(&mut table, "E,3,LAM,1,2", 8);
}

#[test]
fn take_back_needs_a_term_row() {
    let mut table = table("T,0,INT P,0,AH,0");
    let before = table.clone();
    assert_eq!(table.take_back(), 9);
    assert_eq!(table, before);
    add_all(&mut table, "E,0,NUM,1");
    assert_eq!(table.take_back(), 0);
    assert_eq!(table.take_back(), 9);
    assert_eq!(table, before);
    assert_eq!(Table::fresh().take_back(), 9);
}

#[test]
fn take_back_frees_children_and_parameter() {
    let mut table = table("T,0,INT P,0,AH,0 P,1,AH,0 E,0,VAR,0 E,1,VAR,1 E,2,OP,ADD,0,1");
    assert_refused(&mut table, "E,3,LAM,0,0", 7);
    assert_eq!(table.take_back(), 0);
    add_all(&mut table, "E,2,LAM,0,0");
    assert_refused(&mut table, "E,3,LAM,0,1", 8);
    assert_refused(&mut table, "E,3,APP,0,1", 7);
    assert_eq!(table.take_back(), 0);
    // Row 0 and parameter 0 are free again, also together in other rows.
    add_all(&mut table, "E,2,LAM,0,1 E,3,APP,2,0");
    assert_eq!(table.take_back(), 0);
    assert_eq!(table.take_back(), 0);
    add_all(&mut table, "E,2,APP,1,0 E,3,LAM,0,2 E,4,LAM,1,3");
    assert!(table.closed());
}

#[test]
fn a_row_taken_back_leaves_no_trace_in_a_typing() {
    let mut table = table("T,0,ANY P,0,g0,0 E,0,VAR,0 E,1,VAR,0 E,2,OP,LT,0,1");
    assert_eq!(table.take_back(), 0);
    assert_eq!(table.take_back(), 0);
    add_all(&mut table, "E,1,LAM,0,0");
    let mut buffer = [0; 6280];
    let expected = b"OK,1,2\nG,0,RAND\nP,0,RAND,ANY\nE,0,RAND,ANY\nE,1,PLAIN,ARROW\n";
    let length = expected.len();
    let answer = table.infer(&mut buffer);
    assert_eq!(answer, Answer { number: 0, row: 0, length: length as u32 });
    assert!(buffer.starts_with(expected));
}

#[test]
fn take_back_of_a_refused_row_helps() {
    let mut table = table("T,0,ANY P,0,AH,0 E,0,VAR,0 E,1,ENC,MH,5 E,2,OP,ADD,0,1 E,3,LAM,0,2");
    assert_eq!(infer(&table), refusal(22, 2));
    for _ in 0..3 {
        assert_eq!(table.take_back(), 0);
    }
    add_all(&mut table, "E,1,ENC,AH,5 E,2,OP,ADD,0,1 E,3,LAM,0,2");
    assert_eq!(infer(&table).number, 0);
}

#[test]
fn redeclare_checks_the_parameter_before_the_code() {
    let mut table = table("T,0,INT P,0,AH,0 P,1,g3,0");
    let before = table.clone();
    assert_eq!(table.redeclare(2, 71), 5);
    assert_eq!(table.redeclare(2, 0), 5);
    assert_eq!(table.redeclare(u64::MAX, u64::MAX), 5);
    assert_eq!(table.redeclare(1 << 32, 0), 5);
    assert_eq!(table.redeclare(1 << 16, 0), 5);
    assert_eq!(table.redeclare(1, 71), 12);
    assert_eq!(table.redeclare(0, 256), 12);
    assert_eq!(table.redeclare(0, u64::MAX), 12);
    assert_eq!(table.redeclare(0, 1 << 32), 12);
    assert_eq!(table, before);
    assert_eq!(Table::fresh().redeclare(0, 0), 5);
}

#[test]
fn redeclare_replaces_one_qualifier() {
    let mut table = table("T,0,INT P,0,AH,0 P,1,g3,0");
    let declared = |qualifier| Parameter { qualifier, type_row: 0, floor: PLAIN };
    for code in 0..=70 {
        assert_eq!(table.redeclare(1, code.into()), 0);
        assert_eq!(table.params, [declared(5), declared(code)]);
    }
}

#[test]
fn redeclare_leaves_type_row_and_floor() {
    let mut table = table("T,0,INT T,1,ANY P,0,AH,1,DET P,1,g3,0 P,2,g3,1,RAND");
    let before = table.clone();
    for (parameter, floor) in [(0, Qualifier::Det), (1, Qualifier::Plain), (2, Qualifier::Rand)] {
        let floor = floor.code();
        let Parameter { qualifier, type_row, .. } = before.params[parameter];
        for code in 0..=70 {
            assert_eq!(table.redeclare(parameter as u64, code.into()), 0);
            assert_eq!(table.params[parameter], Parameter { qualifier: code, type_row, floor });
        }
        assert_eq!(table.redeclare(parameter as u64, qualifier.into()), 0);
    }
    assert_eq!(table, before);
}

#[test]
fn inference_uses_present_qualifiers() {
    let mut table = table("T,0,ANY P,0,g5,0 E,0,VAR,0 E,1,VAR,0 E,2,OP,ADD,0,1 E,3,LAM,0,2");
    assert_eq!(judge(&table).unwrap().variables.len(), 1);
    assert_eq!(table.redeclare(0, 6), 0);
    assert_eq!(infer(&table), refusal(23, 2));
    assert_eq!(table.redeclare(0, 1), 0);
    let judgement = judge(&table).unwrap();
    assert!(judgement.variables.is_empty());
    assert_eq!(table.schemes().word(judgement.params[0].word), "FHE");
    assert_eq!(table.redeclare(0, 70), 0);
    let variables = judge(&table).unwrap().variables;
    assert_eq!(variables.len(), 1);
    assert_eq!((variables[0].0, table.schemes().word(variables[0].1)), (63, "AH"));
}

#[test]
fn short_buffer_is_checked_before_closed() {
    let untypable = table("E,0,NUM,1 E,1,NUM,2 E,2,APP,0,1");
    for length in [0, 1, 6279] {
        let mut buffer = vec![7; length];
        assert_eq!(Table::fresh().infer(&mut buffer), refusal(11, 0));
        assert_eq!(untypable.infer(&mut buffer), refusal(11, 0));
        assert_eq!(table("E,0,NUM,1").infer(&mut buffer), refusal(11, 0));
        assert!(buffer.iter().all(|&byte| byte == 7));
    }
    assert_eq!(infer(&Table::fresh()), refusal(10, 0));
}

#[test]
fn closed_is_checked_before_typings() {
    // Row 2 has no typing, and row 3 leaves it without a parent.
    assert_eq!(infer(&table("E,0,NUM,1 E,1,NUM,2 E,2,APP,0,1 E,3,NUM,1")), refusal(10, 0));
    // Parameter 0 is not bound.
    let open = table("T,0,INT P,0,AH,0 E,0,NUM,1 E,1,NUM,2 E,2,APP,0,1");
    assert_eq!(infer(&open), refusal(10, 0));
}

#[test]
fn open_programs_are_refused() {
    assert_prints("T,0,INT", "NO,10,0");
    assert_prints("T,0,INT P,0,AH,0", "NO,10,0");
    assert_prints("E,0,NUM,1 E,1,NUM,1", "NO,10,0");
    // A parameter that no LAM binds, used or not.
    assert_prints("T,0,INT P,0,AH,0 E,0,NUM,1", "NO,10,0");
    assert_prints("T,0,INT P,0,AH,0 E,0,VAR,0", "NO,10,0");
    // A VAR in the argument, outside the body of its LAM.
    assert_prints("T,0,INT P,0,AH,0 E,0,NUM,1 E,1,LAM,0,0 E,2,VAR,0 E,3,APP,1,2", "NO,10,0");
    // The same program with the VAR in the body is closed.
    assert_prints(
        "T,0,INT P,0,AH,0 E,0,VAR,0 E,1,LAM,0,0 E,2,ENC,AH,1 E,3,APP,1,2",
        "OK,1,4 P,0,AH,INT E,0,AH,INT E,1,PLAIN,ARROW E,2,AH,INT E,3,AH,INT",
    );
    // A VAR of the inner parameter between the two LAMs.
    assert_prints(
        "T,0,ANY P,0,g0,0 P,1,g1,0 E,0,VAR,0 E,1,LAM,1,0 E,2,VAR,1 E,3,APP,1,2 E,4,LAM,0,3",
        "NO,10,0",
    );
}

#[test]
fn refused_lines_are_named_with_number_and_line() {
    assert_prints("T,0,INT T,0,INT", "X,2,2");
    assert_prints("T,0,INT P,0,AH,1", "X,4,2");
    assert_prints("E,0,NUM,1 E,1,VAR,0", "X,5,2");
    assert_prints("E,0,NUM,1 E,1,APP,0,1", "X,6,2");
    assert_prints("T,0,INT P,0,AH,0 E,0,VAR,0 E,1,LAM,0,0 E,2,LAM,0,1", "X,8,5");
    // The first refused line stops the reading.
    assert_prints("E,0,NUM,1 E,0,NUM,1 FOO E,1,NUM,1", "X,2,2");
}

#[test]
fn inference_changes_no_list() {
    let table = table("T,0,ANY P,0,g0,0 E,0,VAR,0 E,1,LAM,0,0");
    let before = table.clone();
    infer(&table);
    assert_eq!(table, before);
}
