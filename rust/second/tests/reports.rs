//! Reports, their greatest length, buffers, and the numbers of the C entry.

mod common;

use common::{assert_prints, table, text};
use second::generate::deep::greatest_report;
use second::{entry, place, Answer};

/// Asserts that the C entry refuses a text with this number and leaves the buffer unchanged.
fn assert_entry_refuses(text: &[u8], number: u32) {
    let mut buffer = [0x5A; 6300];
    assert_eq!(entry(text, &mut buffer), number);
    assert!(buffer.iter().all(|&byte| byte == 0x5A));
}

/// Asserts that the C entry writes this report, nothing beyond it, and returns its length.
fn assert_entry_accepts(text: &[u8], report: &[u8]) {
    for length in [6280, 6281, 7000] {
        let mut buffer = vec![0x5A; length];
        assert_eq!(entry(text, &mut buffer), 100_000 + report.len() as u32);
        assert!(buffer.starts_with(report));
        assert!(buffer[report.len()..].iter().all(|&byte| byte == 0x5A));
    }
}

/// The report in which every slot is PLAIN and an arrow.
fn all_plain_arrows(variables: usize, parameters: usize, rows: usize) -> Vec<u8> {
    let mut report = format!("OK,{parameters},{rows}\n");
    for variable in 0..variables {
        report += &format!("G,{variable},PLAIN\n");
    }
    for parameter in 0..parameters {
        report += &format!("P,{parameter},PLAIN,ARROW\n");
    }
    for row in 0..rows {
        report += &format!("E,{row},PLAIN,ARROW\n");
    }
    report.into_bytes()
}

#[test]
fn the_limit_is_the_length_with_all_lists_full() {
    assert_eq!(all_plain_arrows(64, 64, 256).len(), 6280);
}

#[test]
fn the_greatest_report_is_printed() {
    // 256 rows need an odd number of parameters; 64 parameters with 255 rows give 6262 bytes.
    let expected = all_plain_arrows(64, 63, 256);
    assert_eq!(expected.len(), 6263);
    let program = text(&greatest_report());
    let printed = place(&program);
    assert_eq!(String::from_utf8_lossy(&printed), String::from_utf8_lossy(&expected));
    assert_entry_accepts(&program, &expected);
}

#[test]
fn variables_stand_in_type_lines_or_present_qualifiers() {
    // g1 and g2 stand in a T line that nothing uses, g40 in a parameter.
    assert_prints(
        "T,0,ANY T,1,ARROW,g2,0,g1,0 P,0,g40,0 E,0,VAR,0 E,1,VAR,0 E,2,OP,MUL,0,1 E,3,LAM,0,2",
        "OK,1,4 G,1,RAND G,2,RAND G,40,MH P,0,MH,INT E,0,MH,INT E,1,MH,INT E,2,MH,INT
         E,3,PLAIN,ARROW",
    );
}

#[test]
fn variables_without_a_line_are_not_reported() {
    let mut table = table("T,0,INT P,0,g3,0 P,1,AH,0 E,0,NUM,1 E,1,LAM,0,0 E,2,LAM,1,1");
    assert_eq!(table.redeclare(0, 2), 0);
    assert_eq!(table.redeclare(1, 12), 0);
    let mut buffer = [0; 6280];
    let expected = b"OK,2,3\nG,5,RAND\nP,0,OP,INT\nP,1,RAND,INT\nE,0,RAND,INT\n\
                     E,1,PLAIN,ARROW\nE,2,PLAIN,ARROW\n";
    let length = expected.len() as u32;
    assert_eq!(table.infer(&mut buffer), Answer { number: 0, row: 0, length });
    assert!(buffer.starts_with(expected));
    assert!(buffer[expected.len()..].iter().all(|&byte| byte == 0));
}

#[test]
fn numbers_are_reported_rising() {
    // The order is that of the numbers, not that of the digits.
    let mut lines = String::from("T,0,INT");
    for parameter in 0..11 {
        lines += &format!(" P,{parameter},g{},0", 10 - parameter);
    }
    lines += " E,0,NUM,1";
    for parameter in 0..11 {
        lines += &format!(" E,{},LAM,{parameter},{parameter}", parameter + 1);
    }
    let mut expected = String::from("OK,11,12");
    for variable in 0..11 {
        expected += &format!(" G,{variable},RAND");
    }
    for parameter in 0..11 {
        expected += &format!(" P,{parameter},RAND,INT");
    }
    expected += " E,0,RAND,INT";
    for row in 1..12 {
        expected += &format!(" E,{row},PLAIN,ARROW");
    }
    assert_prints(&lines, &expected);
}

#[test]
fn a_buffer_of_6280_bytes_suffices_and_6279_do_not() {
    let table = table("E,0,NUM,1");
    let mut buffer = vec![1; 6280];
    assert_eq!(table.infer(&mut buffer), Answer { number: 0, row: 0, length: 20 });
    assert_eq!(buffer[..20], *b"OK,0,1\nE,0,RAND,INT\n");
    assert!(buffer[20..].iter().all(|&byte| byte == 1));
    let mut short = vec![1; 6279];
    assert_eq!(table.infer(&mut short), Answer { number: 11, row: 0, length: 0 });
    assert!(short.iter().all(|&byte| byte == 1));
}

#[test]
fn the_entry_checks_a_short_buffer_first() {
    let missed_floor = b"T,0,INT\nP,0,AH,0,MH\nE,0,VAR,0\nE,1,LAM,0,0\n";
    let no_typing = b"E,0,NUM,1\nE,1,NUM,2\nE,2,APP,0,1\n";
    for text in [&b""[..], b"FOO", b"E,0,NUM,1\n", no_typing, missed_floor] {
        for length in [0, 1, 6279] {
            let mut buffer = vec![3; length];
            assert_eq!(entry(text, &mut buffer), 11_000);
            assert!(buffer.iter().all(|&byte| byte == 3));
        }
    }
}

#[test]
fn the_entry_returns_number_and_line_or_row_or_parameter() {
    assert_entry_refuses(b"", 10_000);
    assert_entry_refuses(b"\n", 1_001);
    assert_entry_refuses(b"E,0,NUM,1\nE,2,NUM,1\n", 2_002);
    assert_entry_refuses(b"T,0,INT\nP,0,AH,1\n", 4_002);
    assert_entry_refuses(b"E,0,VAR,0", 5_001);
    assert_entry_refuses(b"E,0,APP,0,0", 6_001);
    assert_entry_refuses(b"E,0,NUM,1\nE,1,APP,0,0", 7_002);
    assert_entry_refuses(b"T,0,INT\nP,0,AH,0\nE,0,VAR,0\nE,1,LAM,0,0\nE,2,LAM,0,1\n", 8_005);
    assert_entry_refuses(b"E,0,NUM,1\nE,1,NUM,1\n", 10_000);
    assert_entry_refuses(b"E,0,NUM,1\nE,1,NUM,2\nE,2,APP,0,1\n", 21_002);
    assert_entry_refuses(b"E,0,ENC,FHE,1\nE,1,ENC,AH,2\nE,2,OP,ADD,0,1\n", 22_002);
    assert_entry_refuses(b"E,0,ENC,MH,1\nE,1,ENC,MH,2\nE,2,OP,ADD,0,1\n", 23_002);
    assert_entry_refuses(b"T,0,INT\nP,0,AH,0,MH\nE,0,VAR,0\nE,1,LAM,0,0\n", 24_000);
    assert_entry_refuses(b"T,0,INT\nP,0,AH,0,G0\nE,0,VAR,0\nE,1,LAM,0,0\n", 1_002);
    assert_entry_accepts(b"E,0,ENC,MH,1", b"OK,0,1\nE,0,MH,INT\n");
    assert_entry_accepts(
        b"E,0,NUM,1\nE,1,ENC,AH,2\nE,2,OP,ADD,0,1\n",
        b"OK,0,3\nE,0,AH,INT\nE,1,AH,INT\nE,2,AH,INT\n",
    );
    for floor in ["FHE", "AH", "ah"] {
        assert_entry_accepts(
            format!("T,0,INT\nP,0,AH,0,{floor}\nE,0,VAR,0\nE,1,LAM,0,0\n").as_bytes(),
            b"OK,1,2\nP,0,AH,INT\nE,0,AH,INT\nE,1,PLAIN,ARROW\n",
        );
    }
}

#[test]
fn the_entry_names_the_last_possible_parameter() {
    let mut lines = String::from("T,0,INT E,0,NUM,1");
    for own in 0..64 {
        let floor = if own == 63 { "RAND" } else { "AH" };
        lines += &format!(" P,{own},AH,0,{floor} E,{},LAM,{own},{own}", own + 1);
    }
    assert_entry_refuses(&text(&lines), 24_063);
    assert_eq!(place(&text(&lines)), b"NO,24,63\n");
}

#[test]
fn the_entry_names_the_last_possible_line_and_row() {
    let mut lines: Vec<String> = (0..64).map(|row| format!("T,{row},INT")).collect();
    lines.extend((0..64).map(|parameter| format!("P,{parameter},AH,0")));
    lines.extend((0..257).map(|row| format!("E,{row},NUM,1")));
    assert_entry_refuses(&text(&lines.join(" ")), 3_385);
    // 127 numbers, 126 sums and a LAM are 254 rows; the last row applies a number to the LAM.
    let mut lines = String::from("T,0,INT P,0,AH,0 E,0,NUM,1");
    for sum in 0..126 {
        let row = 2 * sum + 1;
        lines += &format!(" E,{row},NUM,1 E,{},OP,ADD,{},{row}", row + 1, row - 1);
    }
    lines += " E,253,LAM,0,252 E,254,NUM,1 E,255,APP,254,253";
    assert_entry_refuses(&text(&lines), 21_255);
    assert_eq!(place(&text(&lines)), b"NO,21,255\n");
}
