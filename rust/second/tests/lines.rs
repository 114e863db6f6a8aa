//! The forms of lines and their limits.

mod common;

use common::{assert_prints, assert_unread};
use second::generate::WRONG_FLOORS;
use second::line::read;
use second::operation::Operation;
use second::qualifier::Qualifier;
use second::rows::{Entry, Parameter, QualifiedRow, Term, TypeRow};
use second::{place, Table};

/// The qualifier code of a parameter's line, if the line has the form.
fn code(qualifier: &str) -> Option<u8> {
    match read(format!("P,0,{qualifier},0").as_bytes()) {
        Some(Entry::P(0, parameter)) => Some(parameter.qualifier),
        _ => None,
    }
}

#[test]
fn type_rows_are_read() {
    assert_eq!(read(b"T,0,INT"), Some(Entry::T(0, TypeRow::Int)));
    assert_eq!(read(b"T,65535,ANY"), Some(Entry::T(65535, TypeRow::Any)));
    let arrow = TypeRow::Arrow {
        argument: QualifiedRow { qualifier: 0, type_row: 1 },
        result: QualifiedRow { qualifier: 70, type_row: 65535 },
    };
    assert_eq!(read(b"T,2,ARROW,PLAIN,1,g63,65535"), Some(Entry::T(2, arrow)));
}

#[test]
fn parameters_are_read() {
    let parameter = Parameter { qualifier: 6, type_row: 9, floor: Qualifier::Plain.code() };
    assert_eq!(read(b"P,3,RAND,9"), Some(Entry::P(3, parameter)));
    let floor = Qualifier::Det.code();
    let parameter = Parameter { qualifier: 70, type_row: 65535, floor };
    assert_eq!(read(b"P,65535,g63,65535,DET"), Some(Entry::P(65535, parameter)));
}

#[test]
fn a_floor_is_one_of_the_seven_words() {
    let words = ["PLAIN", "FHE", "OP", "DET", "MH", "AH", "RAND"];
    for (expected, word) in (0..).zip(words) {
        for (code, qualifier) in (0..).zip(words) {
            let line = format!("P,1,{qualifier},2,{word}");
            let Some(Entry::P(1, parameter)) = read(line.as_bytes()) else {
                panic!("{line} is not read");
            };
            assert_eq!(parameter.floor, expected);
            assert_eq!(parameter.declared(), QualifiedRow { qualifier: code, type_row: 2 });
        }
    }
    assert_eq!(read(b"P,1,g7,2"), read(b"P,1,g7,2,PLAIN"));
    assert_ne!(read(b"P,1,g7,2"), read(b"P,1,g7,2,FHE"));
}

#[test]
fn other_floors_are_not_read() {
    assert_unread(&["P,0,g0,0,g0", "P,0,g0,0,g63", "P,0,g0,0,", "P,0,g0,0,G0", "P,0,g0,0,gt"]);
    assert_unread(&["P,0,g0,0,AH,", "P,0,g0,0,AH,AH", "P,0,g0,0,PLAIN,0", "P,0,g0,0,,AH"]);
    assert_unread(&["P,0,g0,0,0", "P,0,g0,0,5", "P,0,g0,0,INT", "P,0,g0,0,ADD", "P,0,g0,0,ANY"]);
    assert_unread(&["P,0,g0,0,AH ", "P,0,g0,0, AH", "P,0,g0,0,AH\r", "P,0,g0,0,AHH", "P,0,g0,0,A"]);
    // A floor follows the type row and nothing else, and only a P line has one.
    assert_unread(&["P,0,g0,AH,0", "P,0,AH,g0,0", "P,0,AH,AH", "P,0,AH,0,00", "P,AH,g0,0"]);
    assert_unread(&["T,0,INT,AH", "T,0,ANY,PLAIN", "E,0,VAR,0,AH", "E,1,LAM,0,0,AH"]);
    for wrong in WRONG_FLOORS {
        assert_unread(&[&format!("P,0,g0,0,{wrong}")]);
    }
}

#[test]
fn a_line_with_another_floor_is_refused_with_1() {
    // 1 comes before 2 and 4: the own number is not the next, and there is no type row.
    assert_eq!(Table::fresh().add(b"P,7,g0,9,g0"), 1);
    assert_eq!(Table::fresh().add(b"P,7,g0,9,AH"), 2);
    assert_eq!(Table::fresh().add(b"P,0,g0,9,AH"), 4);
    assert_prints("T,0,INT P,0,g0,0,G0", "X,1,2");
}

#[test]
fn term_rows_are_read() {
    let lambda = Term::Lambda { parameter: 2, body: 3 };
    assert_eq!(read(b"E,1,LAM,2,3"), Some(Entry::E(1, lambda)));
    let apply = Term::Apply { function: 2, argument: 3 };
    assert_eq!(read(b"E,1,APP,2,3"), Some(Entry::E(1, apply)));
    let operate = Term::Operate { operation: Operation::Gt, left: 2, right: 3 };
    assert_eq!(read(b"E,1,OP,GT,2,3"), Some(Entry::E(1, operate)));
    let variable = Term::Variable { parameter: 2 };
    assert_eq!(read(b"E,1,VAR,2"), Some(Entry::E(1, variable)));
    let number = Term::Number { value: 4294967295 };
    assert_eq!(read(b"E,1,NUM,4294967295"), Some(Entry::E(1, number)));
    let encrypted = Term::Encrypted { scheme: Qualifier::Fhe.code(), value: 0 };
    assert_eq!(read(b"E,1,ENC,FHE,0"), Some(Entry::E(1, encrypted)));
}

#[test]
fn qualifiers_have_the_codes_0_to_70() {
    let words = ["PLAIN", "FHE", "OP", "DET", "MH", "AH", "RAND"];
    for (expected, word) in (0..).zip(words) {
        assert_eq!(code(word), Some(expected));
    }
    for variable in 0..64 {
        assert_eq!(code(&format!("g{variable}")), Some(7 + variable));
    }
    for wrong in ["g64", "g00", "g01", "g", "G0", "g-1", "g256", "gt", "RANDO", "rando", "", "0"] {
        assert_eq!(code(wrong), None, "for the qualifier {wrong:?}");
    }
}

#[test]
fn operations_have_the_codes_0_to_4() {
    for (expected, word) in (0..).zip(["ADD", "MUL", "EQ", "LT", "GT"]) {
        let line = format!("E,2,OP,{word},0,1");
        let Some(Entry::E(2, Term::Operate { operation, .. })) = read(line.as_bytes()) else {
            panic!("{word} is not read");
        };
        assert_eq!(operation.code(), expected);
    }
    assert_unread(&["E,2,OP,SUB,0,1", "E,2,OP,sub,0,1", "E,2,OP,,0,1", "E,2,OP,0,0,1"]);
}

#[test]
fn only_the_six_schemes_encrypt() {
    for (expected, word) in (1..).zip(["FHE", "OP", "DET", "MH", "AH", "RAND"]) {
        let line = format!("E,0,ENC,{word},5");
        let Some(Entry::E(0, Term::Encrypted { scheme, value: 5 })) = read(line.as_bytes()) else {
            panic!("{word} is not read");
        };
        assert_eq!(scheme, expected);
    }
    assert_unread(&["E,0,ENC,PLAIN,5", "E,0,ENC,g0,5", "E,0,ENC,NUM,5", "E,0,ENC,,5"]);
}

#[test]
fn numbers_have_their_limits() {
    assert!(read(b"T,65535,INT").is_some());
    assert!(read(b"P,65535,AH,65535").is_some());
    assert!(read(b"P,65535,AH,65535,AH").is_some());
    assert!(read(b"E,65535,LAM,65535,65535").is_some());
    assert!(read(b"E,0,NUM,0").is_some());
    assert!(read(b"E,0,ENC,AH,4294967295").is_some());
    assert_unread(&["T,65536,INT", "T,1,ARROW,AH,65536,AH,0", "T,1,ARROW,AH,0,AH,65536"]);
    assert_unread(&["P,65536,AH,0", "P,0,AH,65536", "E,65536,NUM,1", "E,0,VAR,65536"]);
    assert_unread(&["P,65536,AH,0,AH", "P,0,AH,65536,AH"]);
    assert_unread(&["E,0,LAM,65536,0", "E,0,LAM,0,65536", "E,0,APP,65536,0", "E,0,APP,0,65536"]);
    assert_unread(&["E,0,OP,ADD,65536,0", "E,0,OP,ADD,0,65536", "E,0,ENC,AH,4294967296"]);
    assert_unread(&["E,0,NUM,4294967296", "E,0,NUM,42949672950", "E,0,NUM,9999999999"]);
    assert_unread(&["E,0,NUM,18446744073709551616", "T,4294967296,INT"]);
    assert_unread(&["E,0,NUM,99999999999999999999999999999999999999999999999"]);
}

#[test]
fn numbers_have_no_leading_zeros_or_signs() {
    assert_unread(&["T,00,INT", "T,01,INT", "P,0,AH,00", "E,0,NUM,00", "E,0,NUM,01"]);
    assert_unread(&["E,0,VAR,01", "E,1,APP,00,1", "E,00,NUM,1", "E,0,ENC,AH,00"]);
    assert_unread(&["T,-0,INT", "T,+0,INT", "E,0,NUM,-1", "E,0,NUM,+1", "E,0,NUM,1.0"]);
    assert_unread(&["E,0,NUM,", "E,,NUM,1", "E,0,NUM,0x1", "E,0,NUM,1e3", "E,0,NUM,\u{661}"]);
}

#[test]
fn other_forms_are_not_read() {
    assert_unread(&["", ",", "T", "T,", "T,0", "T,0,", "T,0,INT,", "T,0,INT,0", ",T,0,INT"]);
    assert_unread(&["X,0,INT", "t,0,INT", "TT,0,INT", "T,0,BOOL", "T,0,bool", "T,0,T"]);
    assert_unread(&[
        "T,1,ARROW", "T,1,ARROW,AH,0,AH", "T,1,ARROW,AH,0,AH,0,0", "T,1,ARROW,0,AH,0,AH",
    ]);
    assert_unread(&["P,0,AH", "P,0,AH,0,0", "P,0,0,AH", "p,0,AH,0", "P,0,,0"]);
    assert_unread(&["E,0,VAR", "E,0,VAR,0,0", "E,0,LAM,0", "E,0,LAM,0,0,0", "E,0,APP,0"]);
    assert_unread(&["E,0,APP,0,0,0", "E,0,OP,ADD,0", "E,0,OP,ADD,0,0,0", "E,0,NUM,1,1"]);
    assert_unread(&["E,0,ENC,AH", "E,0,ENC,AH,1,1", "E,0,foo,1", "e,0,NUM,1", "E,0,FOO,1"]);
    assert_unread(&["T,0,INT\r", " T,0,INT", "T,0,INT ", "T, 0,INT", "T,0,INT\n", "T;0;INT"]);
    assert_eq!(read(b"T,0,INT\0"), None);
    assert_eq!(read(&[0xff, 0xfe, b',']), None);
}

#[test]
fn long_lines_are_refused() {
    for length in [64, 65, 66, 1000] {
        let line = vec![b'0'; length];
        assert_eq!(Table::fresh().add(&line), 1);
        let mut number = b"E,0,NUM,".to_vec();
        number.resize(length, b'1');
        assert_eq!(Table::fresh().add(&number), 1);
    }
    let longest = "T,10000,ARROW,PLAIN,10000,PLAIN,10000";
    assert_eq!(longest.len(), 37);
    assert!(read(longest.as_bytes()).is_some());
}

#[test]
fn an_empty_line_counts() {
    assert_eq!(place(b"\n"), b"X,1,1\n");
    assert_eq!(place(b"E,0,NUM,1\n\n"), b"X,1,2\n");
    assert_eq!(place(b"\nE,0,NUM,1\n"), b"X,1,1\n");
    assert_eq!(place(b"E,0,NUM,1\n\nE,1,NUM,1\n"), b"X,1,2\n");
}

#[test]
fn a_last_line_without_line_feed_counts() {
    assert_eq!(place(b"E,0,NUM,1"), b"OK,0,1\nE,0,RAND,INT\n");
    assert_eq!(place(b"E,0,NUM,1\n"), b"OK,0,1\nE,0,RAND,INT\n");
    assert_eq!(place(b"E,0,NUM,1\nE"), b"X,1,2\n");
    assert_eq!(place(b"E,0,NUM,1\nE,1,NUM,1"), b"NO,10,0\n");
}

#[test]
fn line_ends_are_line_feeds_only() {
    assert_eq!(place(b"E,0,NUM,1\r\n"), b"X,1,1\n");
    assert_eq!(place(b"E,0,NUM,1\rE,1,NUM,1\n"), b"X,1,1\n");
    assert_eq!(place(b"T,0,INT\nT,1,INT\r\n"), b"X,1,2\n");
}
