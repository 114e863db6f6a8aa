//! Programs under scheme files of owners, with reports and refusals worked out by hand.

mod common;

use common::{assert_refused_under, assert_report_under, text};
use second::place::inferred;
use second::schemes::SIX_FILE;
use second::to_try;
use second::{entry_under, Table};

/// Sums or products, but no scheme for both, and none for a comparison.
const SUM_OR_PRODUCT: &str = "S,R,00000 S,A,10000 S,M,01000";

/// Each operation has a scheme of its own; two schemes support several, and the first is the greatest.
const EIGHT: &str = "S,NONE,00000 S,SUM,10000 S,PROD,01000 S,SAME,00100 S,LESS,00010 S,MORE,00001
    S,ARITH,11000 S,ALL,11111";

/// The file of the six, as it is written from document 01: OP supports EQ too, as it is below DET.
const SIX: &str = "S,FHE,11111 S,OP,00111 S,DET,00100 S,MH,01000 S,AH,10000 S,RAND,00000";

/// An operation on x and x under a LAM, with these fields of the P line from the qualifier on.
fn x_and_x(declared: &str, operation: &str) -> String {
    format!("T,0,ANY P,0,{declared} E,0,VAR,0 E,1,VAR,0 E,2,OP,{operation},0,1 E,3,LAM,0,2")
}

/// The same, and an operation on its result and x.
fn x_and_x_and_x(declared: &str, first: &str, second: &str) -> String {
    format!(
        "T,0,ANY P,0,{declared} E,0,VAR,0 E,1,VAR,0 E,2,OP,{first},0,1 E,3,VAR,0
         E,4,OP,{second},2,3 E,5,LAM,0,4"
    )
}

/// The report of a program of one parameter, declared g0 or as a word, in which all integers but the result have one word.
fn report(variable: &str, word: &str, operands: usize, result: &str) -> String {
    let rows: String = (0..operands).map(|row| format!(" E,{row},{word},INT")).collect();
    let last = operands + 1;
    format!(
        "OK,1,{} {variable} P,0,{word},INT {rows} E,{operands},{result},INT E,{last},PLAIN,ARROW",
        operands + 2
    )
}

/// Asserts the greatest word of x in an operation on x and x, for each operation.
fn assert_words(file: &str, words: [&str; 5]) {
    for (operation, word) in ["ADD", "MUL", "EQ", "LT", "GT"].into_iter().zip(words) {
        let result = if ["ADD", "MUL"].contains(&operation) { word } else { "PLAIN" };
        let expected = report(&format!("G,0,{word}"), word, 2, result);
        assert_report_under(file, &x_and_x("g0,0", operation), &expected);
    }
}

#[test]
fn each_operation_gives_its_highest_scheme() {
    // What no scheme supports leaves PLAIN.
    assert_words(SUM_OR_PRODUCT, ["A", "M", "PLAIN", "PLAIN", "PLAIN"]);
    assert_words(EIGHT, ["SUM", "PROD", "SAME", "LESS", "MORE"]);
    assert_words("S,R,00000", ["PLAIN"; 5]);
    assert_words("S,F,11111", ["F"; 5]);
    assert_words("S,E,00100", ["PLAIN", "PLAIN", "E", "PLAIN", "PLAIN"]);
    // The greatest scheme supports EQ; ALL is the only one for MUL and GT.
    assert_words(
        "S,ALL,11111 S,EQ,00100 S,ADD,10100 S,LT,00110",
        ["ADD", "ALL", "EQ", "LT", "ALL"],
    );
    assert_words(SIX, ["AH", "MH", "DET", "OP", "OP"]);
}

#[test]
fn two_operations_give_the_greatest_lower_bound() {
    let cases = [
        // A supports no product and M no sum, and no scheme is below both: only PLAIN is left.
        (SUM_OR_PRODUCT, "ADD", "MUL", "PLAIN"),
        (SUM_OR_PRODUCT, "ADD", "ADD", "A"),
        (SUM_OR_PRODUCT, "MUL", "EQ", "PLAIN"),
        // ARITH is above ALL, and both are below SUM and PROD.
        (EIGHT, "ADD", "MUL", "ARITH"),
        (EIGHT, "MUL", "ADD", "ARITH"),
        (EIGHT, "ADD", "LT", "ALL"),
        (EIGHT, "MUL", "EQ", "ALL"),
        (EIGHT, "MUL", "MUL", "PROD"),
        ("S,F,11111 S,R,00000 S,A,10000 S,M,01000", "ADD", "MUL", "F"),
        ("S,LOW,11000 S,ADD,10000", "ADD", "MUL", "LOW"),
        ("S,LOW,11000 S,ADD,10000", "ADD", "ADD", "ADD"),
        ("S,LOW,11000 S,ADD,10000", "ADD", "GT", "PLAIN"),
    ];
    for (file, first, second, word) in cases {
        let result = if ["ADD", "MUL"].contains(&second) { word } else { "PLAIN" };
        let expected = report(&format!("G,0,{word}"), word, 4, result);
        assert_report_under(file, &x_and_x_and_x("g0,0", first, second), &expected);
    }
}

#[test]
fn without_an_operation_the_greatest_scheme_is_reported() {
    for (file, greatest) in [
        (SUM_OR_PRODUCT, "R"),
        (EIGHT, "NONE"),
        ("S,E,00100", "E"),
        ("S,F,11111", "F"),
        // It is no matter where it stands, or whether it supports something.
        ("S,ALL,11111 S,EQ,00100 S,ADD,10100", "EQ"),
        ("S,FHE,00000 S,RAND,11111", "FHE"),
    ] {
        assert_report_under(file, "E,0,NUM,1", &format!("OK,0,1 E,0,{greatest},INT"));
        assert_report_under(
            file,
            "T,0,ANY P,0,g5,0 E,0,VAR,0 E,1,LAM,0,0",
            &format!("OK,1,2 G,5,{greatest} P,0,{greatest},ANY E,0,{greatest},ANY E,1,PLAIN,ARROW"),
        );
        // The function is PLAIN; its argument and its result are tied to nothing.
        assert_report_under(
            file,
            "T,0,ANY P,0,g0,0 E,0,VAR,0 E,1,NUM,3 E,2,APP,0,1 E,3,LAM,0,2",
            &format!(
                "OK,1,4 G,0,PLAIN P,0,PLAIN,ARROW E,0,PLAIN,ARROW E,1,{greatest},INT
                 E,2,{greatest},ANY E,3,PLAIN,ARROW"
            ),
        );
    }
}

#[test]
fn declared_words_support_what_their_bits_say() {
    // For each word of EIGHT, whether it is at or below the highest scheme of ADD, MUL, EQ, LT and GT.
    let supported = [
        ("PLAIN", [true; 5]),
        ("NONE", [false; 5]),
        ("SUM", [true, false, false, false, false]),
        ("PROD", [false, true, false, false, false]),
        ("SAME", [false, false, true, false, false]),
        ("LESS", [false, false, false, true, false]),
        ("MORE", [false, false, false, false, true]),
        ("ARITH", [true, true, false, false, false]),
        ("ALL", [true; 5]),
    ];
    for (word, supports) in supported {
        for (operation, is_supported) in ["ADD", "MUL", "EQ", "LT", "GT"].into_iter().zip(supports)
        {
            let program = x_and_x(&format!("{word},0"), operation);
            let result = if ["ADD", "MUL"].contains(&operation) { word } else { "PLAIN" };
            match is_supported {
                true => assert_report_under(EIGHT, &program, &report("", word, 2, result)),
                false => assert_refused_under(EIGHT, &program, 23_002),
            }
        }
    }
}

#[test]
fn no_scheme_is_at_or_below_plain() {
    // Nothing supports EQ, so only PLAIN may be compared: not even a scheme that supports all the rest.
    let file = "S,R,00000 S,ALL,11011";
    assert_refused_under(file, &x_and_x("ALL,0", "EQ"), 23_002);
    assert_refused_under(file, &x_and_x("R,0", "EQ"), 23_002);
    assert_report_under(file, &x_and_x("PLAIN,0", "EQ"), &report("", "PLAIN", 2, "PLAIN"));
    assert_refused_under(file, "E,0,ENC,ALL,1 E,1,NUM,2 E,2,OP,EQ,0,1", 23_002);
    assert_report_under(
        file,
        "E,0,NUM,1 E,1,NUM,2 E,2,OP,EQ,0,1",
        "OK,0,3 E,0,PLAIN,INT E,1,PLAIN,INT E,2,PLAIN,INT",
    );
}

#[test]
fn refusals_without_a_typing_keep_their_order() {
    let file = SUM_OR_PRODUCT;
    let two = |one: &str, other: &str| {
        format!(
            "T,0,ANY T,1,ANY P,0,{one},0 P,1,{other},1 E,0,VAR,0 E,1,VAR,1 E,2,OP,ADD,0,1
             E,3,LAM,1,2 E,4,LAM,0,3"
        )
    };
    assert_refused_under(file, &two("A", "M"), 22_002);
    assert_refused_under(file, &two("R", "R"), 23_002);
    // M supports no sum, and is not R: two constants come before the bound.
    assert_refused_under(file, &two("M", "R"), 22_002);
    assert_refused_under(file, &two("g0", "M"), 23_002);
    assert_refused_under(file, "E,0,NUM,1 E,1,NUM,2 E,2,APP,0,1", 21_002);
    // A result of a comparison is PLAIN, and A is not.
    assert_refused_under(
        file,
        "E,0,NUM,1 E,1,NUM,2 E,2,OP,LT,0,1 E,3,ENC,A,1 E,4,OP,ADD,2,3",
        22_004,
    );
}

#[test]
fn lines_with_words_of_other_files_are_refused() {
    assert_refused_under(SUM_OR_PRODUCT, "T,0,INT P,0,AH,0", 1_002);
    assert_refused_under(SUM_OR_PRODUCT, "T,0,INT P,0,g0,0,RAND", 1_002);
    assert_refused_under(SUM_OR_PRODUCT, "T,0,INT T,1,ARROW,FHE,0,g0,0", 1_002);
    assert_refused_under(SUM_OR_PRODUCT, "E,0,NUM,1 E,1,ENC,MH,1", 1_002);
    assert_refused_under(SUM_OR_PRODUCT, "E,0,ENC,plain,1", 1_001);
    assert_refused_under(SIX, "T,0,INT P,0,A,0", 1_002);
}

#[test]
fn floors_follow_the_file() {
    // Each floor of EIGHT with the words at or above it.
    let met_by: [(&str, &[&str]); 9] = [
        ("PLAIN", &["PLAIN", "NONE", "SUM", "PROD", "SAME", "LESS", "MORE", "ARITH", "ALL"]),
        ("NONE", &["NONE"]),
        ("SUM", &["NONE", "SUM"]),
        ("PROD", &["NONE", "PROD"]),
        ("SAME", &["NONE", "SAME"]),
        ("LESS", &["NONE", "LESS"]),
        ("MORE", &["NONE", "MORE"]),
        ("ARITH", &["NONE", "SUM", "PROD", "ARITH"]),
        ("ALL", &["NONE", "SUM", "PROD", "SAME", "LESS", "MORE", "ARITH", "ALL"]),
    ];
    for (floor, words) in met_by {
        for (word, _) in met_by {
            let program = format!("T,0,INT P,0,{word},0,{floor} E,0,VAR,0 E,1,LAM,0,0");
            let accepted = format!("OK,1,2 P,0,{word},INT E,0,{word},INT E,1,PLAIN,ARROW");
            match words.contains(&word) {
                true => assert_report_under(EIGHT, &program, &accepted),
                false => assert_refused_under(EIGHT, &program, 24_000),
            }
        }
    }
}

#[test]
fn a_floor_is_missed_where_only_plain_is_left() {
    // Every scheme is above PLAIN, which is all that a sum and a product leave.
    for floor in ["R", "A", "M"] {
        let program = x_and_x_and_x(&format!("g0,0,{floor}"), "ADD", "MUL");
        assert_refused_under(SUM_OR_PRODUCT, &program, 24_000);
    }
    let program = x_and_x_and_x("g0,0,PLAIN", "ADD", "MUL");
    let expected = report("G,0,PLAIN", "PLAIN", 4, "PLAIN");
    assert_report_under(SUM_OR_PRODUCT, &program, &expected);
    // x + x alone has A, which is at or above A and PLAIN only.
    for (floor, returns) in [("R", 24_000), ("M", 24_000)] {
        assert_refused_under(SUM_OR_PRODUCT, &x_and_x(&format!("g0,0,{floor}"), "ADD"), returns);
    }
    let expected = report("G,0,A", "A", 2, "A");
    assert_report_under(SUM_OR_PRODUCT, &x_and_x("g0,0,a", "ADD"), &expected);
}

#[test]
fn names_that_are_other_words_stand_in_lines_and_reports() {
    // OP supports the comparison of x with a number of OP; y is G and z is INT by their lines.
    assert_report_under(
        "S,G,00000 S,OP,00111 S,INT,10000",
        "T,0,INT P,0,g0,0,op P,1,g,0 P,2,Int,0,INT E,0,VAR,0 E,1,ENC,oP,5 E,2,OP,LT,0,1
         E,3,LAM,0,2 E,4,LAM,1,3 E,5,LAM,2,4",
        "OK,3,6 G,0,OP P,0,OP,INT P,1,G,INT P,2,INT,INT E,0,OP,INT E,1,OP,INT E,2,PLAIN,INT
         E,3,PLAIN,ARROW E,4,PLAIN,ARROW E,5,PLAIN,ARROW",
    );
    // A scheme named as a row's tag, and one named as a variable's.
    assert_report_under(
        "S,E,00000 S,G,10000",
        "T,0,ANY T,1,ARROW,e,0,g,0 P,0,g7,1 E,0,VAR,0 E,1,NUM,4 E,2,APP,0,1 E,3,LAM,0,2",
        "OK,1,4 G,7,PLAIN P,0,PLAIN,ARROW E,0,PLAIN,ARROW E,1,E,INT E,2,G,INT E,3,PLAIN,ARROW",
    );
}

#[test]
fn a_redeclaration_gives_the_word_of_its_code() {
    let (mut table, _) = Table::fresh_under(&text(SUM_OR_PRODUCT));
    for line in x_and_x("g0,0,A", "ADD").split_whitespace() {
        assert_eq!(table.add(line.as_bytes()), 0);
    }
    // PLAIN is below the floor A; R and M support no sum; the codes 4 and 67 are g0 and g63.
    for (code, expected) in [
        (0, "NO,24,0".to_string()),
        (1, "NO,23,2".to_string()),
        (2, report("", "A", 2, "A")),
        (3, "NO,23,2".to_string()),
        (4, report("G,0,A", "A", 2, "A")),
        (67, report("G,63,A", "A", 2, "A")),
    ] {
        assert_eq!(table.redeclare(0, code), 0);
        assert_eq!(inferred(&table), text(&expected), "for the code {code}");
    }
    assert_eq!(table.redeclare(0, 68), 12);
}

#[test]
fn the_file_of_the_six_is_the_one_by_hand() {
    assert_eq!(text(SIX), SIX_FILE);
}

#[test]
fn each_program_to_try_is_answered_so_under_the_file_of_the_six() {
    for program in to_try::all() {
        let mut buffer = [0x5A; 6280];
        let returned = entry_under(&text(SIX), &program.text, &mut buffer);
        assert_eq!(returned, program.returns, "{}", program.about);
        let report = program.report().unwrap_or(b"");
        assert!(buffer.starts_with(report), "{}", program.about);
        assert!(buffer[report.len()..].iter().all(|&byte| byte == 0x5A), "{}", program.about);
    }
}
