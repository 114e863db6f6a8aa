//! Floors: 24 with the lowest parameter whose word is not at or above its floor, after all other refusals.

mod common;

use common::{add_all, assert_inferred, assert_prints, table, text};
use second::generate::{closed_program, program_with_floors, text_of_table, Random};
use second::place::inferred;
use second::qualifier::Qualifier;
use second::schemes::PLAIN;
use second::typing::judge;
use second::{place, Answer, Table};

/// The seven words with the words at or above each, made by hand.
const AT_OR_ABOVE: [(&str, &[&str]); 7] = [
    ("PLAIN", &["PLAIN", "FHE", "OP", "DET", "MH", "AH", "RAND"]),
    ("FHE", &["FHE", "OP", "DET", "MH", "AH", "RAND"]),
    ("OP", &["OP", "DET", "RAND"]),
    ("DET", &["DET", "RAND"]),
    ("MH", &["MH", "RAND"]),
    ("AH", &["AH", "RAND"]),
    ("RAND", &["RAND"]),
];

/// x + x under a LAM, with these fields of the P line from the qualifier on.
fn sum(declared: &str) -> String {
    format!("T,0,ANY P,0,{declared} E,0,VAR,0 E,1,VAR,0 E,2,OP,ADD,0,1 E,3,LAM,0,2")
}

/// A number under LAMs of parameters that are used nowhere, each with these fields from the qualifier on.
fn unused(declared: &[&str]) -> String {
    let mut lines = String::from("T,0,INT E,0,NUM,1");
    for (own, fields) in declared.iter().enumerate() {
        lines += &format!(" P,{own},{fields} E,{},LAM,{own},{own}", own + 1);
    }
    lines
}

/// Asserts that an inference is refused with this number and place, and that it leaves the buffer as it was.
fn assert_refusal(table: &Table, number: u32, row: u32) {
    for length in [6280, 7000] {
        let mut buffer = vec![0xA5; length];
        assert_eq!(table.infer(&mut buffer), Answer { number, row, length: 0 });
        assert!(buffer.iter().all(|&byte| byte == 0xA5));
    }
}

/// The same table with every floor PLAIN.
fn without_floors(table: &Table) -> Table {
    let mut without = table.clone();
    without.params.iter_mut().for_each(|parameter| parameter.floor = PLAIN);
    without
}

#[test]
fn each_word_is_tested_against_each_floor() {
    for (floor, met_by) in AT_OR_ABOVE {
        for (word, _) in AT_OR_ABOVE {
            let program = unused(&[&format!("{word},0,{floor}")]);
            let accepted = format!("OK,1,2 P,0,{word},INT E,0,RAND,INT E,1,PLAIN,ARROW");
            let met = met_by.contains(&word);
            assert_prints(&program, if met { &accepted } else { "NO,24,0" });
        }
    }
}

#[test]
fn the_word_of_a_variable_is_tested_too() {
    // x + x gives x the word AH.
    for (floor, met_by) in AT_OR_ABOVE {
        let accepted = "OK,1,4 G,5,AH P,0,AH,INT E,0,AH,INT E,1,AH,INT E,2,AH,INT E,3,PLAIN,ARROW";
        let met = met_by.contains(&"AH");
        assert_prints(&sum(&format!("g5,0,{floor}")), if met { accepted } else { "NO,24,0" });
    }
}

#[test]
fn the_greatest_typing_counts_and_no_lower_one() {
    // Some typings give x PLAIN or FHE, but one gives it AH.
    assert_prints(
        &sum("g0,0,AH"),
        "OK,1,4 G,0,AH P,0,AH,INT E,0,AH,INT E,1,AH,INT E,2,AH,INT E,3,PLAIN,ARROW",
    );
    // The comparison forces PLAIN on x, and with it on y.
    assert_prints(
        "T,0,INT P,0,g0,0,PLAIN P,1,g1,0,FHE
         E,0,VAR,0 E,1,NUM,1 E,2,NUM,2 E,3,OP,LT,1,2 E,4,OP,ADD,0,3 E,5,VAR,1
         E,6,OP,MUL,4,5 E,7,LAM,0,6 E,8,LAM,1,7",
        "NO,24,1",
    );
    // A number forces nothing: the sum and the product leave FHE to all of them.
    assert_prints(
        "T,0,INT P,0,g0,0,PLAIN P,1,g1,0,FHE E,0,VAR,0 E,1,NUM,1 E,2,OP,ADD,0,1 E,3,VAR,1
         E,4,OP,MUL,2,3 E,5,LAM,0,4 E,6,LAM,1,5",
        "OK,2,7 G,0,FHE G,1,FHE P,0,FHE,INT P,1,FHE,INT E,0,FHE,INT E,1,FHE,INT E,2,FHE,INT
         E,3,FHE,INT E,4,FHE,INT E,5,PLAIN,ARROW E,6,PLAIN,ARROW",
    );
}

#[test]
fn four_fields_mean_plain() {
    for word in ["PLAIN", "FHE", "OP", "DET", "MH", "AH", "RAND", "g0"] {
        let report = place(&text(&unused(&[&format!("{word},0")])));
        assert!(report.starts_with(b"OK,1,2\n"));
        assert_eq!(report, place(&text(&unused(&[&format!("{word},0,PLAIN")]))));
    }
}

#[test]
fn a_floor_beside_the_word_is_missed() {
    // Neither of AH and MH, nor of DET and AH, is at or above the other.
    assert_prints(&unused(&["AH,0,MH"]), "NO,24,0");
    assert_prints(&unused(&["MH,0,AH"]), "NO,24,0");
    assert_prints(&unused(&["DET,0,AH"]), "NO,24,0");
    assert_prints(&unused(&["AH,0,OP"]), "NO,24,0");
    assert_prints(&sum("g0,0,MH"), "NO,24,0");
}

#[test]
fn the_lowest_parameter_is_named() {
    assert_prints(&unused(&["AH,0", "AH,0,AH", "FHE,0,RAND", "PLAIN,0,FHE"]), "NO,24,2");
    assert_prints(&unused(&["AH,0", "AH,0,MH", "FHE,0,RAND", "PLAIN,0,FHE"]), "NO,24,1");
    assert_prints(&unused(&["AH,0,RAND", "AH,0", "FHE,0,FHE", "PLAIN,0,FHE"]), "NO,24,0");
    assert_prints(&unused(&["g0,0,RAND", "g1,0,AH", "g0,0,DET", "PLAIN,0,FHE"]), "NO,24,3");
    // The order is that of the numbers, not that of the LAMs or of the strength of the floors.
    assert_prints(
        "T,0,INT P,0,AH,0,DET P,1,PLAIN,0,RAND E,0,NUM,1 E,1,LAM,1,0 E,2,LAM,0,1",
        "NO,24,0",
    );
}

#[test]
fn each_parameter_can_be_named() {
    for missed in 0..64 {
        let fields = |own| if own < missed { "g1,0,RAND" } else { "MH,0,AH" };
        let declared: Vec<&str> = (0..64).map(fields).collect();
        assert_prints(&unused(&declared), &format!("NO,24,{missed}"));
    }
}

#[test]
fn no_typing_is_named_before_a_missed_floor() {
    // x is declared PLAIN or weaker than its floor each time.
    assert_prints(
        "T,0,ANY P,0,PLAIN,0,RAND E,0,NUM,1 E,1,NUM,2 E,2,APP,0,1 E,3,LAM,0,2",
        "NO,21,2",
    );
    assert_prints(
        "T,0,ANY T,1,ANY P,0,AH,0,RAND P,1,MH,1,RAND
         E,0,VAR,0 E,1,VAR,1 E,2,OP,ADD,0,1 E,3,LAM,1,2 E,4,LAM,0,3",
        "NO,22,2",
    );
    assert_prints(&sum("DET,0,RAND"), "NO,23,2");
    // The floor of x is met, but x does not support the sum.
    assert_prints(&sum("RAND,0,RAND"), "NO,23,2");
    // With a scheme that supports it, the floor is missed.
    assert_prints(&sum("FHE,0,RAND"), "NO,24,0");
}

#[test]
fn a_short_buffer_and_an_open_program_are_named_before_a_missed_floor() {
    let closed = table(&sum("FHE,0,RAND"));
    for length in [0, 1, 6279] {
        let mut buffer = vec![7; length];
        assert_eq!(closed.infer(&mut buffer), Answer { number: 11, row: 0, length: 0 });
        assert!(buffer.iter().all(|&byte| byte == 7));
    }
    assert_refusal(&closed, 24, 0);
    let mut open = closed.clone();
    assert_eq!(open.take_back(), 0);
    assert_refusal(&open, 10, 0);
    add_all(&mut open, "E,3,LAM,0,2 P,1,PLAIN,0,RAND");
    assert_refusal(&open, 10, 0);
    add_all(&mut open, "E,4,LAM,1,3");
    assert_refusal(&open, 24, 0);
}

#[test]
fn a_missed_floor_leaves_table_and_buffer() {
    let table = table(&unused(&["AH,0,AH", "AH,0,RAND"]));
    let before = table.clone();
    assert_refusal(&table, 24, 1);
    assert_eq!(table, before);
}

#[test]
fn a_redeclaration_misses_and_meets_a_floor() {
    let mut table = table(&sum("g0,0,AH"));
    let constant = "OK,1,4 P,0,AH,INT E,0,AH,INT E,1,AH,INT E,2,AH,INT E,3,PLAIN,ARROW";
    let variable = "OK,1,4 G,0,AH P,0,AH,INT E,0,AH,INT E,1,AH,INT E,2,AH,INT E,3,PLAIN,ARROW";
    assert_inferred(&table, variable);
    // The code, and what is printed with the floor AH that stays.
    let cases = [
        (1, "NO,24,0"),
        (5, constant),
        (0, "NO,24,0"),
        (6, "NO,23,2"),
        (1, "NO,24,0"),
        (4, "NO,23,2"),
        (7, variable),
        (0, "NO,24,0"),
        (5, constant),
    ];
    for (code, expected) in cases {
        assert_eq!(table.redeclare(0, code), 0);
        assert_inferred(&table, expected);
        assert_eq!(table.params[0].floor, Qualifier::Ah.code());
    }
    // Refused redeclarations leave the floor and the qualifier.
    assert_eq!((table.redeclare(0, 71), table.redeclare(1, 0)), (12, 5));
    assert_inferred(&table, constant);
}

#[test]
fn a_redeclaration_of_one_parameter_can_miss_the_floor_of_another() {
    // x and y are operands of one sum, so y has the qualifier of x.
    let mut table = table(
        "T,0,INT P,0,g0,0 P,1,g1,0,AH E,0,VAR,0 E,1,VAR,1 E,2,OP,ADD,0,1 E,3,LAM,1,2 E,4,LAM,0,3",
    );
    assert_eq!(table.infer(&mut [0; 6280]).number, 0);
    assert_eq!(table.redeclare(0, 1), 0);
    assert_refusal(&table, 24, 1);
    assert_eq!(table.redeclare(0, 5), 0);
    assert_eq!(table.infer(&mut [0; 6280]).number, 0);
}

#[test]
fn a_row_taken_back_can_meet_a_floor() {
    // The product limits x to FHE.
    let mut table = table(
        "T,0,ANY P,0,g0,0,OP E,0,VAR,0 E,1,VAR,0 E,2,OP,ADD,0,1 E,3,VAR,0 E,4,OP,MUL,2,3
         E,5,LAM,0,4",
    );
    assert_refusal(&table, 24, 0);
    for _ in 0..4 {
        assert_eq!(table.take_back(), 0);
    }
    add_all(&mut table, "E,2,OP,LT,0,1 E,3,LAM,0,2");
    assert_eq!(table.infer(&mut [0; 6280]).number, 0);
    assert_eq!((table.take_back(), table.take_back()), (0, 0));
    add_all(&mut table, "E,2,OP,MUL,0,1 E,3,LAM,0,2");
    assert_refusal(&table, 24, 0);
}

#[test]
fn met_floors_change_no_byte_of_a_report() {
    let mut random = Random::seeded(41);
    let mut accepted = 0;
    for _ in 0..600 {
        let rows = random.between(1, 120);
        let table = program_with_floors(&mut random, rows).table();
        let without = without_floors(&table);
        let (answer, expected) = (inferred(&table), inferred(&without));
        if answer.starts_with(b"NO,24,") {
            assert!(expected.starts_with(b"OK,"));
        } else {
            // Refusals with other numbers are the same too.
            assert_eq!(answer, expected);
            accepted += usize::from(table != without && answer.starts_with(b"OK,"));
        }
    }
    assert!(accepted > 60, "{accepted} programs with floors were accepted only");
}

#[test]
fn each_floor_alone_decides_for_its_parameter() {
    // In an accepted program, every floor is tried at every parameter while all others are PLAIN.
    let mut random = Random::seeded(42);
    let (mut met, mut missed) = (0, 0);
    for _ in 0..40 {
        let mut table = closed_program(&mut random, 30).table();
        let Ok(judgement) = judge(&table) else {
            continue;
        };
        let report = inferred(&table);
        for (own, slot) in judgement.params.iter().enumerate() {
            for (floor, (_, met_by)) in Qualifier::ALL.into_iter().zip(AT_OR_ABOVE) {
                table.params[own].floor = floor.code();
                if met_by.contains(&table.schemes().word(slot.word)) {
                    assert_eq!(inferred(&table), report);
                    met += 1;
                } else {
                    assert_inferred(&table, &format!("NO,24,{own}"));
                    missed += 1;
                }
            }
            table.params[own].floor = PLAIN;
        }
    }
    assert!(met > 200 && missed > 200, "{met} {missed}");
}

#[test]
fn the_text_of_a_table_has_its_floors() {
    let table = table("T,0,INT P,0,AH,0 P,1,g0,0,PLAIN P,2,g63,0,RAND");
    assert_eq!(text_of_table(&table), b"T,0,INT\nP,0,AH,0\nP,1,g0,0\nP,2,g63,0,RAND\n");
}
