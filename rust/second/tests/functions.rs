//! Functions cannot be ciphertext: "wherever a qualifier stands with an arrow, in a typing or inside one of its types, it is PLAIN".
//!
//! The programs to try have more of them, each with its whole output.

mod common;

use common::{add_all, assert_inferred, assert_report_under, table};
use second::counts::Counts;
use second::generate::{accepted_file, closed_program_under, functions_under, Random};
use second::rows::{Parameter, QualifiedRow, TypeRow};
use second::schemes::PLAIN;
use second::text::lines;
use second::typing::{
    judge, judge_with_encrypted_functions, judge_without_bounds, Judgement, NoTyping, Shape, Slot,
};
use second::{SchemeTable, Table};

#[test]
fn a_word_that_is_plain_by_a_meet_is_no_scheme() {
    // Only PLAIN is below A and M. It is a scheme that would keep y from being a function.
    assert_report_under(
        "S,R,00000 S,A,10000 S,M,01000",
        "T,0,INT T,1,ANY P,0,g0,0 P,1,g0,1 E,0,VAR,0 E,1,VAR,0 E,2,OP,ADD,0,1 E,3,VAR,0 E,4,VAR,0
         E,5,OP,MUL,3,4 E,6,OP,ADD,2,5 E,7,LAM,0,6 E,8,LAM,1,7",
        "OK,2,9 G,0,PLAIN P,0,PLAIN,INT P,1,PLAIN,ANY E,0,PLAIN,INT E,1,PLAIN,INT E,2,PLAIN,INT
         E,3,PLAIN,INT E,4,PLAIN,INT E,5,PLAIN,INT E,6,PLAIN,INT E,7,PLAIN,ARROW E,8,PLAIN,ARROW",
    );
}

#[test]
fn a_redeclared_function_is_refused_and_accepted_again() {
    let mut table = table("T,0,ANY P,0,g0,0 E,0,VAR,0 E,1,NUM,3 E,2,APP,0,1 E,3,LAM,0,2");
    let rows = "P,0,PLAIN,ARROW E,0,PLAIN,ARROW E,1,RAND,INT E,2,RAND,ANY E,3,PLAIN,ARROW";
    for (code, expected) in [
        (7, format!("OK,1,4 G,0,PLAIN {rows}")),
        (6, "NO,22,2".to_string()),
        (1, "NO,22,2".to_string()),
        (0, format!("OK,1,4 {rows}")),
        (70, format!("OK,1,4 G,63,PLAIN {rows}")),
    ] {
        assert_eq!(table.redeclare(0, code), 0);
        assert_inferred(&table, &expected);
    }
}

#[test]
fn an_application_that_was_taken_back_makes_no_function() {
    let mut table = table("T,0,ANY P,0,RAND,0 E,0,VAR,0 E,1,NUM,3 E,2,APP,0,1 E,3,LAM,0,2");
    assert_inferred(&table, "NO,22,2");
    for _ in 0..3 {
        assert_eq!(table.take_back(), 0);
    }
    add_all(&mut table, "E,1,LAM,0,0");
    assert_inferred(&table, "OK,1,2 P,0,RAND,INT E,0,RAND,INT E,1,PLAIN,ARROW");
}

#[test]
fn a_redeclaration_decides_whether_the_lines_alone_have_a_typing() {
    let mut table = table("T,0,INT T,1,ARROW,AH,0,MH,0 P,0,RAND,1 E,0,NUM,1 E,1,LAM,0,0");
    for (code, expected) in [
        (6, "NO,22,0"),
        (0, "OK,1,2 P,0,PLAIN,ARROW E,0,RAND,INT E,1,PLAIN,ARROW"),
        (1, "NO,22,0"),
        (9, "OK,1,2 G,2,PLAIN P,0,PLAIN,ARROW E,0,RAND,INT E,1,PLAIN,ARROW"),
    ] {
        assert_eq!(table.redeclare(0, code), 0);
        assert_inferred(&table, expected);
    }
}

#[test]
fn lines_without_rows_are_judged_too() {
    let lines = "T,0,INT T,1,ARROW,g0,0,g0,0 T,2,ARROW,g1,1,AH,1";
    assert_eq!(judge(&table(lines)), Err(NoTyping { number: 22, row: 0 }));
    assert!(judge(&table(&lines.replace("AH", "g2"))).is_ok());
}

/// Closed tables under random schemes, about half of them about functions.
fn any_tables(seed: u64, count: usize) -> impl Iterator<Item = Table> {
    let mut random = Random::seeded(seed);
    let any_table = move |_| {
        let schemes = SchemeTable::open(&accepted_file(&mut random)).unwrap();
        if random.one_in(2) {
            return closed_program_under(&mut random, &schemes, 40).table();
        }
        let mut table = Table::fresh_of(schemes.clone());
        for line in lines(&functions_under(&mut random, &schemes)) {
            assert_eq!(table.add(line), 0);
        }
        table
    };
    (0..count).map(any_table)
}

/// The parameters and rows of a judgement.
fn slots(judgement: &Judgement) -> Vec<Slot> {
    judgement.params.iter().chain(&judgement.terms).copied().collect()
}

#[test]
fn reports_are_those_of_fewer_typings() {
    let mut counts = Counts::default();
    for table in any_tables(1, 3_000) {
        let Ok(judgement) = judge(&table) else {
            continue;
        };
        let encrypted = judge_with_encrypted_functions(&table).expect("there are more typings");
        for (slot, other) in slots(&judgement).into_iter().zip(slots(&encrypted)) {
            assert!(table.schemes().at_or_below(slot.word, other.word), "in {table:?}");
            assert!(slot.shape != Shape::Arrow || slot.word == PLAIN, "in {table:?}");
            assert!(other.shape == Shape::Any || other.shape == slot.shape, "in {table:?}");
            counts.add((slot.shape == other.shape, slot.word == other.word));
        }
    }
    counts.assert_each([(true, true), (true, false), (false, true)], 500);
}

#[test]
fn no_parameter_that_is_a_function_can_be_declared_under_a_scheme() {
    let mut counts = Counts::default();
    for table in any_tables(2, 1_000) {
        let Ok(judgement) = judge(&table) else {
            continue;
        };
        let is_function = |own: &usize| judgement.params[*own].shape == Shape::Arrow;
        for own in (0..table.params.len()).filter(is_function) {
            let mut encrypted = table.clone();
            encrypted.params[own].qualifier = table.schemes().greatest();
            assert_eq!(judge_without_bounds(&encrypted), None, "in {encrypted:?}");
            counts.add(judge(&encrypted).expect_err("a function is PLAIN").number);
        }
    }
    // Where the qualifier stands with a number too, a bound may break in a row before.
    assert!(counts.0.keys().all(|number| [22, 23].contains(number)), "{counts:?}");
    counts.assert_each([22], 500);
}

/// The table with INT as its first type row; all others are one higher.
fn with_integer_first(table: &Table) -> Table {
    let mut shifted = table.clone();
    let moved = |row: QualifiedRow| QualifiedRow { type_row: row.type_row + 1, ..row };
    for row in &mut shifted.types {
        if let TypeRow::Arrow { argument, result } = row {
            (*argument, *result) = (moved(*argument), moved(*result));
        }
    }
    shifted.params.iter_mut().for_each(|it| it.type_row += 1);
    shifted.types.insert(0, TypeRow::Int);
    shifted
}

/// Tells whether a table has a typing in which a parameter's ANY row has this type.
fn has_typing_with(table: &Table, parameter: &Parameter, row: TypeRow) -> bool {
    let mut fixed = with_integer_first(table);
    fixed.types[usize::from(parameter.type_row) + 1] = row;
    judge(&fixed).is_ok()
}

#[test]
fn an_unknown_type_has_its_shape_in_some_typing_and_no_other() {
    let integer = QualifiedRow { qualifier: PLAIN, type_row: 0 };
    let arrow = TypeRow::Arrow { argument: integer, result: integer };
    let mut counts = Counts::default();
    for table in any_tables(3, 400) {
        let Ok(judgement) = judge(&table) else {
            continue;
        };
        for (parameter, slot) in table.params.iter().zip(&judgement.params) {
            if table.types[usize::from(parameter.type_row)] != TypeRow::Any {
                continue;
            }
            let is_integer = has_typing_with(&table, parameter, TypeRow::Int);
            assert_eq!(is_integer, slot.shape != Shape::Arrow, "in {table:?}");
            // Not every function takes and gives PLAIN numbers.
            if slot.shape != Shape::Arrow {
                let is_function = has_typing_with(&table, parameter, arrow);
                assert_eq!(is_function, slot.shape == Shape::Any, "in {table:?}");
            }
            let has_scheme = parameter.qualifier != PLAIN
                && parameter.qualifier < table.schemes().first_variable();
            counts.add((format!("{:?}", slot.shape), has_scheme));
        }
    }
    let seen = [("Any", false), ("Int", false), ("Int", true), ("Arrow", false)];
    counts.assert_each(seen.map(|(shape, has_scheme)| (shape.to_string(), has_scheme)), 50);
    assert!(counts.0.keys().all(|(shape, has_scheme)| shape == "Int" || !has_scheme));
}
