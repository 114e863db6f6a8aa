//! Shared and long types and terms: each program is judged in bounded time.

mod common;

use common::{assert_prints, table, text};
use second::generate::deep;
use second::place;
use second::qualifier::Qualifier;
use second::typing::judge;
use std::time::{Duration, Instant};

/// Asserts what `place` prints first, and that it takes less than a second.
fn assert_starts_quickly(program: &str, start: &str) {
    let program = text(program);
    let began = Instant::now();
    let printed = String::from_utf8(place(&program)).unwrap();
    assert!(began.elapsed() < Duration::from_secs(1), "took {:?}", began.elapsed());
    assert!(printed.starts_with(start), "printed {printed}");
}

#[test]
fn an_unknown_takes_a_type_with_many_paths() {
    assert_starts_quickly(
        &deep::unknown_takes_shared_type(),
        "OK,2,5\nG,0,PLAIN\nG,1,PLAIN\nG,2,PLAIN\nP,0,PLAIN,ARROW\nP,1,PLAIN,ARROW\n",
    );
}

#[test]
fn a_type_with_many_paths_does_not_contain_itself() {
    assert_starts_quickly(&deep::shared_type_would_contain_itself(), "NO,21,3\n");
}

#[test]
fn two_types_with_many_paths_are_compared_once() {
    let chains = deep::two_doubling_chains;
    let accepted = "OK,2,5\nG,0,PLAIN\nG,1,PLAIN\nP,0,PLAIN,ARROW\nP,1,PLAIN,ARROW\n";
    assert_starts_quickly(&chains("ANY", "ANY"), accepted);
    assert_starts_quickly(&chains("INT", "ANY"), accepted);
    assert_starts_quickly(&chains("INT", "INT"), accepted);
    // The clash stands at the end of every path.
    assert_starts_quickly(&chains("INT", "ARROW,g2,0,g2,0"), "NO,21,3\n");
}

#[test]
fn chains_of_different_lengths_clash() {
    for lowest in ["INT", "ANY"] {
        assert_starts_quickly(&deep::chains_of_different_lengths(lowest), "NO,21,3\n");
    }
}

#[test]
fn a_type_with_many_paths_has_no_function_under_a_scheme() {
    let plain = "OK,1,2\nP,0,PLAIN,ARROW\nE,0,PLAIN,ARROW\nE,1,PLAIN,ARROW\n";
    assert_starts_quickly(&deep::shared_type_under("PLAIN"), plain);
    assert_starts_quickly(&deep::shared_type_under("g7"), "OK,1,2\nG,7,PLAIN\n");
    assert_starts_quickly(&deep::shared_type_under("AH"), "NO,22,0\n");
}

#[test]
fn joined_functions_are_plain() {
    let mut expected = String::from("OK,60,121");
    expected += &(0..60).map(|variable| format!(" G,{variable},PLAIN")).collect::<String>();
    expected += &(0..60).map(|own| format!(" P,{own},PLAIN,ARROW")).collect::<String>();
    // All rows are functions but the number and what it is applied for.
    let word = |row| match row {
        88 => "RAND,INT",
        89 => "RAND,ANY",
        _ => "PLAIN,ARROW",
    };
    expected += &(0..121).map(|row| format!(" E,{row},{}", word(row))).collect::<String>();
    assert_prints(&deep::joined_functions("g59"), &expected);
    assert_prints(&deep::joined_functions("AH"), "NO,22,89");
}

#[test]
fn terms_build_a_type_with_many_paths() {
    let program = deep::shared_type_of_terms("ANY", "ANY");
    assert_starts_quickly(&program, "OK,64,253\nG,0,PLAIN\nP,0,PLAIN,ANY\nP,1,PLAIN,ARROW\n");
    // With INT at the start of one chain and an arrow at the other, this application clashes.
    let clash = deep::shared_type_of_terms("INT", "ARROW,g0,1,g0,1");
    assert_starts_quickly(&clash, "NO,21,158\n");
}

#[test]
fn a_long_sum_is_judged() {
    let lines = deep::long_sum();
    let mut expected = String::from("OK,1,256 G,0,AH P,0,AH,INT");
    for row in 0..255 {
        expected += &format!(" E,{row},AH,INT");
    }
    expected += " E,255,PLAIN,ARROW";
    assert_prints(&lines, &expected);
    // The last leaf decides the qualifier of all, unless the second one has another constant.
    let constant_last = lines.replace("E,253,VAR,0", "E,253,ENC,FHE,1");
    assert_starts_quickly(&constant_last, "OK,1,256\nG,0,FHE\nP,0,FHE,INT\n");
    let two_constants = constant_last.replace("E,1,VAR,0", "E,1,ENC,AH,1");
    assert_starts_quickly(&two_constants, "NO,22,254\n");
}

#[test]
fn a_long_application_is_judged() {
    let mut expected = String::from("OK,1,256 G,0,PLAIN P,0,PLAIN,ARROW E,0,PLAIN,ARROW");
    for application in 0..127 {
        let row = 2 * application + 1;
        // Every result but the last is applied.
        let result = if application == 126 { "RAND,ANY" } else { "PLAIN,ARROW" };
        expected += &format!(" E,{row},RAND,INT E,{},{result}", row + 1);
    }
    expected += " E,255,PLAIN,ARROW";
    assert_prints(&deep::long_application(), &expected);
}

#[test]
fn nested_applications_are_judged() {
    let mut expected = String::from("OK,2,255 G,0,PLAIN G,1,RAND P,0,PLAIN,ARROW P,1,RAND,ANY");
    expected += " E,0,RAND,ANY";
    for application in 0..126 {
        let row = 2 * application + 1;
        expected += &format!(" E,{row},PLAIN,ARROW E,{},RAND,ANY", row + 1);
    }
    expected += " E,253,PLAIN,ARROW E,254,PLAIN,ARROW";
    assert_prints(&deep::nested_applications(), &expected);
}

#[test]
fn long_types_are_compared() {
    let program = deep::long_types;
    let accepted = "OK,2,253\nG,0,PLAIN\nG,1,PLAIN\n";
    assert_starts_quickly(&program(["NUM,1", "NUM,1"], "OP,ADD"), accepted);
    assert_starts_quickly(&program(["NUM,1", "ENC,AH,1"], "OP,ADD"), accepted);
    assert_starts_quickly(&program(["ENC,MH,1", "NUM,1"], "OP,ADD"), accepted);
    assert_starts_quickly(&program(["ENC,MH,1", "ENC,AH,1"], "OP,ADD"), "NO,22,249\n");
    assert_starts_quickly(&program(["NUM,1", "NUM,1"], "APP"), "NO,21,250\n");
}

#[test]
fn a_number_follows_an_argument_in_the_same_place() {
    // The last arguments stand in rows 246 and 248, the first ones in rows 2 and 4.
    let judged = |last| judge(&table(&deep::long_types(last, "OP,ADD"))).unwrap();
    for (last, word) in [
        (["NUM,1", "NUM,1"], Qualifier::Rand),
        (["NUM,1", "ENC,AH,1"], Qualifier::Ah),
        (["ENC,MH,1", "NUM,1"], Qualifier::Mh),
    ] {
        let words = [2, 4, 246, 248].map(|row: usize| judged(last).terms[row].word);
        let expected = [Qualifier::Rand, Qualifier::Rand, word, word];
        assert_eq!(words, expected.map(Qualifier::code));
    }
}

#[test]
fn numbers_in_sums_follow_the_sums() {
    let expected = place(&text(&deep::long_sum()));
    assert_eq!(place(&text(&deep::long_sum_with_numbers())), expected);
    for (last, word, result) in [
        ("ADD", "AH", "AH"),
        ("MUL", "FHE", "FHE"),
        ("EQ", "FHE", "PLAIN"),
        ("LT", "FHE", "PLAIN"),
        ("GT", "FHE", "PLAIN"),
    ] {
        let mut expected = String::from("OK,0,255");
        expected += &(0..254).map(|row| format!(" E,{row},{word},INT")).collect::<String>();
        expected += &format!(" E,254,{result},INT");
        assert_prints(&deep::sums_of_sums_of_numbers(last), &expected);
    }
}

#[test]
fn towers_of_arrows_are_compared() {
    let accepted = "OK,4,255\nG,0,PLAIN\nG,1,PLAIN\nG,2,PLAIN\nG,3,PLAIN\nP,0,PLAIN,ARROW\n";
    assert_starts_quickly(&deep::towers_of_arrows(61, 61), accepted);
    // The result of the lower tower is an arrow and is compared by EQ.
    assert_starts_quickly(&deep::towers_of_arrows(60, 62), "NO,21,250\n");
}

#[test]
fn parameters_are_joined_in_any_order() {
    for falling in [false, true] {
        let mut expected = String::from("OK,63,256");
        expected += &(0..63).map(|variable| format!(" G,{variable},AH")).collect::<String>();
        expected += &(0..63).map(|own| format!(" P,{own},AH,INT")).collect::<String>();
        expected += &(0..193).map(|row| format!(" E,{row},AH,INT")).collect::<String>();
        expected += &(193..256).map(|row| format!(" E,{row},PLAIN,ARROW")).collect::<String>();
        assert_prints(&deep::joined_parameters(falling), &expected);
    }
}

#[test]
fn floors_of_joined_parameters_are_tested() {
    let without = String::from_utf8(place(&text(&deep::joined_parameters(false)))).unwrap();
    for met in ["PLAIN", "FHE", "AH"] {
        let program = deep::joined_parameters_with_floors(met);
        assert_eq!(program.matches(",AH ").count(), if met == "AH" { 63 } else { 62 });
        assert_starts_quickly(&program, &without);
    }
    for missed in ["OP", "DET", "MH", "RAND"] {
        assert_starts_quickly(&deep::joined_parameters_with_floors(missed), "NO,24,62\n");
    }
}

#[test]
fn all_deep_programs_are_closed() {
    for (name, lines) in deep::all() {
        assert!(table(&lines).closed(), "{name}");
    }
}
