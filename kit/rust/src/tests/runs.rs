//! Dry runs: how they end, what is refused and when, and what is written of an answer.

use super::PROGRAM_A;
use crate::entry::{placement_run, placement_run_under};
use crate::run::SIX;
use crate::{run, run_under, Answer, Place, Refusal, Steps};
use std::thread;

const UNIT: &[u8] = include_bytes!("../../../../examples/schemes/unit.schemes");
const X_PLUS_Y: &[u8] = include_bytes!("../../../../examples/x-plus-y.table");
const TWICE: &[u8] = include_bytes!("../../../../examples/twice.table");
const FUNCTION_LEFT: &[u8] = include_bytes!("../../../../examples/function-left.table");
const TEN_THOUSAND: &[u8] = include_bytes!("../../../../examples/ten-thousand-times.table");
const TOO_DEEP: &[u8] = include_bytes!("../../../../examples/too-deep.table");
const SCORE: &[u8] = include_bytes!("../../../../examples/schemes/unit/score.table");

/// More steps than any run makes.
const PLENTY: u32 = u32::MAX;

/// What is shown of a run that comes to its end.
fn shown(text: &[u8], numbers: &[u32], budget: u32) -> String {
    run(text, numbers, budget).unwrap().to_string()
}

/// The number of a refusal and the steps made before it.
fn stopped(text: &[u8], numbers: &[u32], budget: u32) -> (u32, u32, u32) {
    let refusal = run(text, numbers, budget).unwrap_err();
    let Place::Run(steps) = refusal.place else {
        panic!("{refusal}");
    };
    (refusal.number, steps.applications, steps.operations)
}

#[test]
fn a_run_ends_with_a_number_and_its_tag() {
    let outcome = run(PROGRAM_A, &[20], PLENTY).unwrap();
    let tag = "AH".to_string();
    assert_eq!(outcome.answer, Answer::Number { number: 40, tag });
    let steps = Steps {
        applications: 1,
        operations: 1,
    };
    assert_eq!(outcome.steps, steps);
    assert_eq!(outcome.to_string(), "NUMBER,40,AH,1,1");
    assert_eq!(shown(PROGRAM_A, &[22], PLENTY), "NUMBER,44,AH,1,1");
    assert_eq!(shown(X_PLUS_Y, &[20, 22], PLENTY), "NUMBER,42,AH,2,1");
    assert_eq!(shown(TWICE, &[20], PLENTY), "NUMBER,26,AH,4,2");
}

#[test]
fn a_run_ends_with_a_function() {
    let outcome = run(FUNCTION_LEFT, &[20], PLENTY).unwrap();
    assert_eq!(outcome.answer, Answer::Function);
    assert_eq!(outcome.to_string(), "FUNCTION,3,0");
}

#[test]
fn a_value_is_over_without_a_budget() {
    assert_eq!(shown(b"E,0,NUM,7", &[], 0), "NUMBER,7,RAND,0,0");
    assert_eq!(shown(b"E,0,ENC,DET,7", &[], 0), "NUMBER,7,DET,0,0");
}

#[test]
fn a_tag_is_the_word_of_its_scheme() {
    for word in ["FHE", "OP", "DET", "MH", "AH", "RAND"] {
        let text = format!("E,0,ENC,{word},7\n");
        let expected = format!("NUMBER,7,{word},0,0");
        assert_eq!(shown(text.as_bytes(), &[], 0), expected);
    }
    let plain = b"T,0,INT\nP,0,PLAIN,0\nE,0,VAR,0\nE,1,LAM,0,0\n";
    assert_eq!(shown(plain, &[7], PLENTY), "NUMBER,7,PLAIN,1,0");
    for word in ["BFV", "ORE", "GCM", "PAIL", "SIV"] {
        let text = format!("E,0,ENC,{word},7\n");
        for schemes in [UNIT, UNIT.strip_suffix(b"\n").unwrap()] {
            let outcome = run_under(schemes, text.as_bytes(), &[], 0).unwrap();
            assert_eq!(outcome.to_string(), format!("NUMBER,7,{word},0,0"));
        }
    }
}

#[test]
fn a_comparison_gives_1_or_0_without_a_tag() {
    for (operation, results) in [("EQ", [0, 1, 0]), ("LT", [1, 0, 0]), ("GT", [0, 0, 1])] {
        let text = String::from_utf8_lossy(X_PLUS_Y).replace("ADD", operation);
        for (x, result) in [4, 5, 6].into_iter().zip(results) {
            let expected = format!("NUMBER,{result},PLAIN,2,1");
            assert_eq!(shown(text.as_bytes(), &[x, 5], PLENTY), expected);
        }
    }
}

#[test]
fn a_result_may_be_4294967295_and_no_more() {
    let sum = shown(X_PLUS_Y, &[u32::MAX, 0], PLENTY);
    assert_eq!(sum, "NUMBER,4294967295,AH,2,1");
    assert_eq!(stopped(X_PLUS_Y, &[u32::MAX, 1], PLENTY), (29, 2, 0));
    assert_eq!(stopped(PROGRAM_A, &[1 << 31], PLENTY), (29, 1, 0));
    assert_eq!(stopped(TWICE, &[4_294_967_290], PLENTY), (29, 4, 1));
}

#[test]
fn a_budget_is_looked_at_before_each_step_and_before_29() {
    assert_eq!(stopped(PROGRAM_A, &[20], 0), (30, 0, 0));
    assert_eq!(stopped(PROGRAM_A, &[20], 1), (30, 1, 0));
    assert_eq!(shown(PROGRAM_A, &[20], 2), "NUMBER,40,AH,1,1");
    assert_eq!(stopped(PROGRAM_A, &[1 << 31], 1), (30, 1, 0));
    assert_eq!(stopped(PROGRAM_A, &[1 << 31], 2), (29, 1, 0));
}

#[test]
fn a_budget_above_10000_counts_as_10000() {
    for budget in [10_000, 10_001, 65_536, PLENTY] {
        assert_eq!(stopped(TEN_THOUSAND, &[20], budget), (30, 5_267, 4_733));
    }
    assert_eq!(stopped(TEN_THOUSAND, &[20], 9_999), (30, 5_267, 4_732));
}

#[test]
fn more_than_4096_contexts_are_refused() {
    assert_eq!(stopped(TOO_DEEP, &[20], PLENTY), (30, 9_322, 0));
}

#[test]
fn a_wrong_count_a_function_and_a_refused_program_are_not_run() {
    for numbers in [&[][..], &[20, 22], &[7; 64], &[7; 100_000]] {
        assert_eq!(stopped(PROGRAM_A, numbers, PLENTY), (28, 0, 0));
    }
    let function = include_bytes!("../../../../examples/x-applied-to-number.table");
    assert_eq!(stopped(function, &[20], PLENTY), (28, 0, 0));
    assert_eq!(stopped(b"", &[], PLENTY), (28, 0, 0));
    let below_floor = b"T,0,INT\nP,0,AH,0,RAND\nE,0,VAR,0\nE,1,LAM,0,0\n";
    assert_eq!(stopped(below_floor, &[20], PLENTY), (28, 0, 0));
    // 28 comes before 30.
    assert_eq!(stopped(PROGRAM_A, &[], 0), (28, 0, 0));
}

#[test]
fn a_refused_line_is_refused_as_by_a_report() {
    for text in [&b"no line"[..], b"T,0,INT\nT,2,INT\n", b"E,0,NUM,01"] {
        assert_eq!(run(text, &[20], PLENTY), Err(super::refusal(text)));
    }
}

#[test]
fn a_refused_file_is_refused_before_the_text() {
    for (schemes, number) in [
        (&b""[..], 25),
        (b"S,A,10000\nS,B,01000", 26),
        (b"S,A,00000\nS,B,11000\nS,C,10100", 27),
    ] {
        for text in [PROGRAM_A, b"no line"] {
            let place = Place::Whole;
            let found = run_under(schemes, text, &[20], PLENTY);
            assert_eq!(found, Err(Refusal { number, place }));
        }
    }
}

#[test]
fn a_run_under_a_file_has_its_tags() {
    let outcome = run_under(UNIT, SCORE, &[4, 6], PLENTY).unwrap();
    assert_eq!(outcome.to_string(), "NUMBER,29,BFV,2,2");
    let outcome = run_under(UNIT, PROGRAM_A, &[20], PLENTY).unwrap();
    assert_eq!(outcome.to_string(), "NUMBER,40,PAIL,1,1");
    assert_eq!(run(SCORE, &[4, 6], PLENTY).unwrap_err().number, 1);
}

#[test]
fn the_file_of_the_six_changes_no_run() {
    assert_eq!(
        SIX,
        include_bytes!("../../../../examples/schemes/six.schemes")
    );
    for text in [
        PROGRAM_A,
        X_PLUS_Y,
        TWICE,
        FUNCTION_LEFT,
        TEN_THOUSAND,
        b"no line",
    ] {
        for numbers in [&[20][..], &[20, 22], &[u32::MAX]] {
            for budget in [0, 1, 2, 5, PLENTY] {
                let found = run_under(SIX, text, numbers, budget);
                assert_eq!(found, run(text, numbers, budget));
            }
        }
    }
}

#[test]
fn a_refused_run_is_told_in_words() {
    let found = run(PROGRAM_A, &[1 << 31], PLENTY).unwrap_err();
    assert_eq!(
        found.to_string(),
        "refused with 29 after 1 application and 0 operations: a result passes 4294967295: \
         run the job on smaller numbers, or change the operation that comes next"
    );
    let found = run(TWICE, &[20], 5).unwrap_err().to_string();
    assert!(found.starts_with("refused with 30 after 4 applications and 1 operation: "));
    let found = run(TWICE, &[], 5).unwrap_err().to_string();
    assert!(found.starts_with("refused with 28 after 0 applications and 0 operations: "));
}

#[test]
fn a_short_answer_is_refused_first_and_left() {
    for length in 0..4 {
        let mut short = vec![7; length];
        for text in [PROGRAM_A, b"no line"] {
            assert_eq!(placement_run(text, &[20], PLENTY, &mut short), 11_000);
            for schemes in [UNIT, b""] {
                let answer = placement_run_under(schemes, text, &[20], PLENTY, &mut short);
                assert_eq!(answer, 11_000);
            }
        }
        assert!(short.iter().all(|&number| number == 7));
    }
}

#[test]
fn only_the_front_of_an_answer_is_written() {
    for (text, numbers, budget, returned, front) in [
        (PROGRAM_A, &[20][..], PLENTY, 100_000, [40, 5, 1, 1]),
        (FUNCTION_LEFT, &[20], PLENTY, 100_001, [0, 0, 3, 0]),
        (PROGRAM_A, &[], PLENTY, 28_000, [0, 0, 0, 0]),
        (PROGRAM_A, &[1 << 31], PLENTY, 29_000, [0, 0, 1, 0]),
        (TWICE, &[20], 5, 30_000, [0, 0, 4, 1]),
    ] {
        let mut answer = [7; 9];
        assert_eq!(placement_run(text, numbers, budget, &mut answer), returned);
        assert_eq!(answer[..4], front);
        assert_eq!(answer[4..], [7; 5]);
    }
    let mut answer = [7; 9];
    let returned = placement_run_under(UNIT, PROGRAM_A, &[20], PLENTY, &mut answer);
    assert_eq!((returned, answer), (100_000, [40, 4, 1, 1, 7, 7, 7, 7, 7]));
}

#[test]
fn a_refused_line_or_file_leaves_the_answer() {
    let mut answer = [7; 9];
    let mut under = |schemes, text| placement_run_under(schemes, text, &[20], PLENTY, &mut answer);
    assert_eq!(under(b"", PROGRAM_A), 25_000);
    assert_eq!(under(b"S,A,10000\nS,B,01000", PROGRAM_A), 26_000);
    assert_eq!(under(UNIT, b"E,0,ENC,AH,1"), 1_001);
    let returned = placement_run(b"T,0,INT\nT,2,INT\n", &[20], PLENTY, &mut answer);
    assert_eq!((returned, answer), (2_002, [7; 9]));
}

#[test]
fn threads_may_run_at_once() {
    let calls = || {
        for number in 0..200 {
            let expected = format!("NUMBER,{},AH,4,2", number + 6);
            assert_eq!(shown(TWICE, &[number], PLENTY), expected);
            assert_eq!(stopped(PROGRAM_A, &[number], 1), (30, 1, 0));
        }
    };
    thread::scope(|scope| {
        for _ in 0..4 {
            scope.spawn(calls);
        }
    });
}
