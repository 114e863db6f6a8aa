//! The safe functions over the archive, and the entries beneath them.

use crate::entry::{placement_report, placement_session, REPORT_LENGTH};
use crate::refusal::taken_apart;
use crate::{report, session, Place, Refusal};
use std::thread;

mod letters;
mod runs;
mod schemes;

const PROGRAM_A: &[u8] = b"T,0,ANY\nP,0,g0,0\nE,0,VAR,0\nE,1,VAR,0\nE,2,OP,ADD,0,1\nE,3,LAM,0,2\n";
const REPORT_A: &[u8] =
    b"OK,1,4\nG,0,AH\nP,0,AH,INT\nE,0,AH,INT\nE,1,AH,INT\nE,2,AH,INT\nE,3,PLAIN,ARROW\n";

/// A script with all four commands, and its answers.
const SCRIPT: &[u8] =
    b"add E,0,NUM,1\ninfer\nredeclare 0 71\nadd E,2,NUM,1\nhelp\ntake-back\ntake-back\ninfer";
const ANSWERS: &[u8] = b"0\nOK,0,1\nE,0,RAND,INT\n5\n2\n?\n0\n9\nNO,10,0\n";

fn refusal(text: &[u8]) -> Refusal {
    report(text).unwrap_err()
}

#[test]
fn program_a_has_its_report() {
    assert_eq!(report(PROGRAM_A).unwrap().as_bytes(), REPORT_A);
}

#[test]
fn a_report_is_shown_as_it_is() {
    let report = report(PROGRAM_A).unwrap();
    assert_eq!(report.to_string().as_bytes(), REPORT_A);
}

#[test]
fn a_report_has_lines_of_fields() {
    let report = report(PROGRAM_A).unwrap();
    let lines: Vec<_> = report.lines().collect();
    assert_eq!(lines.len(), 7);
    assert_eq!(lines[0], [&b"OK"[..], b"1", b"4"]);
    assert_eq!(lines[2], [&b"P"[..], b"0", b"AH", b"INT"]);
}

#[test]
fn a_refused_line_is_named_from_1() {
    let found = refusal(b"E,0,NUM,1\nE,1,APP,0,0\n");
    assert_eq!((found.number, found.place), (7, Place::Line(2)));
    assert_eq!(
        found.to_string(),
        "refused with 7 at line 2: child already used, or one row named as both children"
    );
}

#[test]
fn a_refused_row_is_named_from_0() {
    let found = refusal(b"E,0,NUM,1\nE,1,NUM,2\nE,2,APP,0,1\n");
    assert_eq!((found.number, found.place), (21, Place::Row(2)));
    assert!(found
        .to_string()
        .starts_with("refused with 21 at row E,2: "));
}

#[test]
fn a_parameter_below_its_floor_is_named_from_0() {
    let found = refusal(include_bytes!(
        "../../../examples/refused-24-register-below-floor.table"
    ));
    assert_eq!((found.number, found.place), (24, Place::Parameter(0)));
    assert_eq!(
        found.to_string(),
        "refused with 24 at parameter P,0: the greatest scheme for this input is not at or above its floor: \
         lower the floor, or change what the program does with the input"
    );
}

#[test]
fn an_empty_text_is_not_closed() {
    let found = refusal(b"");
    assert_eq!((found.number, found.place), (10, Place::Whole));
    assert!(found.to_string().starts_with("refused with 10: "));
}

#[test]
fn any_bytes_are_a_text() {
    let bytes: Vec<u8> = (0..100_000u32).map(|i| (i % 256) as u8).collect();
    assert_eq!(
        refusal(&bytes),
        Refusal {
            number: 1,
            place: Place::Line(1)
        }
    );
    assert_eq!(refusal(&[0]).number, 1);
    assert_eq!(refusal(b"\n").number, 1);
}

#[test]
fn a_last_line_needs_no_line_feed() {
    let text = PROGRAM_A.strip_suffix(b"\n").unwrap();
    assert_eq!(report(text).unwrap().as_bytes(), REPORT_A);
}

#[test]
fn a_short_buffer_is_refused_first_and_left() {
    let mut short = [7; REPORT_LENGTH - 1];
    assert_eq!(placement_report(b"no line", &mut short), 11_000);
    assert_eq!(placement_report(PROGRAM_A, &mut []), 11_000);
    assert!(short.iter().all(|&byte| byte == 7));
}

#[test]
fn bytes_beyond_the_report_are_left() {
    let mut buffer = [7; REPORT_LENGTH + 9];
    let length = taken_apart(placement_report(PROGRAM_A, &mut buffer)).unwrap();
    assert_eq!(&buffer[..length], REPORT_A);
    assert!(buffer[length..].iter().all(|&byte| byte == 7));
}

#[test]
fn a_refusal_leaves_the_buffer() {
    let mut buffer = [7; REPORT_LENGTH];
    assert_eq!(placement_report(b"", &mut buffer), 10_000);
    assert_eq!(placement_report(b"T,1,INT\n", &mut buffer), 2_001);
    assert!(buffer.iter().all(|&byte| byte == 7));
}

#[test]
fn answers_are_taken_apart() {
    let refused = |number, place| Err(Refusal { number, place });
    assert_eq!(taken_apart(100_018), Ok(18));
    assert_eq!(taken_apart(106_280), Ok(6_280));
    for number in 1..=8 {
        let answer = number * 1_000 + 385;
        assert_eq!(taken_apart(answer), refused(number, Place::Line(385)));
    }
    assert_eq!(taken_apart(10_000), refused(10, Place::Whole));
    assert_eq!(taken_apart(11_000), refused(11, Place::Whole));
    for number in 21..=23 {
        let answer = number * 1_000;
        assert_eq!(taken_apart(answer), refused(number, Place::Row(0)));
        assert_eq!(taken_apart(answer + 255), refused(number, Place::Row(255)));
    }
    assert_eq!(taken_apart(24_000), refused(24, Place::Parameter(0)));
    assert_eq!(taken_apart(24_063), refused(24, Place::Parameter(63)));
    for number in 25..=27 {
        assert_eq!(taken_apart(number * 1_000), refused(number, Place::Whole));
    }
}

#[test]
fn every_number_of_the_entry_has_words() {
    for number in (1..=8).chain([10, 11]).chain(21..=30) {
        let found = taken_apart(number * 1_000).unwrap_err();
        assert_ne!(found.meaning(), "unknown number", "for {number}");
    }
    assert_eq!(taken_apart(99_000).unwrap_err().meaning(), "unknown number");
}

#[test]
fn threads_may_call_at_once() {
    let calls = || {
        for _ in 0..200 {
            assert_eq!(report(PROGRAM_A).unwrap().as_bytes(), REPORT_A);
            assert_eq!(refusal(b"E,0,NUM,01").number, 1);
            assert_eq!(session(SCRIPT), ANSWERS);
        }
    };
    thread::scope(|scope| {
        for _ in 0..4 {
            scope.spawn(calls);
        }
    });
}

#[test]
fn a_script_has_its_answers() {
    assert_eq!(session(SCRIPT), ANSWERS);
    let ended = [SCRIPT, b"\n"].concat();
    assert_eq!(session(&ended), ANSWERS);
}

/// A difference between answers is shown with its bytes escaped.
fn assert_answered(script: &[u8], answers: &[u8]) {
    let found = session(script);
    assert_eq!(
        found.escape_ascii().to_string(),
        answers.escape_ascii().to_string()
    );
}

#[test]
fn a_script_asks_what_if() {
    assert_answered(
        include_bytes!("../../../examples/what-if.script"),
        include_bytes!("../../../examples/what-if.answers"),
    );
}

#[test]
fn a_redeclare_leaves_the_floor() {
    assert_answered(
        include_bytes!("../../../examples/floor.script"),
        include_bytes!("../../../examples/floor.answers"),
    );
}

#[test]
fn each_script_starts_from_a_fresh_table() {
    assert_eq!(session(b"add E,0,NUM,1"), b"0\n");
    assert_eq!(session(b"infer"), b"NO,10,0\n");
    assert_eq!(session(b"add E,0,NUM,1"), b"0\n");
}

#[test]
fn an_empty_script_has_no_answer() {
    assert_eq!(session(b""), b"");
}

#[test]
fn any_bytes_are_a_script() {
    let bytes: Vec<u8> = (0..100_000u32).map(|i| (i % 256) as u8).collect();
    let lines = bytes.split(|&byte| byte == b'\n').count();
    assert_eq!(session(&bytes), b"?\n".repeat(lines));
    assert_eq!(session(b"\n"), b"?\n");
    assert_eq!(session(b"add \0\ninfer\r\n"), b"1\n?\n");
}

#[test]
fn a_buffer_that_is_too_short_is_left() {
    for length in 0..ANSWERS.len() {
        let mut short = vec![7; length];
        assert_eq!(placement_session(SCRIPT, &mut short), ANSWERS.len());
        assert!(short.iter().all(|&byte| byte == 7));
    }
}

#[test]
fn bytes_beyond_the_answers_are_left() {
    for more in 0..9 {
        let mut buffer = vec![7; ANSWERS.len() + more];
        assert_eq!(placement_session(SCRIPT, &mut buffer), ANSWERS.len());
        assert_eq!(&buffer[..ANSWERS.len()], ANSWERS);
        assert!(buffer[ANSWERS.len()..].iter().all(|&byte| byte == 7));
    }
}
