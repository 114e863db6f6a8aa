//! Scheme files of owners: what is refused and when, and what follows from an accepted one.

use super::{ANSWERS, PROGRAM_A, REPORT_A, SCRIPT};
use crate::entry::{placement_report_under, REPORT_LENGTH};
use crate::{report, report_under, session, Place, Refusal, SCHEMES_LENGTH};
use std::thread;

const SIX: &[u8] = include_bytes!("../../../../examples/schemes/six.schemes");
const UNIT: &[u8] = include_bytes!("../../../../examples/schemes/unit.schemes");

/// Each operation has a scheme of its own, and the names and the number of lines are the longest.
const EIGHT: &[u8] = include_bytes!("../../../../examples/schemes/eight.schemes");

/// Program A's report when x is under another scheme.
fn report_a(scheme: &str) -> String {
    String::from_utf8_lossy(REPORT_A).replace("AH", scheme)
}

/// The number that refuses a file, or 0. Whatever the text is, the buffer is left where a file is refused.
fn number(schemes: &[u8]) -> u32 {
    let mut buffer = [7; REPORT_LENGTH];
    let answers =
        [PROGRAM_A, b"", b"no line"].map(|text| placement_report_under(schemes, text, &mut buffer));
    if answers[1..] == [10_000, 1_001] {
        return 0;
    }
    let shown = schemes.escape_ascii();
    assert!(buffer.iter().all(|&byte| byte == 7), "for {shown}");
    assert_eq!(answers, [answers[0]; 3], "for {shown}");
    assert_eq!(answers[0] % 1_000, 0, "for {shown}");
    answers[0] / 1_000
}

/// The command that names the schemes of a file.
fn command(schemes: &[u8]) -> Vec<u8> {
    let blanks = |&byte: &u8| if byte == b'\n' { b' ' } else { byte };
    let lines: Vec<u8> = schemes.iter().map(blanks).collect();
    [b"schemes ", &lines[..], b"\n"].concat()
}

/// Files and the numbers that refuse them.
const REFUSED: [(&[u8], u32); 34] = [
    // Another number of lines.
    (b"", 25),
    (
        b"S,A,00000\nS,B,00001\nS,C,00011\nS,D,00111\nS,E,01111\n\
          S,F,11111\nS,H,00010\nS,I,00100\nS,J,01000",
        25,
    ),
    // Lines that are malformed.
    (b"\n", 25),
    (b"S,A,00000\n\n", 25),
    (b"\nS,A,00000", 25),
    (b"S,A,00000\r\n", 25),
    (b"S,A,00000 ", 25),
    (b" S,A,00000", 25),
    (b"s,A,00000", 25),
    (b"T,A,00000", 25),
    (b"A,00000", 25),
    (b"S,A,00000,", 25),
    (b"S,A", 25),
    (b"S,,00000", 25),
    (b"S,a,00000", 25),
    (b"S,A1,00000", 25),
    (b"S,ABCDEF,00000", 25),
    (b"S,\xc3\x84,00000", 25),
    (b"S,PLAIN,00000", 25),
    (b"S,A,0000", 25),
    (b"S,A,000000", 25),
    (b"S,A,00002", 25),
    (b"S,A,0000a", 25),
    (b"S,A,\n", 25),
    // A name or digits twice.
    (b"S,A,00000\nS,A,00001", 25),
    (b"S,A,00000\nS,B,00000", 25),
    // 25 comes first, then 26.
    (b"S,A,10000\nS,B,01000\nS,a,00100", 25),
    (b"S,A,11000\nS,B,10100", 26),
    // No greatest scheme, and two without a greatest lower bound.
    (b"S,A,10000\nS,B,01000", 26),
    (b"S,A,11111\nS,B,10000\nS,C,01000", 26),
    (b"S,A,00000\nS,B,10000\nS,C,01000\nS,D,11100\nS,E,11010", 26),
    (
        b"S,A,00000\nS,B,10000\nS,C,01000\nS,D,11100\nS,E,11010\nS,F,11111",
        26,
    ),
    // Two that support an operation, and none of them highest.
    (b"S,A,00000\nS,B,11000\nS,C,10100", 27),
    (b"S,A,11111\nS,B,11000\nS,C,10100\nS,D,00000", 27),
];

#[test]
fn files_are_refused_with_their_numbers() {
    for (schemes, expected) in REFUSED {
        assert_eq!(number(schemes), expected, "for {}", schemes.escape_ascii());
    }
}

#[test]
fn refused_files_have_no_report() {
    for (schemes, number) in REFUSED {
        let place = Place::Whole;
        assert_eq!(
            report_under(schemes, PROGRAM_A),
            Err(Refusal { number, place })
        );
    }
    let found = report_under(b"", PROGRAM_A).unwrap_err();
    assert!(found
        .to_string()
        .starts_with("refused with 25: the scheme file "));
}

#[test]
fn files_are_accepted() {
    for schemes in [
        SIX,
        UNIT,
        EIGHT,
        b"S,A,00000",
        b"S,A,11111\n",
        b"S,PLAIM,00100",
        b"S,PLAI,01010",
    ] {
        assert_eq!(number(schemes), 0, "for {}", schemes.escape_ascii());
    }
}

#[test]
fn a_last_line_of_a_file_needs_no_line_feed() {
    let unended = UNIT.strip_suffix(b"\n").unwrap();
    assert_eq!(
        report_under(unended, PROGRAM_A),
        report_under(UNIT, PROGRAM_A)
    );
}

#[test]
fn no_accepted_file_is_as_long_as_the_part_that_can_matter() {
    assert_eq!(EIGHT.len() as u64 + 1, SCHEMES_LENGTH);
    assert_eq!(number(EIGHT), 0);
    for byte in 0..=255 {
        for more in [1, 2, 100, 100_000] {
            let longer = [EIGHT, &vec![byte; more]].concat();
            assert_eq!(number(&longer), 25, "for {more} bytes of {byte}");
        }
    }
}

#[test]
fn any_bytes_are_a_file() {
    let bytes: Vec<u8> = (0..100_000u32).map(|i| (i % 256) as u8).collect();
    assert_eq!(number(&bytes), 25);
    assert_eq!(number(&[0]), 25);
}

#[test]
fn a_file_line_with_one_other_byte_is_refused_unless_it_has_the_form() {
    let line = b"S,MN,10110";
    for place in 0..line.len() {
        for byte in 0..=255u8 {
            let mut schemes = *line;
            schemes[place] = byte;
            let has_form = match place {
                2 | 3 => byte.is_ascii_uppercase(),
                5.. => matches!(byte, b'0' | b'1'),
                _ => byte == line[place],
            };
            let expected = if has_form { 0 } else { 25 };
            assert_eq!(number(&schemes), expected, "for {}", schemes.escape_ascii());
        }
    }
}

#[test]
fn a_short_buffer_is_refused_before_the_file() {
    let mut short = [7; REPORT_LENGTH - 1];
    for schemes in [
        UNIT,
        b"",
        b"S,A,10000\nS,B,01000",
        b"S,A,00000\nS,B,11000\nS,C,10100",
    ] {
        for text in [PROGRAM_A, b"no line"] {
            assert_eq!(placement_report_under(schemes, text, &mut short), 11_000);
            assert_eq!(placement_report_under(schemes, text, &mut []), 11_000);
        }
    }
    assert!(short.iter().all(|&byte| byte == 7));
}

#[test]
fn bytes_beyond_a_report_under_a_file_are_left() {
    let mut buffer = [7; REPORT_LENGTH + 9];
    let expected = report_a("PAIL");
    let answer = placement_report_under(UNIT, PROGRAM_A, &mut buffer);
    assert_eq!(answer, 100_000 + expected.len() as u32);
    assert_eq!(&buffer[..expected.len()], expected.as_bytes());
    assert!(buffer[expected.len()..].iter().all(|&byte| byte == 7));
}

#[test]
fn a_refused_text_under_a_file_leaves_the_buffer() {
    let mut buffer = [7; REPORT_LENGTH];
    for (text, expected) in [
        (&b""[..], 10_000),
        (b"T,0,INT\nP,0,AH,0\n", 1_002),
        (b"E,0,ENC,PLAIN,1\n", 1_001),
        (b"E,0,NUM,1\nE,1,NUM,2\nE,2,APP,0,1\n", 21_002),
        (b"E,0,ENC,PAIL,1\nE,1,ENC,BFV,2\nE,2,OP,ADD,0,1\n", 22_002),
        (b"E,0,ENC,GCM,1\nE,1,NUM,2\nE,2,OP,ADD,0,1\n", 23_002),
        (b"T,0,INT\nP,0,ORE,0,SIV\nE,0,VAR,0\nE,1,LAM,0,0\n", 24_000),
    ] {
        let answer = placement_report_under(UNIT, text, &mut buffer);
        assert_eq!(answer, expected, "for {}", text.escape_ascii());
    }
    assert!(buffer.iter().all(|&byte| byte == 7));
}

#[test]
fn each_operation_has_its_highest_scheme() {
    let words = [
        (UNIT, ["PAIL", "BFV", "SIV", "ORE", "ORE"]),
        (EIGHT, ["ADDER", "MULTI", "EQUAL", "LOWER", "UPPER"]),
        (SIX, ["AH", "MH", "DET", "OP", "OP"]),
        (
            b"S,PAIL,10000",
            ["PAIL", "PLAIN", "PLAIN", "PLAIN", "PLAIN"],
        ),
    ];
    for (schemes, words) in words {
        for (operation, word) in ["ADD", "MUL", "EQ", "LT", "GT"].into_iter().zip(words) {
            let text = String::from_utf8_lossy(PROGRAM_A).replace("ADD", operation);
            let found = report_under(schemes, text.as_bytes()).unwrap();
            let parameter = found.lines().nth(2).unwrap();
            assert_eq!(parameter, [&b"P"[..], b"0", word.as_bytes(), b"INT"]);
        }
    }
}

#[test]
fn the_file_of_the_six_changes_nothing() {
    let words = [
        "PLAIN", "FHE", "OP", "DET", "MH", "AH", "RAND", "PAIL", "g0",
    ];
    for declared in words {
        for floor in words {
            let line = format!("P,0,{declared},0,{floor}");
            let text = String::from_utf8_lossy(PROGRAM_A).replace("P,0,g0,0", &line);
            let text = text.as_bytes();
            assert_eq!(report_under(SIX, text), report(text), "for {line}");
        }
    }
}

#[test]
fn the_other_entry_keeps_the_six() {
    assert_eq!(
        report_under(UNIT, PROGRAM_A).unwrap().to_string(),
        report_a("PAIL")
    );
    assert_eq!(report(PROGRAM_A).unwrap().as_bytes(), REPORT_A);
    assert_eq!(report(b"E,0,ENC,PAIL,1").unwrap_err().number, 1);
}

/// Every way to write a name in capitals and small letters.
fn spellings(name: &str) -> impl Iterator<Item = String> + '_ {
    (0..1 << name.len()).map(|small: u32| {
        let letter = |(place, letter): (usize, char)| match small >> place & 1 {
            1 => letter.to_ascii_lowercase(),
            _ => letter,
        };
        name.chars().enumerate().map(letter).collect()
    })
}

#[test]
fn every_spelling_of_every_name_is_read() {
    let table = include_str!("../../../../examples/schemes/unit/visit.table");
    let expected = include_str!("../../../../examples/schemes/unit/visit.report");
    for name in ["PLAIN", "BFV", "ORE", "GCM", "PAIL", "SIV"] {
        assert!(table.contains(name), "no {name}");
        for spelling in spellings(name) {
            let found = report_under(UNIT, table.replace(name, &spelling).as_bytes());
            assert_eq!(found.unwrap().to_string(), expected, "for {spelling}");
        }
    }
}

#[test]
fn a_name_may_be_a_word_of_another_kind() {
    let schemes = b"S,G,00000\nS,ADD,10000\nS,OP,11000\nS,INT,11100\n";
    let text = b"T,0,INT\nP,0,g,0,G\nP,1,g0,0,ADD\nE,0,VAR,1\nE,1,ENC,add,7\nE,2,OP,ADD,0,1\n\
        E,3,LAM,0,2\nE,4,LAM,1,3\n";
    let found = report_under(schemes, text).unwrap().to_string();
    let expected =
        "OK,2,5\nG,0,ADD\nP,0,G,INT\nP,1,ADD,INT\nE,0,ADD,INT\nE,1,ADD,INT\nE,2,ADD,INT\n\
        E,3,PLAIN,ARROW\nE,4,PLAIN,ARROW\n";
    assert_eq!(found, expected);
}

#[test]
fn a_script_names_schemes() {
    super::assert_answered(
        include_bytes!("../../../../examples/schemes/what-if.script"),
        include_bytes!("../../../../examples/schemes/what-if.answers"),
    );
}

#[test]
fn a_script_answers_files_by_their_numbers() {
    let ending = b"add E,0,ENC,PAIL,1\n";
    // A blank of a file would be a line feed in the command.
    for (schemes, expected) in REFUSED.iter().filter(|it| !it.0.contains(&b' ')) {
        let script = [&command(UNIT)[..], &command(schemes), ending].concat();
        let answers = format!("0\n{expected}\n0\n");
        super::assert_answered(&script, answers.as_bytes());
    }
    for schemes in [SIX, EIGHT] {
        let script = [&command(UNIT)[..], &command(schemes), ending].concat();
        super::assert_answered(&script, b"0\n0\n1\n");
    }
}

#[test]
fn a_blank_stands_for_a_line_feed() {
    for (script, answers) in [
        (&b"schemes S,A,00000"[..], &b"0\n"[..]),
        (b"schemes S,A,00000 ", b"0\n"),
        (b"schemes S,A,00000 S,B,00001 \n", b"0\n"),
        (b"schemes S,A,00000  S,B,00001\n", b"25\n"),
        (b"schemes  S,A,00000\n", b"25\n"),
        (b"schemes S,A,00000  \n", b"25\n"),
        (b"schemes \n", b"25\n"),
        (b"schemes S,A,00000\r\n", b"25\n"),
        (b"schemes\tS,A,00000\n", b"?\n"),
        (b"schemes\n", b"?\n"),
        (b"schemes", b"?\n"),
        (b" schemes S,A,00000\n", b"?\n"),
        (b"SCHEMES S,A,00000\n", b"?\n"),
        (b"scheme S,A,00000\n", b"?\n"),
    ] {
        super::assert_answered(script, answers);
    }
}

#[test]
fn accepted_schemes_start_a_fresh_table_and_refused_ones_leave_it() {
    let unit = command(UNIT);
    let script = [
        &b"add E,0,NUM,1\ninfer\n"[..],
        b"schemes S,A,10000 S,B,01000\ninfer\n",
        &unit,
        b"infer\nadd E,0,NUM,1\ninfer\n",
        &unit,
        b"take-back\n",
    ];
    let answers = b"0\nOK,0,1\nE,0,RAND,INT\n26\nOK,0,1\nE,0,RAND,INT\n\
        0\nNO,10,0\n0\nOK,0,1\nE,0,GCM,INT\n0\n9\n";
    super::assert_answered(&script.concat(), answers);
}

#[test]
fn codes_follow_the_file() {
    let adds = b"add T,0,INT\nadd P,0,PLAIN,0\nadd E,0,VAR,0\nadd E,1,LAM,0,0\n";
    for (schemes, words) in [
        (SIX, &["PLAIN", "FHE", "OP", "DET", "MH", "AH", "RAND"][..]),
        (UNIT, &["PLAIN", "BFV", "ORE", "GCM", "PAIL", "SIV"]),
        (b"S,PAIL,10000", &["PLAIN", "PAIL"]),
    ] {
        let asked = |code: usize| {
            let front = [&command(schemes)[..], adds].concat();
            let script = [front, format!("redeclare 0 {code}\ninfer\n").into_bytes()].concat();
            let answers = String::from_utf8(session(&script)).unwrap();
            answers.strip_prefix("0\n0\n0\n0\n0\n").unwrap().to_string()
        };
        for (code, word) in words.iter().enumerate() {
            let expected = format!("0\nOK,1,2\nP,0,{word},INT\n");
            assert!(asked(code).starts_with(&expected), "for {code}");
        }
        for variable in 0..64 {
            let expected = format!("0\nOK,1,2\nG,{variable},");
            assert!(
                asked(words.len() + variable).starts_with(&expected),
                "for g{variable}"
            );
        }
        for code in [words.len() + 64, words.len() + 65, 255, 256, 4_294_967_295] {
            let expected = "12\nOK,1,2\nP,0,PLAIN,INT\n";
            assert!(asked(code).starts_with(expected), "for {code}");
        }
    }
}

#[test]
fn threads_may_call_with_files_of_their_own() {
    let files = [(SIX, "AH"), (UNIT, "PAIL"), (EIGHT, "ADDER")];
    thread::scope(|scope| {
        for (schemes, word) in files {
            scope.spawn(move || {
                for _ in 0..200 {
                    let found = report_under(schemes, PROGRAM_A).unwrap();
                    assert_eq!(found.to_string(), report_a(word));
                    assert_eq!(session(SCRIPT), ANSWERS);
                }
            });
        }
    });
}
