//! The program `place` and the reference print the same bytes for the same standard input.

use compare::pieces::{pieces, printed, WHOLE};
use compare::programs::program;
use compare::texts::{large_texts, random_text, Kind};
use second::counts::Counts;
use second::generate::{deep, text_of_lines, Random};
use second::place;
use second::to_try;

/// How many generated texts are compared.
const TEXTS: usize = 600;

/// How outputs start that have to occur among those of the generated texts.
const STARTS: [&str; 13] = [
    "OK", "X,1", "X,2", "X,3", "X,4", "X,5", "X,6", "X,7", "NO,10", "NO,21", "NO,22", "NO,23",
    "NO,24",
];

/// Asserts that the program prints these bytes for a text.
fn assert_prints(about: &str, text: &[u8], piece: usize, expected: &[u8]) {
    let printed = printed(&program("place"), &pieces(text, piece)).escape_ascii().to_string();
    assert_eq!(printed, expected.escape_ascii().to_string(), "for {about}");
}

#[test]
fn program_a_is_printed_in_full() {
    let program = b"T,0,ANY\nP,0,g0,0\nE,0,VAR,0\nE,1,VAR,0\nE,2,OP,ADD,0,1\nE,3,LAM,0,2\n";
    let report = b"OK,1,4\nG,0,AH\nP,0,AH,INT\nE,0,AH,INT\nE,1,AH,INT\nE,2,AH,INT\n\
                   E,3,PLAIN,ARROW\n";
    for piece in [1, 7, 64, WHOLE] {
        assert_prints("program A", program, piece, report);
        let unended = program.strip_suffix(b"\n").unwrap();
        assert_prints("program A without its last line feed", unended, piece, report);
    }
}

#[test]
fn each_program_to_try_is_printed_as_the_documents_say() {
    for program in to_try::all() {
        assert_prints(program.about, &program.text, WHOLE, &program.prints);
    }
}

#[test]
fn an_empty_input_is_not_closed_and_an_empty_line_is_refused() {
    assert_prints("an empty input", b"", WHOLE, b"NO,10,0\n");
    assert_prints("an empty line", b"\n", WHOLE, b"X,1,1\n");
    assert_prints("a number and an empty line", b"E,0,NUM,1\n\n", WHOLE, b"X,1,2\n");
    assert_prints("a number and a carriage return", b"E,0,NUM,1\r\n", WHOLE, b"X,1,1\n");
    assert_prints("a number", b"E,0,NUM,1", WHOLE, b"OK,0,1\nE,0,RAND,INT\n");
}

#[test]
fn texts_of_each_kind_are_printed_alike() {
    let mut random = Random::seeded(1);
    let (mut kinds, mut starts) = (Counts::default(), Counts::default());
    for _ in 0..TEXTS {
        let (kind, text) = random_text(&mut random);
        let piece = if random.one_in(4) { random.between(1, 100) } else { WHOLE };
        let expected = place(&text);
        let about = format!("{kind:?}, {}", text.escape_ascii());
        assert_prints(&about, &text, piece, &expected);
        kinds.add(kind);
        let start = expected.split(|&byte| byte == b',').take(2).collect::<Vec<_>>().join(&b',');
        let start = if start.starts_with(b"OK") { b"OK".to_vec() } else { start };
        starts.add(String::from_utf8(start).unwrap());
    }
    println!("{kinds:?}\n{starts:?}");
    kinds.assert_each(Kind::all(), 1);
    starts.assert_each(STARTS.map(str::to_string), 1);
    starts.assert_each(["OK".to_string()], TEXTS / 10);
}

#[test]
fn deep_programs_are_printed_alike() {
    for (name, lines) in deep::all() {
        let text = text_of_lines(&lines);
        assert_prints(name, &text, WHOLE, &place(&text));
    }
}

#[test]
fn texts_of_more_than_a_million_bytes_are_refused_alike() {
    for (name, text) in large_texts() {
        assert!(text.len() > 1_000_000);
        let expected = place(&text);
        assert!(expected.starts_with(b"X,"));
        assert_prints(name, &text, WHOLE, &expected);
        assert_prints(name, &text, 4_096, &expected);
    }
}
