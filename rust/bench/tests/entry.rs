//! The rival's entry answers as the second solver's does, so that the measure compares with a right program.

use bench::answers;
use bench::rival::Rival;
use bench::sets;
use second::counts::Counts;
use second::generate::{
    any_bytes, chain, damaged_text, opened, program_with_floors, text_in_any_case, text_of_lines,
    text_of_table, Damage, LetterCase, LetterDamage, Opening, Random,
};
use second::place::number_of;
use second::report::LONGEST_REPORT;
use second::text::lines;
use second::to_try;

/// The rival with the numbers that were answered so far, 0 for accepted.
#[derive(Default)]
struct Compared {
    rival: Rival,
    numbers: Counts<u32>,
}

impl Compared {
    /// Compares the answers to a text, with the whole buffer.
    fn take(&mut self, text: &[u8]) {
        let expected = answers::second(text);
        let found = answers::rival_report(&mut self.rival, text);
        assert!(found == expected, "{} {}: {}", found.0, expected.0, text.escape_ascii());
        self.numbers.add(number_of(expected.0));
    }
}

/// The text of a closed program of up to so many rows; most have floors.
fn program_text(random: &mut Random, rows: usize) -> Vec<u8> {
    let rows = random.between(1, rows);
    let program = program_with_floors(random, rows);
    match random.one_in(2) {
        true => program.text(),
        // Here the redeclarations stand in the lines, so that more programs have a typing.
        false => text_in_any_case(random, &text_of_table(&program.table())),
    }
}

#[test]
fn programs_to_try() {
    let mut rival = Rival::default();
    for program in to_try::all() {
        let (returned, buffer) = answers::rival_report(&mut rival, &program.text);
        assert_eq!(returned, program.returns, "for {}", program.about);
        assert!(buffer.starts_with(program.report().unwrap_or(b"")), "for {}", program.about);
    }
}

#[test]
fn closed_programs() {
    let mut random = Random::seeded(31);
    let mut compared = Compared::default();
    for _ in 0..3_000 {
        let mut text = program_text(&mut random, 256);
        compared.take(&text);
        text.pop();
        compared.take(&text);
    }
    compared.numbers.assert_each([0, 21, 22, 23, 24], 200);
}

#[test]
fn damaged_programs() {
    let mut random = Random::seeded(32);
    let mut compared = Compared::default();
    for _ in 0..20_000 {
        let text = program_text(&mut random, 60);
        compared.take(&damaged_text(&mut random, &text));
    }
    compared.numbers.assert_each([0, 1, 2, 4, 5, 6, 7, 8, 10, 21, 22, 23, 24], 300);
}

#[test]
fn each_damage_to_a_text() {
    let mut random = Random::seeded(33);
    let mut compared = Compared::default();
    for damage in Damage::ALL {
        for _ in 0..300 {
            let text = program_text(&mut random, 256);
            compared.take(&damage.of_text(&mut random, &text));
        }
    }
    compared.numbers.assert_each([0, 1, 2, 10, 21, 22, 23, 24], 50);
}

#[test]
fn each_damage_to_a_letter() {
    let mut random = Random::seeded(34);
    let mut compared = Compared::default();
    for _ in 0..300 {
        let text = program_text(&mut random, 40);
        let all: Vec<&[u8]> = lines(&text).collect();
        for damage in LetterDamage::ALL {
            let place = random.below(all.len());
            if let Some(damaged) = damage.of_line(&mut random, all[place]) {
                compared
                    .take(&[&all[..place], &[&damaged], &all[place + 1..]].concat().join(&b'\n'));
            }
        }
    }
    compared.numbers.assert_each([1], 500);
}

#[test]
fn words_in_each_case() {
    let mut random = Random::seeded(35);
    let mut compared = Compared::default();
    for case in LetterCase::ALL {
        for _ in 0..300 {
            let text = program_text(&mut random, 100);
            compared.take(&case.of_text(&mut random, &text));
        }
    }
    compared.numbers.assert_each([0], 200);
}

#[test]
fn open_programs() {
    let mut random = Random::seeded(36);
    let mut compared = Compared::default();
    for _ in 0..300 {
        let program = program_with_floors(&mut random, 40);
        for opening in Opening::ALL {
            if let Some(lines) = opened(&mut random, &program, opening) {
                compared.take(lines.join("\n").as_bytes());
            }
        }
    }
    compared.numbers.assert_each([10], 1_000);
}

#[test]
fn full_lists() {
    let mut random = Random::seeded(37);
    let mut compared = Compared::default();
    for sample in sets::full(&mut random, 60) {
        compared.take(&sample.text);
        for further in
            ["T,64,INT", "T,64,ARROW,g0,64,g0,0", "P,64,AH,0", "E,255,NUM,1\nE,256,NUM,1"]
        {
            compared.take(&[&sample.text, further.as_bytes()].concat());
        }
        compared.take(&damaged_text(&mut random, &sample.text));
    }
    compared.numbers.assert_each([0], 60);
    compared.numbers.assert_each([3], 240);
}

#[test]
fn chains_and_any_bytes() {
    let mut random = Random::seeded(38);
    let mut compared = Compared::default();
    compared.take(b"");
    for _ in 0..500 {
        compared.take(&chain(&mut random));
        compared.take(&any_bytes(&mut random, 200));
    }
    compared.numbers.assert_each([0, 1, 21, 22, 23], 20);
}

#[test]
fn the_first_refusal_that_applies_is_returned() {
    let mut compared = Compared::default();
    // Row 0 is a child and parameter 0 is bound; row 1 is the last one.
    let lines = "T,0,INT P,0,AH,0 E,0,VAR,0 E,1,LAM,0,0";
    let cases = [
        ("E,9,LAM,9", 1),
        ("T,9,ARROW,g0,9,g0,9", 2),
        ("P,9,g0,9", 2),
        ("E,9,LAM,9,9", 2),
        ("T,1,ARROW,g0,0,g0,1", 4),
        ("T,1,ARROW,g0,1,g0,0", 4),
        ("P,1,g0,1", 4),
        ("E,2,LAM,1,2", 5),
        ("E,2,LAM,1,0", 5),
        ("E,2,LAM,0,2", 6),
        ("E,2,APP,0,2", 6),
        ("E,2,APP,2,0", 6),
        ("E,2,OP,GT,2,2", 6),
        ("E,2,LAM,0,0", 7),
        ("E,2,APP,0,1", 7),
        ("E,2,OP,GT,1,0", 7),
        ("E,2,APP,1,1", 7),
        ("E,2,LAM,0,1", 8),
    ];
    for (line, number) in cases {
        let text = text_of_lines(&format!("{lines} {line}"));
        assert_eq!(answers::second(&text).0, number * 1_000 + 5, "for {line}");
        compared.take(&text);
    }
}

/// An accepted program with a line of each form.
fn all_forms() -> Vec<u8> {
    text_of_lines(
        "T,0,INT T,1,ANY T,2,ARROW,AH,0,g0,1 P,0,g63,2 P,1,g1,1,fhe E,0,VAR,0 E,1,ENC,AH,7
         E,2,APP,0,1 E,3,VAR,1 E,4,NUM,12 E,5,OP,ADD,3,4 E,6,OP,EQ,2,5 E,7,LAM,1,6 E,8,LAM,0,7",
    )
}

#[test]
fn any_byte_at_any_place() {
    let mut compared = Compared::default();
    let text = all_forms();
    compared.take(&text);
    assert_eq!(compared.numbers.of(&0), 1);
    for place in 0..text.len() {
        let (front, back) = text.split_at(place);
        compared.take(&[front, &back[1..]].concat());
        for byte in 0..=u8::MAX {
            compared.take(&[front, &[byte], back].concat());
            compared.take(&[front, &[byte], &back[1..]].concat());
        }
    }
    compared.numbers.assert_each([0, 1, 2, 4, 5, 6, 7], 30);
    compared.numbers.assert_each([8, 21, 22], 2);
}

#[test]
fn any_field_at_any_place() {
    const FIELDS: [&str; 32] = [
        "", "0", "00", "01", "10", "63", "64", "65535", "65536", "4294967295", "4294967296",
        "42949672950", "18446744073709551616", "g0", "g63", "g64", "g065", "g4294967303", "g",
        "gt", "G0", "PLAIN", "rand", "INT", "any", "ARROW", "LAM", "op", "EQ", "ADDADD",
        "AAAAAINT", "AAAAAAAAINT",
    ];
    let mut compared = Compared::default();
    let text = String::from_utf8(all_forms()).unwrap();
    let all: Vec<&str> = text.lines().collect();
    for place in 0..all.len() {
        let fields: Vec<&str> = all[place].split(',').collect();
        for own in 0..=fields.len() {
            for field in FIELDS {
                let replaced = [&fields[..own], &[field], fields.get(own + 1..).unwrap_or(&[])];
                let inserted = [&fields[..own], &[field], &fields[own..]];
                for line in [replaced, inserted].map(|parts| parts.concat().join(",")) {
                    let changed = [&all[..place], &[&line], &all[place + 1..]].concat().join("\n");
                    compared.take(changed.as_bytes());
                }
            }
        }
    }
    compared.numbers.assert_each([0, 1, 2, 4, 5, 6, 7, 8], 1);
}

#[test]
fn short_buffers() {
    let mut rival = Rival::default();
    for length in [0, 1, LONGEST_REPORT - 1] {
        for text in [&all_forms()[..], b"none of the forms", b""] {
            let mut buffer = vec![9; length];
            assert_eq!(rival.report(text, &mut buffer), 11_000);
            assert!(buffer.iter().all(|&byte| byte == 9));
        }
    }
}
