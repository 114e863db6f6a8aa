//! Random programs and calls under random scheme files: a good mix of them, and what holds under every file.

mod common;

use common::{make, text, Infers};
use second::counts::Counts;
use second::generate::{
    accepted_file, accepted_file_of, call_list, call_list_under, chain_under, changed_line_under,
    damaged_text, damaged_text_under, deep, doubling_under, functions_under, program_with_floors,
    program_with_floors_under, text_of_table, text_with_floors_under, what_if_list_under, Call,
    Program, Random, SchemeProperty,
};
use second::line::read_under;
use second::place::{inferred, number_of};
use second::rows::{Parameter, QualifiedRow, Term, TypeRow};
use second::schemes::Code;
use second::text::lines;
use second::{entry, entry_under, Answer, SchemeTable, Table};

/// The answers to closed programs: accepted, or the number of a refusal.
const VERDICTS: [u32; 5] = [0, 21, 22, 23, 24];

/// The scheme table of a random accepted file.
fn any_schemes(random: &mut Random) -> SchemeTable {
    SchemeTable::open(&accepted_file(random)).unwrap()
}

/// A random program of any size under a random scheme table, most of them with floors.
fn any_program(random: &mut Random) -> Program {
    let schemes = any_schemes(random);
    let rows = match random.below(3) {
        0 => random.between(1, 12),
        1 => random.between(1, 60),
        _ => random.between(1, 256),
    };
    program_with_floors_under(random, &schemes, rows)
}

/// The number of an inference's refusal, 0 if it is accepted.
fn number(table: &Table) -> u32 {
    table.infer(&mut [0; 6280]).number
}

#[test]
fn all_lines_are_accepted_and_all_programs_closed() {
    let mut random = Random::seeded(81);
    for _ in 0..800 {
        let program = any_program(&mut random);
        let (mut table, number) = Table::fresh_under(&program.schemes.file());
        assert_eq!(number, 0);
        for line in &program.lines {
            assert_eq!(table.add(line.as_bytes()), 0, "for the line {line}");
        }
        for &(parameter, code) in &program.redeclarations {
            assert_eq!(table.redeclare(parameter, code), 0);
        }
        assert!(table.closed());
        assert_eq!(table, program.table());
    }
}

#[test]
fn all_verdicts_occur_often_and_with_each_property() {
    let mut random = Random::seeded(82);
    let (mut verdicts, mut seen) = (Counts::default(), Counts::default());
    for _ in 0..6_000 {
        let program = any_program(&mut random);
        let verdict = number(&program.table());
        verdicts.add(verdict);
        SchemeProperty::of(&program.schemes).for_each(|property| seen.add((property, verdict)));
    }
    assert!(verdicts.0.keys().eq(&VERDICTS), "{verdicts:?}");
    verdicts.assert_each(VERDICTS, 300);
    for property in SchemeProperty::ALL {
        seen.assert_each(VERDICTS.map(|verdict| (property, verdict)), 10);
    }
}

#[test]
fn reports_have_the_words_of_the_file() {
    let mut random = Random::seeded(83);
    let mut reported = Counts::default();
    for size in (1..=8).cycle().take(2_000) {
        let schemes = SchemeTable::open(&accepted_file_of(&mut random, size)).unwrap();
        let table = program_with_floors_under(&mut random, &schemes, 40).table();
        let printed = String::from_utf8(inferred(&table)).unwrap();
        for line in printed.lines().filter(|_| printed.starts_with("OK")).skip(1) {
            let word = line.split(',').nth(2).unwrap();
            let code = schemes.words().iter().position(|it| it == word);
            reported.add((line.as_bytes()[0], code.expect("the word is one of the file's")));
        }
    }
    for list in *b"GPE" {
        reported.assert_each((0..=8).map(|code| (list, code)), 15);
    }
}

#[test]
fn all_verdicts_occur_in_deep_and_long_programs() {
    for generate in [doubling_under, chain_under, functions_under] {
        let mut random = Random::seeded(84);
        let mut counts = Counts::default();
        for _ in 0..800 {
            let schemes = any_schemes(&mut random);
            let text = generate(&mut random, &schemes);
            let text = text_with_floors_under(&mut random, &schemes, &text);
            let returned = entry_under(&schemes.file(), &text, &mut [0; 6280]);
            counts.add(number_of(returned));
        }
        assert!(counts.0.keys().eq(&VERDICTS), "{counts:?}");
        counts.assert_each(VERDICTS, 10);
    }
}

#[test]
fn random_calls_meet_every_number() {
    let mut random = Random::seeded(85);
    let mut counts = Counts::default();
    for _ in 0..600 {
        let file = accepted_file(&mut random);
        let (mut table, _) = Table::fresh_under(&file);
        let (rows, schemes) = (random.between(1, 100), table.schemes().clone());
        let last = schemes.schemes().count() as u64 + 64;
        for call in call_list_under(&mut random, &schemes, rows) {
            let expected = match call {
                Call::Redeclare(own, _) if own >= table.params.len() as u64 => Some(5),
                Call::Redeclare(_, code) => Some(if code > last { 12 } else { 0 }),
                _ => None,
            };
            let number = make(&mut table, &call);
            assert!(expected.is_none_or(|expected| number == expected), "for {call:?}");
            counts.add(number);
        }
        assert_eq!(*table.schemes(), SchemeTable::open(&file).unwrap());
    }
    counts.assert_each([0, 1, 2, 4, 5, 6, 7, 8, 10, 11, 12, 21, 22, 23, 24], 20);
}

#[test]
fn questions_are_accepted_and_often_change_the_answer() {
    let mut random = Random::seeded(86);
    let mut infers = Infers::default();
    for _ in 0..400 {
        let schemes = any_schemes(&mut random);
        let rows = random.between(1, 60);
        let calls = what_if_list_under(&mut random, &schemes, rows, 5);
        infers.take(&mut Table::fresh_of(schemes), &calls);
    }
    assert!(infers.made >= 2_400 && infers.changed > infers.made / 4, "{infers:?}");
}

#[test]
fn changed_lines_stay_well_formed() {
    let mut random = Random::seeded(87);
    let mut counts = Counts::default();
    for _ in 0..6_000 {
        let schemes = any_schemes(&mut random);
        let changed = changed_line_under(&mut random, &schemes, b"P,1,g0,7,PLAIN");
        let Some(second::Entry::P(1, parameter)) = read_under(&schemes, &changed) else {
            panic!("{} is not read", changed.escape_ascii());
        };
        counts.add(("floor", parameter.floor));
        if parameter.qualifier < schemes.first_variable() {
            counts.add(("qualifier", parameter.qualifier));
        }
    }
    for field in ["floor", "qualifier"] {
        counts.assert_each((0..=8).map(|code| (field, code)), 3);
    }
}

#[test]
fn the_text_of_a_table_fills_it_again() {
    let mut random = Random::seeded(88);
    for _ in 0..200 {
        let filled = any_program(&mut random).table();
        let mut table = Table::fresh_of(filled.schemes().clone());
        for line in lines(&text_of_table(&filled)) {
            assert_eq!(table.add(line), 0, "for the line {}", line.escape_ascii());
        }
        assert_eq!(table, filled);
    }
}

/// What the entry is to return for a file that is accepted: the calls made one after the other.
fn answer_by_calls(file: &[u8], text: &[u8], buffer: &mut [u8]) -> u32 {
    let (mut table, _) = Table::fresh_under(file);
    for (line, own) in lines(text).zip(1..) {
        let refusal = table.add(line);
        if refusal != 0 {
            return refusal * 1_000 + own;
        }
    }
    match table.infer(buffer) {
        Answer { number: 0, length, .. } => 100_000 + length,
        Answer { number, row, .. } => number * 1_000 + row,
    }
}

#[test]
fn the_entry_and_the_calls_agree_on_damaged_texts() {
    let mut random = Random::seeded(89);
    let mut counts = Counts::default();
    for _ in 0..2_500 {
        let program = any_program(&mut random);
        let (file, text) = (program.schemes.file(), program.text());
        let text = damaged_text_under(&mut random, &program.schemes, &text);
        let (mut one, mut other) = ([9; 6290], [9; 6290]);
        let returned = entry_under(&file, &text, &mut one);
        assert_eq!(returned, answer_by_calls(&file, &text, &mut other));
        assert_eq!(one, other);
        counts.add(number_of(returned));
    }
    counts.assert_each([0, 1, 2, 4, 5, 6, 7, 8, 10, 21, 22, 23, 24], 5);
}

/// A file of the same schemes in another order and with other names, and the code there of each code here.
fn renamed(random: &mut Random, schemes: &SchemeTable) -> (SchemeTable, Vec<Code>) {
    let file = String::from_utf8(schemes.file()).unwrap();
    let mut lines: Vec<(Code, &str)> = (1..).zip(file.lines()).collect();
    for last in (1..lines.len()).rev() {
        lines.swap(random.below(last + 1), last);
    }
    let mut codes: Vec<Code> = (0..=schemes.last_variable()).collect();
    let mut renamed = String::new();
    for (new, (old, line)) in (1..).zip(lines) {
        codes[usize::from(old)] = new;
        let name = ["IX", "HAT", "GRAM", "FIFTH", "EI", "DUO", "CO", "BET"][usize::from(new) - 1];
        renamed += &format!("S,{name},{}\n", &line[line.len() - 5..]);
    }
    (SchemeTable::open(renamed.as_bytes()).unwrap(), codes)
}

/// The table with other codes in its rows, under other schemes.
fn recoded(table: &Table, schemes: SchemeTable, codes: &[Code]) -> Table {
    let code = |code: Code| codes[usize::from(code)];
    let row = |it: QualifiedRow| QualifiedRow { qualifier: code(it.qualifier), ..it };
    let mut recoded = Table::fresh_of(schemes);
    recoded.types.extend(table.types.iter().map(|it| match *it {
        TypeRow::Arrow { argument, result } => {
            TypeRow::Arrow { argument: row(argument), result: row(result) }
        }
        other => other,
    }));
    recoded.params.extend(table.params.iter().map(|it| Parameter {
        qualifier: code(it.qualifier),
        floor: code(it.floor),
        ..*it
    }));
    recoded.terms.extend(table.terms.iter().map(|it| match *it {
        Term::Encrypted { scheme, value } => Term::Encrypted { scheme: code(scheme), value },
        other => other,
    }));
    recoded
}

#[test]
fn names_and_the_order_of_lines_change_only_words() {
    let mut random = Random::seeded(90);
    let mut verdicts = Counts::default();
    for _ in 0..1_000 {
        let table = any_program(&mut random).table();
        let (schemes, codes) = renamed(&mut random, table.schemes());
        let other = recoded(&table, schemes, &codes);
        let printed = String::from_utf8(inferred(&table)).unwrap();
        // The third field of a report's line is a word; that of the first line and of a refusal is a number.
        let with_word = |line: &str| {
            let mut fields: Vec<&str> = line.split(',').collect();
            let code = table.schemes().of_word(fields[2].as_bytes());
            if let Some(code) = code {
                fields[2] = other.schemes().word(codes[usize::from(code)]);
            }
            fields.join(",") + "\n"
        };
        let expected: String = printed.lines().map(with_word).collect();
        assert_eq!(String::from_utf8(inferred(&other)).unwrap(), expected);
        verdicts.add(number(&table));
    }
    verdicts.assert_each(VERDICTS, 50);
}

/// The file of the six, by hand.
const SIX: &str = "S,FHE,11111 S,OP,00111 S,DET,00100 S,MH,01000 S,AH,10000 S,RAND,00000";

#[test]
fn texts_are_answered_alike_under_the_file_of_the_six() {
    let mut random = Random::seeded(91);
    let mut counts = Counts::default();
    let mut texts: Vec<Vec<u8>> = deep::all().iter().map(|(_, lines)| text(lines)).collect();
    for _ in 0..1_500 {
        let rows = random.between(1, 120);
        let text = program_with_floors(&mut random, rows).text();
        texts.push(damaged_text(&mut random, &text));
        texts.push(text);
    }
    for bytes in texts {
        let (mut one, mut other) = ([9; 6290], [9; 6290]);
        let returned = entry(&bytes, &mut one);
        assert_eq!(entry_under(&text(SIX), &bytes, &mut other), returned);
        assert_eq!(one, other);
        counts.add(number_of(returned));
    }
    counts.assert_each([0, 1, 2, 4, 5, 6, 7, 8, 10, 21, 22, 23, 24], 5);
}

#[test]
fn calls_are_answered_alike_under_the_file_of_the_six() {
    let mut random = Random::seeded(92);
    let mut counts = Counts::default();
    for rows in 1..=150 {
        let (mut one, mut other) = (Table::fresh(), Table::fresh_under(&text(SIX)).0);
        for call in call_list(&mut random, rows) {
            let number = make(&mut one, &call);
            assert_eq!(make(&mut other, &call), number, "for {call:?}");
            assert_eq!(one, other);
            counts.add(number);
        }
        assert_eq!(inferred(&one), inferred(&other));
    }
    counts.assert_each([0, 1, 2, 5, 10, 11, 12, 21, 22, 23, 24], 3);
}
