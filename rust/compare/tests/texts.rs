//! The C entry and the reference solver give the same number and the same bytes for the same text.

use compare::buffers::{filled_buffer, inner, shown, MARGIN};
use compare::calls::filling_lines;
use compare::placement_report;
use compare::questions::{assert_answer, assert_answers, Question, Room, Tally};
use compare::texts::{closed_text, filled_table, large_texts, random_text, Kind};
use compare::words::WordCounts;
use second::counts::Counts;
use second::generate::{
    chain, deep, doubling, functions, possible_words, text_of_lines, text_with_floors, Damage,
    Floors, FunctionCounts, LetterCase, NumberCounts, Partner, Place, Random,
};
use second::operation::Operation;
use second::place::number_of;
use second::report::LONGEST_REPORT;
use second::rows::TypeRow;
use second::schemes::PLAIN;
use second::text::lines;
use second::to_try;
use second::{SchemeTable, Table};

/// How many texts of all kinds are compared.
const TEXTS: usize = 70_000;

/// How many closed tables are compared, and how many of each special kind.
const TABLES: usize = 30_000;
const SPECIAL_TABLES: usize = 2_000;

/// The answers to closed programs: accepted, or the number of a refusal.
const VERDICTS: [u32; 5] = [0, 21, 22, 23, 24];

#[test]
fn program_a_has_its_report_in_full() {
    let program = b"T,0,ANY\nP,0,g0,0\nE,0,VAR,0\nE,1,VAR,0\nE,2,OP,ADD,0,1\nE,3,LAM,0,2\n";
    let report = b"OK,1,4\nG,0,AH\nP,0,AH,INT\nE,0,AH,INT\nE,1,AH,INT\nE,2,AH,INT\n\
                   E,3,PLAIN,ARROW\n";
    assert_answers("program A", Question::of_six(program), 100_074, report);
    let unended = Question::of_six(program.strip_suffix(b"\n").unwrap());
    assert_answers("program A without its last line feed", unended, 100_074, report);
}

#[test]
fn each_program_to_try_is_answered_as_the_documents_say() {
    for program in to_try::all() {
        let report = program.report().unwrap_or(b"");
        let question = Question::of_six(&program.text);
        assert_answers(program.about, question, program.returns, report);
    }
}

#[test]
fn a_short_buffer_is_refused_before_the_text_is_looked_at() {
    let mut texts: Vec<Vec<u8>> = to_try::all().into_iter().map(|program| program.text).collect();
    texts.extend([b"\n".to_vec(), b"none of the forms".to_vec()]);
    for text in texts {
        for length in [0, 1, 2, 6_278, 6_279] {
            assert_answer("a short buffer", Question::of_six(&text), length, 11_000, b"");
        }
    }
}

#[test]
fn each_line_of_a_text_is_named() {
    let lines: Vec<String> = filling_lines().chain(["E,256,NUM,1".to_string()]).collect();
    let full = lines.join("\n");
    assert_answers("a full table and a row", Question::of_six(full.as_bytes()), 3_385, b"");
    for line in 1..=385 {
        let mut damaged = lines.clone();
        damaged[line - 1] = String::new();
        damaged.push("T,0,INT".to_string());
        let text = damaged.join("\n");
        let question = Question::of_six(text.as_bytes());
        assert_answers("an empty line", question, 1_000 + line as u32, b"");
    }
}

#[test]
fn each_row_of_a_long_sum_is_named() {
    let sum = deep::long_sum();
    for leaf in (3..255).step_by(2) {
        let (variable, row) = (format!("E,{leaf},VAR,0"), leaf as u32 + 1);
        let encrypted = |scheme: &str| sum.replace(&variable, &format!("E,{leaf},ENC,{scheme},1"));
        let number = |lines: String| {
            let mut bytes = [0; LONGEST_REPORT + 2 * MARGIN];
            placement_report(&text_of_lines(&lines), inner(&mut bytes))
        };
        let applied = format!("E,{row},OP,ADD");
        assert_eq!(number(sum.replace(&applied, &format!("E,{row},APP"))), 21_000 + row);
        let fhe_first = encrypted("AH").replace("E,0,VAR,0", "E,0,ENC,FHE,1");
        assert_eq!(number(fhe_first), 22_000 + row);
        assert_eq!(number(encrypted("MH")), 23_000 + row);
        assert!(number(encrypted("FHE")) > 100_000);
        // A number follows the sum, and so does a first one.
        assert!(number(sum.replace(&variable, &format!("E,{leaf},NUM,1"))) > 100_000);
        let number_first = encrypted("AH").replace("E,0,VAR,0", "E,0,NUM,1");
        assert!(number(number_first) > 100_000);
    }
}

#[test]
fn each_parameter_of_a_missed_floor_is_named() {
    for missed in 0..Table::PARAMETER_LIMIT {
        let mut lines = String::from("T,0,INT E,0,NUM,1");
        for own in 0..Table::PARAMETER_LIMIT {
            // All floors below this parameter's are met, and some above it are missed too.
            let declared = match own {
                _ if own < missed => "g0,0,RAND",
                _ if (own - missed) % 3 == 0 => "DET,0,AH",
                _ => "MH,0,FHE",
            };
            lines += &format!(" P,{own},{declared} E,{},LAM,{own},{own}", own + 1);
        }
        let text = text_of_lines(&lines);
        let question = Question::of_six(&text);
        assert_answers("a missed floor", question, 24_000 + missed as u32, b"");
        assert_answer("a short buffer", question, LONGEST_REPORT - 1, 11_000, b"");
    }
}

#[test]
fn texts_of_each_kind_are_answered_alike() {
    let mut random = Random::seeded(1);
    let mut tally = Tally::default();
    let (mut kinds, mut by_kind, mut features) =
        (Counts::default(), Counts::default(), Counts::default());
    for _ in 0..TEXTS {
        let (kind, text) = random_text(&mut random);
        let room = Room::random(&mut random);
        let about = format!("{kind:?}");
        let returned = tally.compare(&mut random, &about, Question::of_six(&text), room);
        kinds.add(kind);
        if returned != 11_000 {
            by_kind.add((kind, number_of(returned)));
            features_of(&text).for_each(|feature| features.add(feature));
        }
    }
    println!("{:?}\n{:?}\n{:?}", kinds.0, by_kind.0, features.0);
    kinds.assert_each(Kind::all(), TEXTS / 100);
    tally.rooms.assert_each(Room::ALL, TEXTS / 20);
    tally.answers.assert_each([0, 1, 2, 10, 11, 21, 22, 23, 24], TEXTS / 100);
    tally.answers.assert_each([3, 4, 5, 6, 7, 8], TEXTS / 500);
    for kind in [Kind::Closed, Kind::NoLastLineFeed, Kind::Damaged(Damage::FieldChanged)] {
        by_kind.assert_each(VERDICTS.map(|number| (kind, number)), TEXTS / 500);
    }
    // A word may be in the other case, a tag and the g of a variable may not.
    let case_changed = Kind::Damaged(Damage::CaseChanged);
    by_kind.assert_each([0, 1].map(|number| (case_changed, number)), TEXTS / 500);
    for kind in Kind::all() {
        if let Kind::Open(_) = kind {
            let open = by_kind.of(&(kind, 10));
            assert!(open >= TEXTS / 200, "{kind:?} occurred {open} times only");
        }
    }
    features.assert_each(FEATURES.iter().map(|&(name, _)| name), TEXTS / 200);
    assert!(tally.lines.0.len() > 300, "{} lines were named only", tally.lines.0.len());
    assert!(tally.rows.0.len() > 150, "{} rows were named only", tally.rows.0.len());
    let parameters = tally.parameters.0.len();
    assert!(parameters > 40, "{parameters} parameters were named only");
    tally.assert_each_word(SchemeTable::six().qualifiers(), TEXTS / 7_000);
    tally.assert_each_free_word([PLAIN, SchemeTable::six().greatest()], TEXTS / 7_000);
    tally.finish(&format!("{TEXTS} texts"));
}

#[test]
fn the_case_of_words_changes_no_answer() {
    let mut random = Random::seeded(6);
    let mut tally = Tally::default();
    let (mut kinds, mut changed) = (Counts::default(), 0);
    for _ in 0..SPECIAL_TABLES {
        let (kind, text) = random_text(&mut random);
        let about = format!("{kind:?}");
        let capitals = LetterCase::Capitals.of_text(&mut random, &text);
        let expected = answer(&capitals);
        for case in LetterCase::ALL {
            let written = case.of_text(&mut random, &text);
            assert!(answer(&written) == expected, "for {about}, {}", shown(&written));
            let question = Question::of_six(&written);
            let returned = tally.compare(&mut random, &about, question, Room::Exact);
            assert_eq!(returned, expected.0, "for {about}, {}", shown(&written));
            changed += usize::from(written != capitals);
        }
        kinds.add(kind);
    }
    println!("{:?}\n{:?}\n{changed}", kinds.0, tally.answers.0);
    kinds.assert_each(Kind::all(), SPECIAL_TABLES / 200);
    tally.answers.assert_each([0, 1, 2, 10, 21, 22, 23, 24], SPECIAL_TABLES / 50);
    assert!(changed > SPECIAL_TABLES, "{changed} texts were in another case only");
}

/// What the C entry returns for a text, with the buffer and its margins after the call.
fn answer(text: &[u8]) -> (u32, Vec<u8>) {
    let mut bytes = filled_buffer(0xA5, LONGEST_REPORT);
    (placement_report(text, inner(&mut bytes)), bytes)
}

/// Something that can be seen in a text, with the test for it.
type Feature = (&'static str, fn(&[u8]) -> bool);

/// What can be seen in a text.
const FEATURES: [Feature; 8] = [
    ("no bytes", <[u8]>::is_empty),
    ("a last line without line feed", |text| text.last().is_some_and(|&byte| byte != b'\n')),
    ("an empty line", |text| lines(text).any(<[u8]>::is_empty)),
    ("an empty first line", |text| text.first() == Some(&b'\n')),
    ("a carriage return", |text| text.contains(&b'\r')),
    ("a line of 64 bytes", |text| lines(text).any(|line| line.len() == 64)),
    ("a line of 65 bytes", |text| lines(text).any(|line| line.len() == 65)),
    ("more than 385 lines", |text| lines(text).count() > 385),
];

/// The names of what can be seen in a text.
fn features_of(text: &[u8]) -> impl Iterator<Item = &'static str> + '_ {
    FEATURES.iter().filter(|(_, occurs)| occurs(text)).map(|&(name, _)| name)
}

#[test]
fn tables_of_each_size_are_answered_alike() {
    let mut random = Random::seeded(2);
    let mut tally = Tally::default();
    let (mut sizes, mut floors) = (Counts::default(), Counts::default());
    let (mut numbers, mut words) = (NumberCounts::default(), WordCounts::default());
    for _ in 0..TABLES {
        let text = closed_text(&mut random);
        let table = filled_table(Table::fresh(), &text);
        assert!(table.closed());
        sizes.add(table.terms.len());
        floors.add(Floors::of(&table));
        numbers.take(&table);
        words.take_text(&text);
        tally.compare(&mut random, "a closed table", Question::of_six(&text), Room::Exact);
    }
    println!("{:?}\n{numbers:?}\n{words:?}", floors.0);
    sizes.assert_each(1..=Table::TERM_LIMIT, 5);
    floors.assert_each(Floors::ALL, TABLES / 50);
    floors.assert_each([Floors::Plain, Floors::NoTyping, Floors::Met], TABLES / 8);
    assert_eq!(tally.answers.0.keys().copied().collect::<Vec<u32>>(), VERDICTS);
    tally.answers.assert_each(VERDICTS, TABLES / 20);
    let six = SchemeTable::six();
    tally.assert_each_word(six.qualifiers(), TABLES / 3_000);
    tally.assert_each_free_word([PLAIN, six.greatest()], TABLES / 3_000);
    numbers.places.assert_each(Place::all(), TABLES / 60);
    numbers.partners.assert_each(Partner::all(six), TABLES / 200);
    numbers.words.assert_each(six.words(), TABLES / 20);
    numbers.operand_words.assert_each(possible_words(six), TABLES / 600);
    numbers.different_words.assert_each(2..=4, TABLES / 100);
    words.assert_each(TABLES / 300);
    tally.finish(&format!("{TABLES} closed tables"));
}

#[test]
fn tables_with_deep_sharing_are_answered_alike() {
    let mut random = Random::seeded(3);
    let (mut tally, mut numbers) = (Tally::default(), NumberCounts::default());
    for _ in 0..SPECIAL_TABLES {
        let text = doubling(&mut random);
        let text = text_with_floors(&mut random, &text);
        let table = filled_table(Table::fresh(), &text);
        let types = &table.types;
        assert_eq!(types.len(), Table::TYPE_LIMIT);
        assert!((1..types.len()).all(|row| uses_twice(&types[row], row - 1)));
        numbers.take(&table);
        tally.compare(&mut random, "deep sharing", Question::of_six(&text), Room::Longer);
    }
    numbers.places.assert_each(Place::operands(), SPECIAL_TABLES / 40);
    tally.answers.assert_each(VERDICTS, SPECIAL_TABLES / 50);
    tally.finish(&format!("{SPECIAL_TABLES} tables with deep sharing"));
}

/// Tells whether a type row is an arrow from and to another one.
fn uses_twice(row: &TypeRow, other: usize) -> bool {
    let parts = row.parts();
    parts.len() == 2 && parts.iter().all(|part| usize::from(part.type_row) == other)
}

#[test]
fn chains_of_256_rows_are_answered_alike() {
    let mut random = Random::seeded(4);
    let (mut tally, mut numbers) = (Tally::default(), NumberCounts::default());
    for _ in 0..SPECIAL_TABLES {
        let text = chain(&mut random);
        let text = text_with_floors(&mut random, &text);
        let table = filled_table(Table::fresh(), &text);
        assert_eq!((table.terms.len(), table.closed()), (Table::TERM_LIMIT, true));
        numbers.take(&table);
        tally.compare(&mut random, "a chain of 256 rows", Question::of_six(&text), Room::Exact);
    }
    let arithmetic = [Operation::Add, Operation::Mul];
    let operands = arithmetic.map(Place::Left).into_iter().chain(arithmetic.map(Place::Right));
    numbers.places.assert_each(operands.chain([Place::Argument]), SPECIAL_TABLES);
    tally.answers.assert_each(VERDICTS, SPECIAL_TABLES / 50);
    tally.finish(&format!("{SPECIAL_TABLES} chains of 256 rows"));
}

#[test]
fn tables_about_functions_are_answered_alike() {
    let mut random = Random::seeded(7);
    let (mut tally, mut seen) = (Tally::default(), FunctionCounts::default());
    for _ in 0..SPECIAL_TABLES {
        let text = functions(&mut random);
        let text = text_with_floors(&mut random, &text);
        seen.take(&filled_table(Table::fresh(), &text));
        tally.compare(&mut random, "functions", Question::of_six(&text), Room::Exact);
    }
    println!("{seen:?}");
    seen.assert_each(SPECIAL_TABLES / 50);
    tally.answers.assert_each(VERDICTS, SPECIAL_TABLES / 50);
    // The lines alone are refused at row 0, and other rows too.
    assert!(tally.rows.0.len() > 50, "{} rows were named only", tally.rows.0.len());
    tally.finish(&format!("{SPECIAL_TABLES} tables about functions"));
}

#[test]
fn the_worst_texts_are_answered_alike_and_in_time() {
    let mut random = Random::seeded(5);
    let mut tally = Tally::default();
    let filling: Vec<String> = filling_lines().collect();
    let mut texts = vec![("a full table", filling.join("\n").into_bytes())];
    texts.extend(deep::all().into_iter().map(|(name, lines)| (name, text_of_lines(&lines))));
    texts.extend(large_texts());
    for (name, text) in texts {
        for room in Room::ALL {
            tally.compare(&mut random, name, Question::of_six(&text), room);
        }
    }
    tally.answers.assert_each([0, 1, 11, 21], 10);
    tally.answers.assert_each([2, 3, 10, 22, 24], 2);
    tally.finish("the worst texts");
}
