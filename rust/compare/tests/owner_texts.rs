//! Under scheme files, the C entry and the reference solver give the same number and the same bytes for the same text.

use compare::buffers::{filled_buffer, inner, shown, with_any_byte};
use compare::questions::{assert_answer, assert_answers, Question, Room, Tally};
use compare::sessions::LONGEST_FILE;
use compare::texts::{
    closed_text_under, filled_table, large_texts, random_text, random_text_under, Kind,
};
use compare::{placement_report, placement_report_under};
use second::counts::Counts;
use second::examples::{bytes, files, scheme_files, tables_of};
use second::generate::{
    accepted_file, accepted_file_of, chain_under, deep, doubling_under, functions_under,
    text_of_lines, text_with_floors_under, Floors, LineFault, NumberCounts, OrderFaults, Place,
    PlainByBounds, Random, SchemeFile, SchemeProperty,
};
use second::operation::Operation;
use second::place::{number_of, returned_for};
use second::report::LONGEST_REPORT;
use second::schemes::SIX_FILE;
use second::{entry, SchemeTable, Table};

/// How many texts of all kinds are compared, under files of all kinds.
const TEXTS: usize = 24_000;

/// How many closed tables are compared, and how many of each special kind.
const TABLES: usize = 16_000;
const SPECIAL_TABLES: usize = 1_600;

/// How many texts are compared with and without the file of the six.
const TEXTS_OF_THE_SIX: usize = 6_000;

/// The answers to closed programs: accepted, or the number of a refusal.
const VERDICTS: [u32; 5] = [0, 21, 22, 23, 24];

/// What is wanted of scheme tables most of all.
const NAMED_PROPERTIES: [SchemeProperty; 5] = [
    SchemeProperty::OneScheme,
    SchemeProperty::EightSchemes,
    SchemeProperty::NoFullScheme,
    SchemeProperty::GreatestSupports,
    SchemeProperty::GreatestNotLast,
];

/// What was seen of closed texts under many accepted files.
#[derive(Default)]
struct Seen {
    tally: Tally,
    /// What the scheme tables have, by the answer.
    properties: Counts<(SchemeProperty, u32)>,
    /// How many schemes there are, by the answer.
    sizes: Counts<(usize, u32)>,
    plain_by_bounds: Counts<PlainByBounds>,
    floors: Counts<Floors>,
    numbers: NumberCounts,
}

impl Seen {
    /// Compares a closed text under an accepted file and counts what is seen of it; gives the table.
    fn compare(&mut self, random: &mut Random, about: &str, file: &[u8], text: &[u8]) -> Table {
        let table = filled_table(Table::fresh_of(SchemeTable::open(file).unwrap()), text);
        assert!(table.closed());
        let room = if random.one_in(2) { Room::Exact } else { Room::Longer };
        let returned = self.tally.compare(random, about, Question::under(file, text), room);
        self.take(&table, number_of(returned));
        table
    }

    /// Counts a table by its answer.
    fn take(&mut self, table: &Table, number: u32) {
        let schemes = table.schemes();
        SchemeProperty::of(schemes).for_each(|property| self.properties.add((property, number)));
        self.sizes.add((schemes.schemes().count(), number));
        PlainByBounds::of(table).into_iter().for_each(|reason| self.plain_by_bounds.add(reason));
        self.floors.add(Floors::of(table));
        self.numbers.take(table);
    }

    /// Asserts that all answers occurred and no others, and each with each property and each number of schemes so often.
    fn assert_each(&self, fewest: usize) {
        assert_eq!(self.tally.answers.0.keys().copied().collect::<Vec<u32>>(), VERDICTS);
        for number in VERDICTS {
            self.properties.assert_each(SchemeProperty::ALL.map(|it| (it, number)), fewest);
            self.sizes.assert_each((1..=8).map(|size| (size, number)), fewest);
        }
    }

    /// Asserts that each answer occurred with each of the properties most wanted so often, and each reason to be PLAIN too.
    fn assert_each_named(&self, fewest: usize) {
        for number in VERDICTS {
            self.properties.assert_each(NAMED_PROPERTIES.map(|it| (it, number)), fewest);
        }
        self.plain_by_bounds.assert_each(PlainByBounds::ALL, fewest);
    }

    /// Prints the counts for those who want to see them, and the slowest call for all.
    fn finish(&self, inputs: &str) {
        println!("{:?}\n{:?}", self.properties.0, self.sizes.0);
        println!("{:?}\n{:?}\n{:?}", self.plain_by_bounds.0, self.floors.0, self.numbers.places.0);
        self.tally.finish(inputs);
    }
}

/// Asserts what is returned and written for a program under a file, all three given as words separated by white space.
fn assert_report(file: &str, program: &str, report: &str) {
    let (file, text, report) = (text_of_lines(file), text_of_lines(program), text_of_lines(report));
    let returns = 100_000 + report.len() as u32;
    assert_answers(program, Question::under(&file, &text), returns, &report);
}

/// Asserts what is returned for a program under a file, both given as words separated by white space; nothing is written.
fn assert_refused(file: &str, program: &str, returns: u32) {
    let (file, text) = (text_of_lines(file), text_of_lines(program));
    assert_answers(program, Question::under(&file, &text), returns, b"");
}

/// Sums or products, but no scheme for both, and none for a comparison.
const SUM_OR_PRODUCT: &str = "S,R,00000 S,A,10000 S,M,01000";

/// x declared by these fields, with an operation on x and x and another on the result and x.
fn two_operations(declared: &str, first: &str, second: &str) -> String {
    format!(
        "T,0,ANY P,0,{declared} E,0,VAR,0 E,1,VAR,0 E,2,OP,{first},0,1 E,3,VAR,0
         E,4,OP,{second},2,3 E,5,LAM,0,4"
    )
}

/// The report of that where all integers have one word.
fn report_of_two(variable: &str, word: &str) -> String {
    let rows: String = (0..5).map(|row| format!(" E,{row},{word},INT")).collect();
    format!("OK,1,6 {variable} P,0,{word},INT {rows} E,5,PLAIN,ARROW")
}

#[test]
fn worked_out_programs_are_reported() {
    for (file, first, second, word) in [
        (SUM_OR_PRODUCT, "ADD", "ADD", "A"),
        (SUM_OR_PRODUCT, "MUL", "MUL", "M"),
        // No scheme is below both A and M, so that only PLAIN is left.
        (SUM_OR_PRODUCT, "ADD", "MUL", "PLAIN"),
        ("S,ONE,11111", "ADD", "MUL", "ONE"),
        ("S,ONE,00000", "ADD", "ADD", "PLAIN"),
        ("S,F,11111 S,R,00000 S,A,10000 S,M,01000", "ADD", "MUL", "F"),
        ("S,LOW,11000 S,SUM,10000", "ADD", "ADD", "SUM"),
        ("S,LOW,11000 S,SUM,10000", "MUL", "ADD", "LOW"),
    ] {
        let program = two_operations("g7,0", first, second);
        assert_report(file, &program, &report_of_two(&format!("G,7,{word}"), word));
        // PLAIN supports everything, and so does a word at or below the highest.
        for declared in ["PLAIN", word] {
            let program = two_operations(&format!("{declared},0"), first, second);
            assert_report(file, &program, &report_of_two("", declared));
        }
    }
    // Nothing is asked of the number, so that it has the greatest scheme, wherever that stands.
    for (file, greatest) in [
        (SUM_OR_PRODUCT, "R"),
        ("S,ALL,11111 S,EQ,00100 S,ADD,10100 S,LT,00110", "EQ"),
        ("S,FHE,00000 S,RAND,11111", "FHE"),
    ] {
        assert_report(file, "E,0,NUM,1", &format!("OK,0,1 E,0,{greatest},INT"));
    }
    // A scheme named G is read of g alone, and g0 is a variable.
    assert_report(
        "S,G,00000",
        "T,0,INT P,0,g,0,G P,1,g0,0 E,0,NUM,1 E,1,LAM,0,0 E,2,LAM,1,1",
        "OK,2,3 G,0,G P,0,G,INT P,1,G,INT E,0,G,INT E,1,PLAIN,ARROW E,2,PLAIN,ARROW",
    );
}

#[test]
fn worked_out_programs_are_refused() {
    let sum_of = |one: &str, other: &str| format!("E,0,ENC,{one},1 E,1,{other},1 E,2,OP,ADD,0,1");
    for (file, program, returns) in [
        // AH is no word of this file.
        (SUM_OR_PRODUCT, sum_of("AH", "NUM"), 1_001),
        (SUM_OR_PRODUCT, sum_of("PLAIN", "NUM"), 1_001),
        (SUM_OR_PRODUCT, "T,0,INT P,0,A,0,RAND".to_string(), 1_002),
        (SUM_OR_PRODUCT, "E,0,NUM,1 E,1,NUM,1".to_string(), 10_000),
        (SUM_OR_PRODUCT, "E,0,ENC,A,1 E,1,NUM,1 E,2,APP,0,1".to_string(), 21_002),
        (SUM_OR_PRODUCT, sum_of("A", "ENC,M"), 22_002),
        (SUM_OR_PRODUCT, sum_of("M", "NUM"), 23_002),
        (SUM_OR_PRODUCT, sum_of("r", "NUM"), 23_002),
        // A sum leaves A, which is not at or above R or M.
        (SUM_OR_PRODUCT, two_operations("g0,0,R", "ADD", "ADD"), 24_000),
        (SUM_OR_PRODUCT, two_operations("g0,0,M", "ADD", "ADD"), 24_000),
        (SUM_OR_PRODUCT, two_operations("g0,0,A", "ADD", "MUL"), 24_000),
        ("S,A,00000 S,A,10000", "E,0,NUM,1".to_string(), 25_000),
        ("S,A,10000 S,B,01000", "E,0,NUM,1".to_string(), 26_000),
        ("S,Z,00000 S,A,10000 S,B,01000 S,C,11100 S,D,11010", "no line".to_string(), 26_000),
        ("S,Z,00000 S,A,10001 S,B,01001", "no line".to_string(), 27_000),
        ("", "E,0,NUM,1".to_string(), 25_000),
    ] {
        assert_refused(file, &program, returns);
    }
}

/// Asserts that a refused file is refused before any line is read, and after a buffer that is too short.
fn assert_file_refused(random: &mut Random, file: &SchemeFile) {
    let (kind, text) = random_text(random);
    let (about, question) = (format!("{kind:?}, {file:?}"), Question::under(&file.bytes, &text));
    let (long, short) = (LONGEST_REPORT + random.below(3), random.below(LONGEST_REPORT));
    assert_answer(&about, question, long, file.number() * 1_000, b"");
    assert_answer(&about, question, short, 11_000, b"");
    assert_answer(&about, question, LONGEST_REPORT - 1, 11_000, b"");
}

#[test]
fn files_with_each_fault_are_refused() {
    let mut random = Random::seeded(1);
    let mut numbers = Counts::default();
    for order_faults in OrderFaults::all() {
        let line_faults = LineFault::all().into_iter().map(Some).chain([None]);
        for line_fault in line_faults.filter(|it| (*it, order_faults) != (None, OrderFaults::NONE))
        {
            // Few files have no fault in their lines.
            for _ in 0..if line_fault.is_some() { 20 } else { 300 } {
                let file = SchemeFile::with(&mut random, line_fault, order_faults);
                assert_file_refused(&mut random, &file);
                numbers.add(file.number());
            }
        }
    }
    println!("{:?}", numbers.0);
    numbers.assert_each([26], 1_800);
    numbers.assert_each([27], 300);
    numbers.assert_each([25], 3_000);
}

/// A scheme file for a text of any kind with the number that refuses it or 0: mostly accepted, now and then that of the six.
fn any_file(random: &mut Random) -> (Vec<u8>, u32) {
    match random.below(20) {
        0 => (SIX_FILE.to_vec(), 0),
        1..=15 => (accepted_file(random), 0),
        _ => {
            let file = SchemeFile::refused(random);
            (file.bytes.clone(), file.number())
        }
    }
}

#[test]
fn texts_of_each_kind_are_answered_alike() {
    let mut random = Random::seeded(2);
    let mut tally = Tally::default();
    let (mut kinds, mut by_kind, mut short) =
        (Counts::default(), Counts::default(), Counts::default());
    for _ in 0..TEXTS {
        let (file, refusal) = any_file(&mut random);
        let schemes = SchemeTable::open(&file).unwrap_or(SchemeTable::six().clone());
        let (kind, text) = random_text_under(&mut random, &schemes);
        let (about, room) = (format!("{kind:?}"), Room::random(&mut random));
        let returned = tally.compare(&mut random, &about, Question::under(&file, &text), room);
        kinds.add(kind);
        match number_of(returned) {
            11 => short.add(refusal),
            number if refusal == 0 => by_kind.add((kind, number)),
            number => assert_eq!(number, refusal),
        }
    }
    println!("{:?}\n{:?}\n{:?}", kinds.0, by_kind.0, short.0);
    kinds.assert_each(Kind::all(), TEXTS / 100);
    tally.rooms.assert_each(Room::ALL, TEXTS / 20);
    tally.answers.assert_each([0, 1, 2, 10, 11, 21, 22, 23, 24, 25, 26], TEXTS / 100);
    tally.answers.assert_each([3, 4, 5, 6, 7, 8, 27], TEXTS / 500);
    short.assert_each([0, 25, 26], TEXTS / 100);
    short.assert_each([27], TEXTS / 500);
    by_kind.assert_each(VERDICTS.map(|number| (Kind::Closed, number)), TEXTS / 200);
    assert!(tally.lines.0.len() > 200, "{} lines were named only", tally.lines.0.len());
    assert!(tally.rows.0.len() > 100, "{} rows were named only", tally.rows.0.len());
    tally.finish(&format!("{TEXTS} texts under files"));
}

#[test]
fn tables_of_each_size_are_answered_alike() {
    let mut random = Random::seeded(3);
    let (mut seen, mut rows) = (Seen::default(), Counts::default());
    for size in (1..=SchemeTable::MOST_SCHEMES).cycle().take(TABLES) {
        let file = accepted_file_of(&mut random, size);
        let text = closed_text_under(&mut random, &SchemeTable::open(&file).unwrap());
        rows.add(seen.compare(&mut random, "a closed table", &file, &text).terms.len());
    }
    seen.finish(&format!("{TABLES} closed tables under files"));
    rows.assert_each(1..=Table::TERM_LIMIT, 2);
    seen.assert_each(TABLES / 800);
    seen.assert_each_named(TABLES / 320);
    seen.tally.assert_each_word(0..=5, TABLES / 800);
    seen.tally.assert_each_free_word(0..=4, TABLES / 800);
    // Few files have so many schemes.
    seen.tally.assert_each_word(6..=8, TABLES / 4_000);
    seen.tally.assert_each_free_word(5..=8, TABLES / 4_000);
    seen.floors.assert_each(Floors::ALL, TABLES / 50);
    seen.numbers.places.assert_each(Place::all(), TABLES / 60);
    seen.numbers.different_words.assert_each(2..=4, TABLES / 100);
}

#[test]
fn tables_with_deep_sharing_and_long_chains_and_about_functions_are_answered_alike() {
    for (about, generate) in [
        ("deep sharing", doubling_under as fn(&mut Random, &SchemeTable) -> Vec<u8>),
        ("a chain of 256 rows", chain_under),
        ("functions", functions_under),
    ] {
        let (mut random, mut seen) = (Random::seeded(4), Seen::default());
        for size in (1..=SchemeTable::MOST_SCHEMES).cycle().take(SPECIAL_TABLES) {
            let file = accepted_file_of(&mut random, size);
            let schemes = SchemeTable::open(&file).unwrap();
            let text = generate(&mut random, &schemes);
            let text = text_with_floors_under(&mut random, &schemes, &text);
            seen.compare(&mut random, about, &file, &text);
        }
        seen.finish(&format!("{SPECIAL_TABLES} tables with {about} under files"));
        seen.tally.answers.assert_each(VERDICTS, SPECIAL_TABLES / 50);
        for number in [0, 21, 23] {
            seen.sizes.assert_each((1..=8).map(|size| (size, number)), SPECIAL_TABLES / 800);
        }
    }
}

/// The six with other names, each of five letters.
const RENAMED_SIX: [(&str, &str, &str); 6] = [
    ("FHE", "FULLY", "11111"),
    ("OP", "ORDER", "00111"),
    ("DET", "EQUAL", "00100"),
    ("MH", "TIMES", "01000"),
    ("AH", "ADDED", "10000"),
    ("RAND", "CRYPT", "00000"),
];

/// The name in the place of a word of the six; PLAIN and other fields stay.
fn renamed(field: &str) -> &str {
    RENAMED_SIX.iter().find(|it| it.0 == field).map_or(field, |it| it.1)
}

/// Lines with other names in the places of the words of the six; the OP of an E line's third field stays.
fn with_names(lines: &str) -> String {
    let line = |line: &str| {
        let fields: Vec<&str> = line.split(',').collect();
        let name = |(place, &field)| match (fields[0], place, field) {
            ("E", 2, "OP") if fields.len() == 6 => field,
            _ => renamed(field),
        };
        fields.iter().enumerate().map(name).collect::<Vec<&str>>().join(",") + "\n"
    };
    lines.split_whitespace().map(line).collect()
}

#[test]
fn deep_programs_are_answered_in_the_names_of_the_file() {
    let file: String = RENAMED_SIX.iter().map(|it| format!("S,{},{}\n", it.1, it.2)).collect();
    let mut answers = Counts::default();
    for (name, lines) in deep::all() {
        let mut report = vec![0; LONGEST_REPORT];
        let returns = entry(&text_of_lines(&lines), &mut report);
        answers.add(number_of(returns));
        report.truncate(returns.saturating_sub(100_000) as usize);
        let report = with_names(&String::from_utf8(report).unwrap());
        let returns = if report.is_empty() { returns } else { 100_000 + report.len() as u32 };
        let text = with_names(&lines);
        let question = Question::under(file.as_bytes(), text.as_bytes());
        assert_answers(name, question, returns, report.as_bytes());
    }
    answers.assert_each([0], 10);
    answers.assert_each([21], 3);
    answers.assert_each([22, 24], 1);
}

#[test]
fn the_greatest_report_has_no_name_of_the_file() {
    let file = "S,UPPER,00000 S,LOWER,11111";
    // All slots are functions, which are PLAIN: a name is not longer, and refuses the lines.
    let mut report = String::from("OK,63,256");
    report.extend((0..64).map(|variable| format!(" G,{variable},PLAIN")));
    report.extend((0..63).map(|parameter| format!(" P,{parameter},PLAIN,ARROW")));
    report.extend((0..256).map(|row| format!(" E,{row},PLAIN,ARROW")));
    assert_eq!(text_of_lines(&report).len(), 6_263);
    assert_report(file, &deep::greatest_report(), &report);
    for name in ["UPPER", "LOWER"] {
        assert_refused(file, &deep::greatest_report().replace("PLAIN", name), 22_000);
    }
}

/// Programs that together tell all of a scheme table: how its qualifiers are ordered, and which operations and pairs of operations each supports.
fn telling_programs(schemes: &SchemeTable) -> Vec<String> {
    let words = schemes.words();
    let pairs = words.iter().flat_map(|one| words.iter().map(move |other| (one, other)));
    let floors =
        pairs.map(|(one, other)| format!("T,0,INT P,0,{one},0,{other} E,0,NUM,1 E,1,LAM,0,0"));
    let operations = Operation::ALL.map(Operation::word);
    let twice = operations
        .iter()
        .flat_map(|first| operations.map(|second| two_operations("g0,0", first, second)));
    let declared = words.iter().flat_map(|word| {
        let one = move |operation| {
            format!("T,0,INT P,0,{word},0 E,0,VAR,0 E,1,NUM,1 E,2,OP,{operation},0,1 E,3,LAM,0,2")
        };
        operations.map(one)
    });
    floors.chain(twice).chain(declared).collect()
}

#[test]
fn all_of_a_scheme_table_is_told_alike() {
    let mut random = Random::seeded(5);
    let (mut tally, mut properties) = (Tally::default(), Counts::default());
    for size in (1..=SchemeTable::MOST_SCHEMES).cycle().take(400) {
        let file = accepted_file_of(&mut random, size);
        let schemes = SchemeTable::open(&file).unwrap();
        for program in telling_programs(&schemes) {
            let text = text_of_lines(&program);
            tally.compare(&mut random, &program, Question::under(&file, &text), Room::Exact);
        }
        SchemeProperty::of(&schemes).for_each(|property| properties.add(property));
    }
    println!("{:?}", properties.0);
    properties.assert_each(SchemeProperty::ALL, 40);
    tally.answers.assert_each([0, 23, 24], 4_000);
    tally.finish("programs that tell of a scheme table");
}

/// The file of schemes that support this, in this order.
fn file_of(supports: &[u8]) -> Vec<u8> {
    let line = |(name, support)| format!("S,{name},{support:05b}\n");
    ('A'..).zip(supports).map(line).collect::<String>().into_bytes()
}

#[test]
fn small_files_of_all_bits_are_answered_alike() {
    let mut random = Random::seeded(6);
    let mut tally = Tally::default();
    let mut compare = |supports: &[u8]| {
        let question = Question { file: Some(&file_of(supports)), text: b"E,0,NUM,1" };
        tally.compare(&mut random, "a small file", question, Room::Exact);
    };
    for first in 0..32 {
        compare(&[first]);
        for second in 0..32 {
            compare(&[first, second]);
            (0..32).for_each(|third| compare(&[first, second, third]));
            // Four schemes are taken in one order only.
            for third in first + 1..second {
                (second + 1..32).for_each(|fourth| compare(&[second, first, fourth, third]));
            }
        }
    }
    tally.answers.assert_each([0, 25, 26, 27], 1_000);
    tally.finish("small files");
}

#[test]
fn files_with_any_byte_changed_are_answered_alike() {
    let mut random = Random::seeded(7);
    let mut tally = Tally::default();
    for changed in with_any_byte(b"S,AB,10000\nS,C,00000\n") {
        let question = Question::under(&changed, b"E,0,ENC,C,1\n");
        tally.compare(&mut random, "a changed file", question, Room::Exact);
    }
    tally.answers.assert_each([0, 1], 10);
    tally.answers.assert_each([25], 10_000);
}

#[test]
fn long_files_are_refused_and_the_longest_accepted() {
    assert_eq!(LONGEST_FILE.len(), 112);
    let about = |file: &[u8]| format!("a file of {} bytes", file.len());
    for file in [LONGEST_FILE, LONGEST_FILE.trim_end()].map(str::as_bytes) {
        let question = Question::under(file, b"E,0,NUM,1");
        assert_answers(&about(file), question, 100_021, b"OK,0,1\nE,0,AAAAA,INT\n");
    }
    for more in ["\n", "S", " ", "\0", "S,IIIII,11110", "S,IIIII,11110\n"] {
        for times in [1, 2, 9, 100_000] {
            let file = format!("{LONGEST_FILE}{}", more.repeat(times)).into_bytes();
            assert_answers(&about(&file), Question::under(&file, b"E,0,NUM,1"), 25_000, b"");
        }
    }
    for piece in ["\n", "S", "0", "S,A,00000\n", "\0"] {
        let file = piece.repeat(1_000_000 / piece.len()).into_bytes();
        assert_answers(&about(&file), Question::under(&file, b"E,0,NUM,1"), 25_000, b"");
    }
}

/// Asserts that the file of the six, with or without its last line feed, changes neither the answer to a text nor the buffer; gives the answer.
fn assert_same_under_the_six(text: &[u8], length: usize) -> u32 {
    let mut expected = filled_buffer(0xA5, length);
    let returns = placement_report(text, inner(&mut expected));
    for file in [SIX_FILE, SIX_FILE.strip_suffix(b"\n").unwrap()] {
        let mut found = filled_buffer(0xA5, length);
        let returned = placement_report_under(file, text, inner(&mut found));
        assert_eq!(returned, returns, "for {}", shown(text));
        assert!(found == expected, "other bytes are written for {}", shown(text));
    }
    returns
}

#[test]
fn the_examples_have_their_reports() {
    let mut answers = Counts::default();
    for (name, file, number) in scheme_files() {
        if number != 0 {
            answers.add(number);
            let question = Question::under(&file, b"E,0,NUM,1");
            assert_answers(&name, question, number * 1_000, b"");
            continue;
        }
        for path in files(&tables_of(&name), "table") {
            let (text, printed) = (bytes(&path), bytes(&path.with_extension("report")));
            let returns = returned_for(&printed);
            let report = if returns > 100_000 { &printed[..] } else { b"" };
            let about = path.display().to_string();
            assert_answers(&about, Question::under(&file, &text), returns, report);
            answers.add(number_of(returns));
        }
    }
    println!("{:?}", answers.0);
    answers.assert_each([0], 20);
    answers.assert_each([1, 2, 3, 4, 5, 6, 7, 8, 10, 21, 22, 23, 24, 25, 26, 27], 1);
}

#[test]
fn the_examples_are_answered_alike_under_the_file_of_the_six() {
    for path in files("", "table") {
        let text = bytes(&path);
        let returned = assert_same_under_the_six(&text, LONGEST_REPORT);
        assert_eq!(returned, returned_for(&bytes(&path.with_extension("report"))));
        assert_eq!(assert_same_under_the_six(&text, LONGEST_REPORT - 1), 11_000);
    }
}

#[test]
fn texts_are_answered_alike_under_the_file_of_the_six() {
    let mut random = Random::seeded(8);
    let (mut answers, mut kinds) = (Counts::default(), Counts::default());
    for _ in 0..TEXTS_OF_THE_SIX {
        let (kind, text) = random_text(&mut random);
        let length = LONGEST_REPORT - 1 + random.below(20);
        answers.add(number_of(assert_same_under_the_six(&text, length)));
        kinds.add(kind);
    }
    for (_, text) in large_texts() {
        assert_same_under_the_six(&text, LONGEST_REPORT);
    }
    println!("{:?}\n{:?}", answers.0, kinds.0);
    kinds.assert_each(Kind::all(), TEXTS_OF_THE_SIX / 100);
    answers.assert_each([0, 1, 2, 10, 11, 21, 22, 23, 24], TEXTS_OF_THE_SIX / 100);
    answers.assert_each([3, 4, 5, 6, 7, 8], TEXTS_OF_THE_SIX / 1_000);
}
