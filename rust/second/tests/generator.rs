//! The generator gives a good mix of inputs, and random calls keep the table's promises.

mod common;

use common::{make, Infers};
use second::counts::Counts;
use second::generate::{
    any_bytes, call_list, chain, changed_line, closed_program, damaged_line, damaged_text,
    doubling, functions, opened, possible_words, program_with_floors, spellings, text_in_any_case,
    text_of_table, text_with_floors, what_if_list, Call, Damage, Floors, FunctionCase,
    FunctionCounts, LetterCase, LetterDamage, NumberCounts, Opening, Partner, Place, Program,
    Random, WRONG_FLOORS,
};
use second::line::read;
use second::operation::Operation;
use second::place::{number_of, returned_for};
use second::qualifier::{at_or_below, Qualifier};
use second::rows::{Entry, TypeRow};
use second::schemes::{Code, PLAIN};
use second::text::lines;
use second::typing::{judge, Shape};
use second::{entry, place, Answer, SchemeTable, Table};

/// The answers to closed programs: accepted, or the number of a refusal.
const VERDICTS: [u32; 5] = [0, 21, 22, 23, 24];

/// So many programs of random sizes, most of them with floors.
fn programs(seed: u64, count: usize) -> Vec<Program> {
    let mut random = Random::seeded(seed);
    let size = |random: &mut Random| match random.below(3) {
        0 => random.between(1, 12),
        1 => random.between(1, 60),
        _ => random.between(1, 256),
    };
    (0..count)
        .map(|_| {
            let rows = size(&mut random);
            program_with_floors(&mut random, rows)
        })
        .collect()
}

/// The number of an inference's refusal, 0 if it is accepted.
fn number(table: &Table) -> u32 {
    table.infer(&mut [0; 6280]).number
}

/// The table that a text fills; each of its lines must be accepted.
fn table(text: &[u8]) -> Table {
    let mut table = Table::fresh();
    for line in lines(text) {
        assert_eq!(table.add(line), 0, "for the line {}", line.escape_ascii());
    }
    table
}

#[test]
fn the_same_seed_gives_the_same_programs() {
    let text = |seed| programs(seed, 20).iter().flat_map(Program::text).collect::<Vec<u8>>();
    assert_eq!(text(11), text(11));
    assert_ne!(text(11), text(12));
}

#[test]
fn random_numbers_keep_their_limits() {
    for seed in 0..50 {
        let mut random = Random::seeded(seed);
        assert_eq!(random.below(0), 0);
        assert!(!random.one_in(0));
        assert!(random.one_in(1));
        assert_eq!(random.pick::<u8>(&[]), None);
        let mut seen = [false; 5];
        for _ in 0..200 {
            assert!((3..=7).contains(&random.between(3, 7)));
            seen[random.below(5)] = true;
        }
        assert_eq!(seen, [true; 5]);
    }
}

#[test]
fn all_lines_are_accepted_and_all_programs_closed() {
    for program in programs(21, 600) {
        let mut table = Table::fresh();
        for line in &program.lines {
            assert_eq!(table.add(line.as_bytes()), 0, "for the line {line}");
        }
        assert!(table.closed());
        for &(parameter, code) in &program.redeclarations {
            assert_eq!(table.redeclare(parameter, code), 0);
        }
        assert_eq!(table, program.table());
    }
}

#[test]
fn all_verdicts_occur_often() {
    let mut counts = Counts::default();
    for program in programs(22, 2000) {
        counts.add(number(&program.table()));
    }
    assert!(counts.0.keys().eq(&VERDICTS), "{counts:?}");
    counts.assert_each([0], 601);
    counts.assert_each([24], 201);
    counts.assert_each(VERDICTS, 101);
}

#[test]
fn floors_are_met_and_missed_often() {
    let (mut counts, mut named, mut explicit) = (Counts::default(), Counts::default(), 0);
    for program in programs(37, 2000) {
        let table = program.table();
        let (floors, Answer { number, row, .. }) =
            (Floors::of(&table), table.infer(&mut [0; 6280]));
        counts.add(floors);
        match floors {
            Floors::Plain => assert_ne!(number, 24),
            Floors::NoTyping => assert!((21..=23).contains(&number)),
            Floors::Met => assert_eq!(number, 0),
            Floors::OneMissed | Floors::SeveralMissed => {
                assert_eq!(number, 24);
                named.add(row);
            }
        }
        let parameters = program.lines.iter().filter(|line| line.starts_with('P'));
        let is_explicit = |line: &&String| line.to_ascii_uppercase().ends_with(",PLAIN");
        explicit += parameters.filter(is_explicit).count();
    }
    counts.assert_each([Floors::Plain], 501);
    counts.assert_each([Floors::Met, Floors::NoTyping], 301);
    counts.assert_each([Floors::SeveralMissed], 101);
    counts.assert_each([Floors::OneMissed], 51);
    assert!(named.0.len() > 20, "{named:?}");
    assert!(explicit > 500, "{explicit} floors are written as PLAIN");
}

#[test]
fn each_floor_stands_under_each_word() {
    let (mut met, mut missed) = (Counts::default(), Counts::default());
    for program in programs(38, 2000) {
        let table = program.table();
        let Ok(judgement) = judge(&table) else {
            continue;
        };
        let accepted = number(&table) == 0;
        for (parameter, slot) in table.params.iter().zip(&judgement.params) {
            let counts = if accepted { &mut met } else { &mut missed };
            counts.add((parameter.floor, slot.word));
        }
    }
    for floor in Qualifier::ALL {
        for word in Qualifier::ALL {
            let counts = if at_or_below(floor, word) { &met } else { &missed };
            counts.assert_each([(floor.code(), word.code())], 6);
        }
    }
}

#[test]
fn floors_are_all_that_is_added_to_a_program() {
    for seed in 0..200 {
        let rows = 1 + seed as usize;
        let without = closed_program(&mut Random::seeded(seed), rows);
        let with = program_with_floors(&mut Random::seeded(seed), rows);
        assert_eq!(with.redeclarations, without.redeclarations);
        assert_eq!(with.lines.len(), without.lines.len());
        let mut table = with.table();
        table.params.iter_mut().for_each(|parameter| parameter.floor = PLAIN);
        assert_eq!(table, without.table());
    }
}

#[test]
fn programs_without_floors_have_no_24() {
    let mut random = Random::seeded(39);
    let mut counts = Counts::default();
    for _ in 0..500 {
        let table = closed_program(&mut random, 60).table();
        assert_eq!(Floors::of(&table), Floors::Plain);
        counts.add(number(&table));
    }
    assert!(counts.0.keys().eq(&VERDICTS[..4]), "{counts:?}");
}

#[test]
fn all_verdicts_occur_in_large_programs() {
    let mut random = Random::seeded(23);
    let (mut counts, mut full) = (Counts::default(), 0);
    for _ in 0..400 {
        let table = program_with_floors(&mut random, 256).table();
        full += usize::from(table.terms.len() == 256);
        counts.add(number(&table));
    }
    assert!(counts.0.keys().eq(&VERDICTS), "{counts:?}");
    counts.assert_each(VERDICTS, 21);
    assert!(full > 100, "{full} programs have 256 rows");
}

#[test]
fn every_size_occurs() {
    let mut random = Random::seeded(24);
    for rows in 1..=256 {
        let exact = (0..40).any(|_| closed_program(&mut random, rows).table().terms.len() == rows);
        assert!(exact, "no program has {rows} rows");
    }
}

#[test]
fn the_features_occur() {
    let (mut shared, mut arrows, mut redeclared, mut late, mut free) = (0, 0, 0, 0, 0);
    let (mut words, mut rows) = (Counts::default(), Counts::default());
    for program in programs(25, 1000) {
        let table = program.table();
        let uses = |row| table.params.iter().filter(|p| usize::from(p.type_row) == row).count();
        let any_rows = (0..table.types.len()).filter(|&row| table.types[row] == TypeRow::Any);
        shared += usize::from(any_rows.clone().any(|row| uses(row) > 1));
        arrows += usize::from(table.types.iter().any(|row| !row.parts().is_empty()));
        redeclared += usize::from(!program.redeclarations.is_empty());
        let first_term = program.lines.iter().position(|line| line.starts_with('E')).unwrap();
        late += usize::from(program.lines[first_term..].iter().any(|line| line.starts_with('T')));
        match judge(&table) {
            Ok(judgement) => {
                let slots = judgement.params.iter().chain(&judgement.terms);
                free += usize::from(slots.clone().any(|slot| slot.shape == Shape::Any));
                slots.for_each(|slot| words.add(slot.word));
            }
            Err(refusal) => rows.add(refusal.row),
        }
    }
    for count in [shared, arrows, redeclared, late, free] {
        assert!(count > 50, "{:?}", [shared, arrows, redeclared, late, free]);
    }
    words.assert_each(SchemeTable::six().qualifiers(), 21);
    assert!(rows.0.len() > 50, "{rows:?}");
}

#[test]
fn numbers_stand_everywhere() {
    let mut numbers = NumberCounts::default();
    for program in programs(65, 5000) {
        numbers.take(&program.table());
        // Here other qualifiers stand in the lines than after the redeclarations.
        if !program.redeclarations.is_empty() {
            numbers.take(&table(&program.text()));
        }
    }
    numbers.places.assert_each(Place::all(), 60);
    numbers.places.assert_each(Place::operands(), 400);
    let six = SchemeTable::six();
    numbers.partners.assert_each(Partner::all(six), 40);
    numbers.words.assert_each(six.words(), 200);
    numbers.operand_words.assert_each(possible_words(six), 15);
    numbers.different_words.assert_each(2..=4, 50);
}

#[test]
fn numbers_stand_in_chains_and_deep_programs() {
    let mut random = Random::seeded(48);
    let (mut deep, mut chains) = (NumberCounts::default(), NumberCounts::default());
    for _ in 0..400 {
        deep.take(&table(&doubling(&mut random)));
        chains.take(&table(&chain(&mut random)));
    }
    deep.places.assert_each(Place::operands(), 10);
    let arithmetic = [Operation::Add, Operation::Mul];
    chains.places.assert_each(arithmetic.map(Place::Left), 300);
    chains.places.assert_each(arithmetic.map(Place::Right), 300);
    chains.places.assert_each([Place::Argument], 2_000);
    chains.places.assert_each([Place::Function], 20);
}

/// The lines that calls add.
fn added(calls: Vec<Call>) -> impl Iterator<Item = Vec<u8>> {
    calls.into_iter().filter_map(|call| match call {
        Call::Add(line) => Some(line),
        _ => None,
    })
}

/// Asserts that the words of lines that a function makes are often in each case.
fn assert_each_case(about: &str, seed: u64, make: impl Fn(&mut Random) -> Vec<Vec<u8>>) {
    let mut random = Random::seeded(seed);
    let (mut cases, mut lines) = (Counts::default(), 0);
    while lines < 5_000 {
        for case in make(&mut random).iter().filter_map(|line| LetterCase::of_words_in(line)) {
            cases.add((about, case));
            lines += 1;
        }
    }
    cases.assert_each(LetterCase::ALL.map(|case| (about, case)), lines / 5);
}

#[test]
fn words_are_in_each_case() {
    let owned = |text: Vec<u8>| lines(&text).map(<[u8]>::to_vec).collect();
    assert_each_case("a program", 49, |random| owned(program_with_floors(random, 40).text()));
    assert_each_case("a list of calls", 50, |random| added(call_list(random, 40)).collect());
    assert_each_case("a what-if list", 51, |random| added(what_if_list(random, 40, 5)).collect());
    for (about, generate) in [
        ("deep sharing", doubling as fn(&mut _) -> _),
        ("a chain", chain),
        ("functions", functions),
    ] {
        assert_each_case(about, 52, |random| {
            let text = generate(random);
            owned(text_with_floors(random, &text))
        });
    }
    assert_each_case("a changed line", 53, |random| {
        let line = closed_program(random, 1).lines.pop().unwrap();
        vec![changed_line(random, line.as_bytes())]
    });
}

#[test]
fn programs_without_floors_are_in_capitals() {
    let mut random = Random::seeded(54);
    for _ in 0..200 {
        let program = closed_program(&mut random, 60);
        // Measured tables are made of these, so that they stay as they were.
        let texts = [program.text(), text_of_table(&program.table()), chain(&mut random)];
        for text in texts {
            assert_eq!(LetterCase::Capitals.of_text(&mut random, &text), text);
        }
    }
}

#[test]
fn a_text_in_any_case_declares_the_same() {
    let mut random = Random::seeded(55);
    for program in programs(56, 200) {
        let text = program.text();
        let changed = text_in_any_case(&mut random, &text);
        assert!(changed.eq_ignore_ascii_case(&text));
        assert_eq!(table(&changed), table(&text));
    }
    // A tag, the g of a variable, and a line without a comma keep their case; so does a G in the place of a g.
    let text = b"P,0,g0,0\np,0,G63,0\nadd E,0,5\ninfer\nINFER\n";
    for case in LetterCase::ALL {
        assert_eq!(case.of_text(&mut random, text), text);
    }
}

#[test]
fn the_spellings_of_a_word_are_all_choices_of_letters() {
    let of = |word| spellings(word).map(|it| String::from_utf8(it).unwrap()).collect::<Vec<_>>();
    assert_eq!(of("AH"), ["AH", "aH", "Ah", "ah"]);
    assert_eq!(of("DET"), ["DET", "dET", "DeT", "deT", "DEt", "dEt", "Det", "det"]);
    let (mixed, all) = (LetterCase::Mixed, spellings("ARROW"));
    assert_eq!(all.filter(|it| LetterCase::of_word(it) == mixed).count(), 30);
}

#[test]
fn each_letter_damage_changes_one_byte_in_its_way() {
    let mut random = Random::seeded(57);
    let mut counts = Counts::default();
    for line in programs(58, 80).iter().flat_map(|program| &program.lines) {
        for damage in LetterDamage::ALL {
            let Some(damaged) = damage.of_line(&mut random, line.as_bytes()) else {
                let has_digit = |rest: &str| rest.starts_with(|first: char| first.is_ascii_digit());
                assert!(!line.split(",g").skip(1).any(has_digit), "{damage:?} of {line}");
                assert_eq!(damage, LetterDamage::Variable);
                continue;
            };
            let bytes = line.bytes().zip(damaged.iter().copied());
            let changes: Vec<(usize, (u8, u8))> =
                bytes.enumerate().filter(|(_, (before, now))| before != now).collect();
            let [(position, (before, now))] = changes[..] else {
                panic!("{changes:?}");
            };
            assert!(match damage {
                LetterDamage::Tag => position == 0 && b"tpe".contains(&now),
                LetterDamage::Variable => (before, now) == (b'g', b'G'),
                LetterDamage::CaseBit => before ^ now == 32,
                LetterDamage::TopBit => now == before + 128,
                LetterDamage::Neighbour => before.is_ascii_alphabetic() && b"@[`{".contains(&now),
            });
            counts.add((damage, read(&damaged).is_some()));
        }
    }
    counts.assert_each(LetterDamage::ALL.map(|damage| (damage, false)), 500);
    // Only a letter of a word has two cases.
    counts.assert_each([(LetterDamage::CaseBit, true)], 500);
    assert_eq!(counts.0.keys().filter(|(_, is_read)| *is_read).count(), 1, "{:?}", counts.0);
}

#[test]
fn damaged_lines_have_letters_damaged() {
    let mut random = Random::seeded(59);
    let mut counts = Counts::default();
    for line in programs(60, 400).iter().flat_map(|program| &program.lines) {
        let damaged = damaged_line(&mut random, line.as_bytes());
        let text = String::from_utf8_lossy(&damaged);
        counts.add(("tag", text.starts_with(['t', 'p', 'e'])));
        counts.add(("variable", text.contains(",G0") || text.contains(",G1")));
        counts.add(("neighbour", text.contains(['@', '[', '`', '{'])));
        counts.add(("top bit", damaged.iter().any(|byte| *byte >= 128)));
    }
    counts.assert_each(["tag", "variable", "neighbour", "top bit"].map(|name| (name, true)), 100);
}

#[test]
fn damaged_lines_are_read_or_not() {
    let mut random = Random::seeded(26);
    let (mut well_formed, mut malformed) = (0, 0);
    for program in programs(27, 80) {
        for line in &program.lines {
            let changed = changed_line(&mut random, line.as_bytes());
            assert_eq!(changed.split(|&byte| byte == b',').count(), line.split(',').count());
            let damaged = damaged_line(&mut random, line.as_bytes());
            match read(&damaged) {
                Some(_) => well_formed += 1,
                None => malformed += 1,
            }
        }
    }
    assert!(well_formed > 300 && malformed > 300, "{well_formed} {malformed}");
    assert!((0..200).all(|_| any_bytes(&mut random, 70).len() <= 70));
    assert!((0..200).all(|_| damaged_line(&mut random, b"").len() <= 80));
    assert!((0..200).all(|_| damaged_text(&mut random, b"").len() <= 80));
}

#[test]
fn damaged_lines_of_parameters_have_wrong_floors() {
    let mut random = Random::seeded(43);
    let mut wrong = Counts::default();
    for line in ["P,0,g0,0", "P,1,AH,7,RAND"] {
        for _ in 0..2000 {
            let damaged = damaged_line(&mut random, line.as_bytes());
            let text = String::from_utf8_lossy(&damaged).into_owned();
            for floor in WRONG_FLOORS {
                let declared: Vec<&str> = line.splitn(5, ',').take(4).collect();
                if text == format!("{},{floor}", declared.join(",")) {
                    assert_eq!(read(&damaged), None, "for the line {text}");
                    wrong.add(floor);
                }
            }
        }
    }
    wrong.assert_each(WRONG_FLOORS, 11);
}

#[test]
fn changed_lines_of_parameters_stay_well_formed() {
    let mut random = Random::seeded(44);
    let mut floors = Counts::default();
    for _ in 0..2000 {
        let changed = changed_line(&mut random, b"P,1,AH,7,DET");
        let Some(Entry::P(1, parameter)) = read(&changed) else {
            panic!("{} is not read", changed.escape_ascii());
        };
        floors.add(parameter.floor);
        assert!(read(&changed_line(&mut random, b"P,1,AH,7")).is_some());
    }
    floors.assert_each(SchemeTable::six().qualifiers(), 51);
}

#[test]
fn each_damage_changes_a_text_in_its_way() {
    let text = b"T,0,INT\nP,0,AH,0\nE,0,VAR,0\nE,1,LAM,0,0\n";
    let mut random = Random::seeded(32);
    for damage in Damage::ALL {
        for _ in 0..200 {
            let damaged = damage.of_text(&mut random, text);
            let longest = lines(&damaged).map(<[u8]>::len).max().unwrap_or(0);
            let returns = damaged.iter().filter(|&&byte| byte == b'\r').count();
            let bytes = damaged.len() as isize - text.len() as isize;
            let added = lines(&damaged).count() as isize - 4;
            assert!(match damage {
                Damage::ByteChanged => bytes == 0 && damaged != text,
                Damage::CaseChanged => damaged.eq_ignore_ascii_case(text) && damaged != text,
                Damage::ByteDropped => bytes == -1,
                Damage::LineDropped => added == -1,
                Damage::LineRepeated => added == 1,
                Damage::LinesSwapped => bytes == 0 && added == 0,
                Damage::Shortened => text.starts_with(&damaged) && added < 0,
                Damage::LineFeedDropped => (bytes, added) == (-1, -1),
                Damage::LineFeedDoubled => (bytes, added) == (1, 1),
                Damage::LineFeedFirst => damaged == [b"\n", &text[..]].concat(),
                Damage::CarriageReturn => returns == 1 && bytes == 1,
                Damage::CarriageReturns => returns == 4 && bytes == 4,
                Damage::LineOf64Bytes => longest == 64 && added == 0,
                Damage::LineOf65Bytes => longest == 65 && added == 0,
                Damage::LineDamaged => true,
                Damage::FieldChanged =>
                    added == 0 && read(lines(&damaged).next().unwrap()).is_some(),
            });
            assert!(damage.of_text(&mut random, b"").len() <= 1);
        }
    }
}

#[test]
fn opened_programs_are_accepted_and_not_closed() {
    let mut random = Random::seeded(33);
    let mut counts = Counts::default();
    for program in programs(34, 300) {
        for opening in Opening::ALL {
            let Some(lines) = opened(&mut random, &program, opening) else {
                continue;
            };
            counts.add(opening);
            assert_eq!(place(lines.join("\n").as_bytes()), b"NO,10,0\n", "for {lines:?}");
        }
    }
    counts.assert_each(Opening::ALL, 101);
}

#[test]
fn the_text_of_a_table_fills_it_again() {
    for program in programs(35, 100) {
        let filled = program.table();
        assert_eq!(table(&text_of_table(&filled)), filled);
    }
}

#[test]
fn functions_under_schemes_are_refused_in_each_way() {
    let mut random = Random::seeded(61);
    let (mut about_functions, mut others) = (FunctionCounts::default(), FunctionCounts::default());
    for _ in 0..2_000 {
        about_functions.take(&table(&functions(&mut random)));
    }
    about_functions.assert_each(40);
    // Most of these have no function of an unknown type whose result is one too.
    programs(62, 2_000).iter().for_each(|program| others.take(&table(&program.text())));
    others.0.assert_each([(FunctionCase::LinesRefused, false)], 100);
    let changes = [FunctionCase::PlainByFunction, FunctionCase::IntegerByScheme];
    let standing = [FunctionCase::SharedUnknown, FunctionCase::UnusedArrow];
    others.0.assert_each(changes.into_iter().chain(standing).map(|case| (case, true)), 20);
}

#[test]
fn programs_about_functions_are_closed() {
    let mut random = Random::seeded(63);
    for _ in 0..500 {
        assert!(table(&functions(&mut random)).closed());
    }
}

#[test]
fn all_verdicts_occur_in_deep_and_long_programs() {
    for generate in [doubling, chain, functions] {
        let mut random = Random::seeded(36);
        let mut counts = Counts::default();
        for _ in 0..400 {
            let text = generate(&mut random);
            let returned = entry(&text_with_floors(&mut random, &text), &mut [0; 6280]);
            counts.add(number_of(returned));
        }
        assert!(counts.0.keys().eq(&VERDICTS), "{counts:?}");
    }
}

#[test]
fn the_entry_and_place_agree_on_damaged_texts() {
    let mut random = Random::seeded(28);
    let mut counts = Counts::default();
    for program in programs(29, 1500) {
        let text = damaged_text(&mut random, &program.text());
        let printed = place(&text);
        let mut buffer = [9; 6290];
        let returned = entry(&text, &mut buffer);
        assert_eq!(returned, returned_for(&printed));
        let written = if returned > 100_000 { &printed[..] } else { b"" };
        assert!(buffer.starts_with(written));
        assert!(buffer[written.len()..].iter().all(|&byte| byte == 9));
        counts.add(number_of(returned));
    }
    counts.assert_each([0, 1, 2, 4, 5, 6, 7, 8, 10, 21, 22, 23, 24], 1);
}

#[test]
fn any_bytes_are_refused_with_a_number() {
    let mut random = Random::seeded(31);
    for _ in 0..3000 {
        let text = any_bytes(&mut random, 200);
        let printed = place(&text);
        let expected: &[u8] = if text.is_empty() { b"NO,10,0\n" } else { b"X,1,1\n" };
        assert_eq!(printed, expected);
        assert_eq!(entry(&text, &mut [0; 6280]), returned_for(&printed));
    }
}

#[test]
fn random_calls_meet_every_number() {
    let mut random = Random::seeded(30);
    let mut counts = Counts::default();
    for _ in 0..400 {
        let rows = random.between(1, 120);
        let mut table = Table::fresh();
        for call in call_list(&mut random, rows) {
            counts.add(make(&mut table, &call));
        }
        assert!(table.types.len() <= 64 && table.params.len() <= 64 && table.terms.len() <= 256);
    }
    counts.assert_each([0, 1, 2, 4, 5, 6, 7, 8, 10, 11, 12, 21, 22, 23], 1);
    counts.assert_each([24], 101);
}

#[test]
fn questions_are_accepted_and_often_change_the_answer() {
    let mut random = Random::seeded(31);
    let mut infers = Infers::default();
    for _ in 0..400 {
        let rows = random.between(1, 60);
        let mut table = Table::fresh();
        infers.take(&mut table, &what_if_list(&mut random, rows, 5));
        assert!(table.closed());
    }
    assert!(infers.made >= 2_400 && infers.changed > infers.made / 3, "{infers:?}");
}

/// How often a redeclaration alone makes a list of calls miss a floor that was met, and meet one that was missed.
#[derive(Debug, Default)]
struct Turns {
    missed: usize,
    met: usize,
    /// Lists in which both happen.
    both: usize,
}

impl Turns {
    /// Makes the calls of a list on a fresh table and counts its turns.
    fn take(&mut self, calls: &[Call]) {
        let (mut table, mut before, mut redeclared_only) = (Table::fresh(), None, false);
        let (mut missed, mut met) = (0, 0);
        for call in calls {
            let floors: Vec<Code> = table.params.iter().map(|it| it.floor).collect();
            let number = make(&mut table, call);
            match call {
                Call::Redeclare(..) => {
                    assert!(table.params.iter().map(|it| it.floor).eq(floors));
                }
                Call::Infer(..) if number != 11 => {
                    missed += usize::from(redeclared_only && (before, number) == (Some(0), 24));
                    met += usize::from(redeclared_only && (before, number) == (Some(24), 0));
                    (before, redeclared_only) = (Some(number), true);
                }
                _ => redeclared_only &= number != 0,
            }
        }
        self.missed += missed;
        self.met += met;
        self.both += usize::from(missed > 0 && met > 0);
    }

    /// Asserts that each turn happens so often.
    fn assert_each(&self, fewest: usize) {
        let Turns { missed, met, both } = *self;
        assert!(missed >= fewest && met >= fewest && both >= fewest, "{self:?}");
    }
}

#[test]
fn redeclarations_miss_and_meet_floors() {
    let mut random = Random::seeded(45);
    let (mut questions, mut built) = (Turns::default(), Turns::default());
    for _ in 0..400 {
        let rows = random.between(1, 60);
        questions.take(&what_if_list(&mut random, rows, 5));
        built.take(&call_list(&mut random, rows));
    }
    questions.assert_each(40);
    built.assert_each(40);
}
