//! The proved line reader and the reference reader give the same numbers for the same line.

use compare::numbers::{numbers, Numbers, FORMS};
use compare::read_line;
use compare::well_formed::{self, random_line, Field, Form};
use compare::words::WordCounts;
use second::counts::Counts;
use second::generate::{
    any_bytes, changed_line, damaged_line, program_with_floors, spellings, LetterCase,
    LetterDamage, Random, WRONG_FLOORS,
};
use second::line::read;
use second::operation::Operation;
use second::qualifier::Qualifier;

/// How many lines each kind of generated lines has.
const GENERATED_LINES: usize = 200_000;

/// What stands in a buffer before a call, a number that no line here has.
const BEFORE: u32 = 0xA5A5_5A5A;

/// How often each form was read; the first place is for none of the forms.
#[derive(Default)]
struct Tally([usize; FORMS]);

impl Tally {
    /// Compares the two readers on a line and counts its form; gives its numbers.
    fn compare(&mut self, line: &[u8]) -> Numbers {
        let expected = numbers(read(line));
        assert_eq!(proved(line), expected, "for the line {}", line.escape_ascii());
        self.0[expected[0] as usize] += 1;
        expected
    }

    /// Asserts that each form, and none of them, was read so often.
    fn assert_each(&self, fewest: usize) {
        for (form, &count) in self.0.iter().enumerate() {
            assert!(count >= fewest, "form {form} occurred {count} times only");
        }
    }
}

/// The numbers that the proved reader writes; what follows them must stay as it was.
fn proved(line: &[u8]) -> Numbers {
    let mut buffer = [BEFORE; 8];
    assert_eq!(read_line(line, &mut buffer), 6);
    let [written @ .., one, other] = buffer;
    assert_eq!([one, other], [BEFORE; 2]);
    written
}

/// Asserts that both readers give a line these numbers.
fn assert_numbers(line: &str, expected: Numbers) {
    assert_eq!(proved(line.as_bytes()), expected, "for the line {line}");
    assert_eq!(numbers(read(line.as_bytes())), expected, "for the line {line}");
}

/// Compares the two readers on a text in each open field of each form.
fn compare_in_each_field(tally: &mut Tally, text: &str) {
    for form in well_formed::ALL {
        for position in 0..form.open_fields() {
            tally.compare(form.line_with(position, text).as_bytes());
        }
    }
}

/// A line of a form with this field at a place, and the lowest text in all others.
fn line_with_field(form: &Form, place: usize, field: &[u8]) -> Vec<u8> {
    let line = form.line_with(0, "0");
    let mut fields: Vec<&[u8]> = line.as_bytes().split(|&byte| byte == b',').collect();
    fields[place] = field;
    fields.join(&b',')
}

/// A line of each form with fields of several bytes.
fn sample_lines() -> Vec<Vec<u8>> {
    let text = |field: Field| match field {
        Field::Own | Field::TypeRow | Field::Parameter | Field::Row => "6553".to_string(),
        Field::Number => "429496729".to_string(),
        Field::Qualifier => "g63".to_string(),
        Field::Floor => Qualifier::Rand.word().to_string(),
        Field::Scheme => Qualifier::Det.word().to_string(),
        Field::Operation => Operation::Lt.word().to_string(),
    };
    well_formed::ALL.iter().map(|form| form.line(text).into_bytes()).collect()
}

#[test]
fn each_form_has_its_numbers() {
    let lines = [
        ("T,1,INT", "T,1,int", [1, 1, 0, 0, 0, 0]),
        ("T,2,ANY", "T,2,Any", [2, 2, 0, 0, 0, 0]),
        ("T,3,ARROW,RAND,4,g5,6", "T,3,arrow,raND,4,g5,6", [3, 3, 6, 4, 12, 6]),
        ("P,4,g63,5", "P,4,g63,5,plain", [4, 4, 70, 5, 0, 0]),
        ("P,4,g63,5,RAND", "P,4,g63,5,rand", [4, 4, 70, 5, 6, 0]),
        ("E,5,LAM,6,7", "E,5,lam,6,7", [5, 5, 6, 7, 0, 0]),
        ("E,6,APP,7,8", "E,6,aPP,7,8", [6, 6, 7, 8, 0, 0]),
        ("E,7,OP,GT,8,9", "E,7,op,gt,8,9", [7, 7, 4, 8, 9, 0]),
        ("E,8,VAR,9", "E,8,vAr,9", [8, 8, 9, 0, 0, 0]),
        ("E,9,NUM,4294967295", "E,9,num,4294967295", [9, 9, 4294967295, 0, 0, 0]),
        ("E,65535,ENC,FHE,11", "E,65535,enc,fhe,11", [10, 65535, 1, 11, 0, 0]),
    ];
    for (capitals, other, expected) in lines {
        assert_numbers(capitals, expected);
        assert_numbers(other, expected);
    }
    for line in ["", "E,0,ENC,PLAIN,1", "E,0,enc,plain,1", "P,4,G63,5", "t,1,INT", "T,0,[nt"] {
        assert_numbers(line, [0; 6]);
    }
}

#[test]
fn each_floor_has_its_number() {
    for (code, word) in (0..).zip(["PLAIN", "FHE", "OP", "DET", "MH", "AH", "RAND"]) {
        assert_numbers(&format!("P,1,AH,2,{word}"), [4, 1, 5, 2, code, 0]);
        assert_numbers(&format!("P,1,ah,2,{}", word.to_lowercase()), [4, 1, 5, 2, code, 0]);
    }
    for wrong in WRONG_FLOORS {
        assert_numbers(&format!("P,1,AH,2,{wrong}"), [0; 6]);
    }
}

/// What stood in generated lines that were compared.
#[derive(Debug, Default)]
struct Written {
    words: WordCounts,
    /// The case of all words of a line together.
    cases: Counts<Option<LetterCase>>,
}

/// Compares the two readers on well-formed lines, each changed by a function that leaves it well formed.
fn compare_well_formed(seed: u64, change: impl Fn(&mut Random, Vec<u8>) -> Vec<u8>) -> Written {
    let mut random = Random::seeded(seed);
    let (mut tally, mut written) = (Tally::default(), Written::default());
    for _ in 0..GENERATED_LINES {
        let line = random_line(&mut random);
        let line = change(&mut random, line);
        tally.compare(&line);
        written.words.take(&line);
        written.cases.add(LetterCase::of_words_in(&line));
    }
    println!("{written:?}");
    assert_eq!(tally.0[0], 0);
    tally.0[0] = GENERATED_LINES;
    tally.assert_each(GENERATED_LINES / 20);
    written
}

#[test]
fn well_formed_lines_are_read_alike() {
    let written = compare_well_formed(1, |_, line| line);
    written.words.assert_each(GENERATED_LINES / 2_000);
    written.cases.assert_each(LetterCase::ALL.map(Some), GENERATED_LINES / 5);
}

#[test]
fn lines_in_mixed_case_are_read_alike() {
    let written = compare_well_formed(11, |random, line| LetterCase::Mixed.of_line(random, &line));
    // Here a word is in one case only where all its letters are so by chance.
    written.words.assert_each(GENERATED_LINES / 20_000);
    written.cases.assert_each([Some(LetterCase::Mixed)], GENERATED_LINES / 2);
}

#[test]
fn each_spelling_of_each_word_is_read_alike() {
    let (mut tally, mut words) = (Tally::default(), WordCounts::default());
    for form in well_formed::ALL {
        for (place, word) in form.words() {
            for spelling in spellings(&word) {
                let line = line_with_field(&form, place, &spelling);
                assert_ne!(tally.compare(&line), [0; 6], "for {}", line.escape_ascii());
                words.take(&line);
            }
        }
    }
    words.assert_each(1);
}

#[test]
fn each_byte_of_each_word_is_read_alike() {
    let (mut tally, mut words) = (Tally::default(), WordCounts::default());
    for form in well_formed::ALL {
        for (place, word) in form.words() {
            for spelling in [word.clone(), word.to_ascii_lowercase()] {
                for position in 0..word.len() {
                    for byte in 0..=255 {
                        let mut field = spelling.as_bytes().to_vec();
                        field[position] = byte;
                        let line = line_with_field(&form, place, &field);
                        if tally.compare(&line) != [0; 6] {
                            words.take(&line);
                        }
                    }
                }
            }
        }
    }
    words.assert_each(2);
    tally.assert_each(12);
    assert!(tally.0[0] > 80_000, "{} lines were not read only", tally.0[0]);
}

#[test]
fn damaged_letters_are_read_alike() {
    let mut random = Random::seeded(9);
    let mut tally = Tally::default();
    let mut counts = Counts::default();
    for _ in 0..GENERATED_LINES {
        let line = random_line(&mut random);
        let form = numbers(read(&line))[0];
        let damage = LetterDamage::ALL[random.below(LetterDamage::ALL.len())];
        if let Some(damaged) = damage.of_line(&mut random, &line) {
            counts.add((damage, form, tally.compare(&damaged) != [0; 6]));
        }
    }
    println!("{counts:?}");
    for form in 1..FORMS as u32 {
        // Only an arrow and a parameter have variables.
        let occurs = |it: &LetterDamage| *it != LetterDamage::Variable || [3, 4].contains(&form);
        let refused = LetterDamage::ALL.into_iter().filter(occurs).map(|it| (it, form, false));
        counts.assert_each(refused, GENERATED_LINES / 200);
        // Of all bytes only the letters of words have two cases.
        counts.assert_each([(LetterDamage::CaseBit, form, true)], GENERATED_LINES / 500);
    }
    let mut read = counts.0.keys().filter(|(_, _, is_read)| *is_read);
    assert!(read.all(|&(damage, _, _)| damage == LetterDamage::CaseBit), "{counts:?}");
}

#[test]
fn the_case_of_words_changes_no_number() {
    let mut random = Random::seeded(10);
    let (mut tally, mut changed) = (Tally::default(), 0);
    for _ in 0..GENERATED_LINES / 4 {
        let mut line = random_line(&mut random);
        for _ in 0..random.below(3) {
            line = damaged_line(&mut random, &line);
        }
        let expected = tally.compare(&line);
        for case in LetterCase::ALL {
            let written = case.of_line(&mut random, &line);
            assert_eq!(tally.compare(&written), expected, "for {}", written.escape_ascii());
            changed += usize::from(written != line);
        }
    }
    tally.assert_each(GENERATED_LINES / 100);
    assert!(changed > GENERATED_LINES / 4, "{changed} lines were in another case only");
}

#[test]
fn damaged_lines_are_read_alike() {
    let mut random = Random::seeded(2);
    let mut tally = Tally::default();
    for _ in 0..GENERATED_LINES {
        let mut line = random_line(&mut random);
        for _ in 0..random.between(1, 2) {
            line = damaged_line(&mut random, &line);
        }
        tally.compare(&line);
    }
    tally.assert_each(GENERATED_LINES / 500);
}

#[test]
fn lines_with_other_fields_of_the_kind_are_read_alike() {
    let mut random = Random::seeded(3);
    let mut tally = Tally::default();
    for _ in 0..GENERATED_LINES {
        let line = random_line(&mut random);
        tally.compare(&changed_line(&mut random, &line));
    }
    tally.assert_each(GENERATED_LINES / 1_000);
}

#[test]
fn lines_of_programs_are_read_alike() {
    let mut random = Random::seeded(4);
    let mut tally = Tally::default();
    for _ in 0..500 {
        let rows = random.between(1, 256);
        for line in program_with_floors(&mut random, rows).lines {
            tally.compare(line.as_bytes());
            tally.compare(&damaged_line(&mut random, line.as_bytes()));
        }
    }
    tally.assert_each(500);
}

#[test]
fn any_bytes_are_read_alike() {
    let mut random = Random::seeded(5);
    let mut tally = Tally::default();
    for _ in 0..GENERATED_LINES {
        tally.compare(&any_bytes(&mut random, 80));
    }
}

#[test]
fn the_shortest_lines_are_read_alike() {
    let mut tally = Tally::default();
    tally.compare(b"");
    for one in 0..=255 {
        tally.compare(&[one]);
        for other in 0..=255 {
            tally.compare(&[one, other]);
        }
    }
}

#[test]
fn each_change_of_one_byte_is_read_alike() {
    let mut tally = Tally::default();
    for line in sample_lines() {
        for position in 0..line.len() {
            tally.compare(&line[..position]);
            tally.compare(&line[position..]);
            tally.compare(&[&line[..position], &line[position + 1..]].concat());
            for byte in 0..=255 {
                tally.compare(&[&line[..position], &[byte], &line[position + 1..]].concat());
                tally.compare(&[&line[..position], &[byte], &line[position..]].concat());
            }
        }
    }
    tally.assert_each(50);
}

#[test]
fn each_small_number_is_read_alike() {
    let mut tally = Tally::default();
    for number in 0..=70_000 {
        compare_in_each_field(&mut tally, &number.to_string());
    }
    tally.assert_each(65_536);
}

#[test]
fn numbers_at_the_limits_are_read_alike() {
    let mut tally = Tally::default();
    for power in [4, 8, 15, 16, 17, 31, 32, 33, 48, 63, 64, 65, 80, 96] {
        // Numbers that a reader takes for small ones if it drops their upper bits.
        let near = (1u128 << power) - 12;
        for number in near..near + 80 {
            compare_in_each_field(&mut tally, &number.to_string());
            compare_in_each_field(&mut tally, &format!("g{number}"));
        }
    }
    tally.assert_each(80);
}

#[test]
fn numbers_of_many_digits_are_read_alike() {
    let mut tally = Tally::default();
    for digits in 0..=70 {
        for digit in 0..=9 {
            let same = digit.to_string().repeat(digits);
            compare_in_each_field(&mut tally, &same);
            compare_in_each_field(&mut tally, &format!("1{same}"));
            compare_in_each_field(&mut tally, &format!("0{same}"));
            compare_in_each_field(&mut tally, &format!("g{same}"));
        }
    }
    tally.assert_each(20);
}

#[test]
fn each_word_is_read_alike_in_each_field() {
    let mut tally = Tally::default();
    let qualifiers = Qualifier::ALL.map(Qualifier::word);
    let operations = Operation::ALL.map(Operation::word);
    let variables: Vec<String> = (0..=300).map(|variable| format!("g{variable}")).collect();
    let other = ["", "g", "G0", "g-1", "RANDO", "RAN", "PLAIN ", "INT", "ARROW", "-0", "+1", "1 "];
    let words = [&qualifiers[..], &operations, &other].concat();
    for text in words.into_iter().chain(variables.iter().map(String::as_str)) {
        compare_in_each_field(&mut tally, text);
        compare_in_each_field(&mut tally, &text.to_ascii_lowercase());
    }
    for form in [3, 4, 7, 10] {
        assert!(tally.0[form] > 0, "form {form} did not occur");
    }
}

#[test]
fn lines_at_the_greatest_length_are_read_alike() {
    let mut random = Random::seeded(6);
    let mut tally = Tally::default();
    for length in 37..=80 {
        for mut line in sample_lines() {
            line.resize(length, b'0');
            tally.compare(&line);
        }
        tally.compare(&vec![b','; length]);
        for _ in 0..500 {
            let mut line = random_line(&mut random);
            line.resize(length, *random.pick(b"0,1 A\r\n\0").unwrap_or(&b'0'));
            tally.compare(&line);
        }
    }
}

#[test]
fn a_short_buffer_stays_unchanged() {
    let mut random = Random::seeded(7);
    for _ in 0..20_000 {
        let line = random_line(&mut random);
        let before: Vec<u32> = (0..random.below(6)).map(|_| random.number() as u32).collect();
        let mut buffer = before.clone();
        assert_eq!(read_line(&line, &mut buffer), 0);
        assert_eq!(buffer, before);
    }
}

#[test]
fn a_long_buffer_stays_unchanged_beyond_the_numbers() {
    let mut random = Random::seeded(8);
    for _ in 0..20_000 {
        let line = random_line(&mut random);
        let length = random.between(6, 40);
        let before: Vec<u32> = (0..length).map(|_| random.number() as u32).collect();
        let mut buffer = before.clone();
        assert_eq!(read_line(&line, &mut buffer), 6);
        assert_eq!(buffer[..6], numbers(read(&line)));
        assert_eq!(buffer[6..], before[6..]);
    }
}
