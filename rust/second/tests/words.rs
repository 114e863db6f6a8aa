//! Words in either case: which bytes spell a word, and what stands in one case only.

mod common;

use common::{assert_prints, assert_refused, assert_unread, table, WORDS};
use second::generate::{call_list, spellings, what_if_list, Call, LetterCase, Random};
use second::line::read;
use second::operation::Operation;
use second::place::inferred;
use second::qualifier::Qualifier;
use second::rows::{Entry, Parameter, QualifiedRow, Term, TypeRow};
use second::Table;

/// A line with a word in it: what stands before the word, the word in capitals, what stands behind it.
#[derive(Clone, Copy)]
struct Place {
    before: &'static str,
    word: &'static str,
    behind: &'static str,
}

/// What stands before and behind a qualifier's word in each field that may hold one; the last is for schemes.
const QUALIFIED: [(&str, &str); 5] = [
    ("T,1,ARROW,", ",0,g1,0"),
    ("T,1,ARROW,g0,0,", ",0"),
    ("P,0,", ",0"),
    ("P,0,g0,0,", ""),
    ("E,0,ENC,", ",1"),
];

/// The kinds with what stands before and behind them.
const KINDS: [Place; 9] = [
    Place { before: "T,0,", word: "INT", behind: "" },
    Place { before: "T,0,", word: "ANY", behind: "" },
    Place { before: "T,1,", word: "ARROW", behind: ",g0,0,g1,0" },
    Place { before: "E,1,", word: "LAM", behind: ",0,0" },
    Place { before: "E,1,", word: "APP", behind: ",0,0" },
    Place { before: "E,2,", word: "OP", behind: ",EQ,0,1" },
    Place { before: "E,0,", word: "VAR", behind: ",0" },
    Place { before: "E,0,", word: "NUM", behind: ",1" },
    Place { before: "E,0,", word: "ENC", behind: ",AH,1" },
];

/// The words that become another word by another first letter.
const NEIGHBOURS: [(&str, &str); 4] = [("AH", "MH"), ("MH", "AH"), ("LT", "GT"), ("GT", "LT")];

impl Place {
    /// The line with this in the word's place.
    fn line(&self, field: &[u8]) -> Vec<u8> {
        [self.before.as_bytes(), field, self.behind.as_bytes()].concat()
    }

    /// What the line declares with a word in capitals.
    fn declared(&self, word: &str) -> Entry {
        let line = self.line(word.as_bytes());
        read(&line).unwrap_or_else(|| panic!("{} is not read", line.escape_ascii()))
    }

    /// The word that stands here with this byte at a position of this one, if any.
    fn word_with(&self, position: usize, byte: u8) -> Option<&'static str> {
        let has = |word: &str| either_case(word.as_bytes()[position]).contains(&byte);
        let neighbours = NEIGHBOURS.into_iter().filter(|&(word, _)| word == self.word);
        let others = neighbours.map(|(_, other)| other).filter(|_| position == 0);
        [self.word].into_iter().chain(others).find(|word| has(word))
    }
}

/// Each word in each field where it may stand.
fn places() -> Vec<Place> {
    let mut places = KINDS.to_vec();
    for (before, behind) in QUALIFIED {
        let words = WORDS.into_iter().filter(|&word| before != "E,0,ENC," || word != "PLAIN");
        places.extend(words.map(|word| Place { before, word, behind }));
    }
    let operations = ["ADD", "MUL", "EQ", "LT", "GT"];
    places.extend(operations.map(|word| Place { before: "E,2,OP,", word, behind: ",0,1" }));
    places
}

/// A capital and its small letter, which stands 32 places behind it.
fn either_case(capital: u8) -> [u8; 2] {
    [capital, capital + 32]
}

#[test]
fn each_form_is_read_in_small_letters() {
    let row = |qualifier, type_row| QualifiedRow { qualifier, type_row };
    let arrow = TypeRow::Arrow { argument: row(0, 0), result: row(6, 1) };
    assert_eq!(read(b"T,3,int"), Some(Entry::T(3, TypeRow::Int)));
    assert_eq!(read(b"T,3,any"), Some(Entry::T(3, TypeRow::Any)));
    assert_eq!(read(b"T,3,arrow,plain,0,rand,1"), Some(Entry::T(3, arrow)));
    let parameter = |floor: Qualifier| {
        Entry::P(3, Parameter { qualifier: 5, type_row: 1, floor: floor.code() })
    };
    assert_eq!(read(b"P,3,ah,1"), Some(parameter(Qualifier::Plain)));
    assert_eq!(read(b"P,3,ah,1,det"), Some(parameter(Qualifier::Det)));
    let operate = Term::Operate { operation: Operation::Gt, left: 1, right: 2 };
    let encrypted = Term::Encrypted { scheme: Qualifier::Op.code(), value: 7 };
    let terms = [
        ("E,3,lam,1,2", Term::Lambda { parameter: 1, body: 2 }),
        ("E,3,app,1,2", Term::Apply { function: 1, argument: 2 }),
        ("E,3,op,gt,1,2", operate),
        ("E,3,var,1", Term::Variable { parameter: 1 }),
        ("E,3,num,7", Term::Number { value: 7 }),
        ("E,3,enc,op,7", encrypted),
    ];
    for (line, term) in terms {
        assert_eq!(read(line.as_bytes()), Some(Entry::E(3, term)), "for the line {line}");
    }
}

#[test]
fn each_spelling_of_a_word_is_read_as_the_word() {
    let mut lines = 0;
    for place in places() {
        let expected = place.declared(place.word);
        for spelling in spellings(place.word) {
            let line = place.line(&spelling);
            assert_eq!(read(&line), Some(expected), "for the line {}", line.escape_ascii());
            lines += 1;
        }
    }
    // 92 spellings of kinds, 76 of qualifiers in four fields, 44 of schemes, 28 of operations.
    assert_eq!(lines, 92 + 4 * 76 + 44 + 28);
}

#[test]
fn each_byte_of_a_word_is_its_letter_in_either_case() {
    let mut read_lines = 0;
    for place in places() {
        let small: Vec<u8> = place.word.bytes().map(|capital| either_case(capital)[1]).collect();
        // The other letters are capitals, or small.
        for spelling in [place.word.as_bytes(), &small] {
            for position in 0..spelling.len() {
                for byte in 0..=255 {
                    let mut field = spelling.to_vec();
                    field[position] = byte;
                    let expected = place.word_with(position, byte).map(|it| place.declared(it));
                    let line = place.line(&field);
                    assert_eq!(read(&line), expected, "for the line {}", line.escape_ascii());
                    read_lines += usize::from(expected.is_some());
                }
            }
        }
    }
    // Letters of kinds, of qualifiers in four fields, of schemes and of operations; and those that make AH, MH, LT and GT another word.
    assert_eq!(read_lines, 2 * 2 * (28 + 4 * 21 + 16 + 12 + 5 * 2 + 2));
}

#[test]
fn a_tag_is_a_capital() {
    for place in places() {
        for word in spellings(place.word) {
            let mut line = place.line(&word);
            let tag = line[0];
            for byte in 0..=255 {
                line[0] = byte;
                assert_eq!(read(&line).is_some(), byte == tag, "for {}", line.escape_ascii());
            }
        }
    }
    assert_unread(&["t,0,INT", "t,0,int", "p,0,AH,0", "p,0,ah,0,ah", "e,0,NUM,1", "e,0,num,1"]);
    // 1 comes before all other numbers: the own number is not the next here.
    assert_refused(&mut Table::fresh(), "t,9,INT", 1);
    assert_refused(&mut Table::fresh(), "T,9,int", 2);
}

#[test]
fn the_g_of_a_variable_is_small() {
    for (before, behind) in &QUALIFIED[..3] {
        for variable in 0..64 {
            for byte in 0..=255 {
                let number = variable.to_string();
                let line =
                    [before.as_bytes(), &[byte], number.as_bytes(), behind.as_bytes()].concat();
                assert_eq!(read(&line).is_some(), byte == b'g', "for {}", line.escape_ascii());
            }
        }
    }
    assert_unread(&["P,0,G0,0", "P,0,G63,0", "P,0,G0,0,AH", "T,1,ARROW,G0,0,g0,0"]);
    assert_unread(&["T,1,arrow,g0,0,G0,0", "P,0,g0,0,G0", "E,0,ENC,G0,1", "E,2,OP,G0,0,1"]);
    assert_refused(&mut Table::fresh(), "P,9,G0,9", 1);
    assert_refused(&mut Table::fresh(), "P,9,g0,9", 2);
}

#[test]
fn gt_is_an_operation_and_no_variable() {
    let operate = Term::Operate { operation: Operation::Gt, left: 0, right: 1 };
    for word in ["GT", "Gt", "gT", "gt"] {
        let line = format!("E,2,op,{word},0,1");
        assert_eq!(read(line.as_bytes()), Some(Entry::E(2, operate)), "for the line {line}");
    }
    for (before, behind) in QUALIFIED {
        for field in ["g", "G", "GT", "Gt", "gT", "gt", "g0t", "gg0"] {
            assert_unread(&[&format!("{before}{field}{behind}")]);
        }
    }
    for field in ["g", "G", "t", "g0", "G0", "gtt"] {
        assert_unread(&[&format!("E,2,OP,{field},0,1")]);
    }
}

#[test]
fn plain_is_no_scheme_in_any_case() {
    for word in spellings("PLAIN") {
        assert_unread(&[&[b"E,0,ENC,", &word[..], b",5"].concat()]);
    }
}

#[test]
fn a_word_of_another_class_is_not_read_in_small_letters_either() {
    assert_unread(&["P,0,int,0", "P,0,add,0", "P,0,g0,0,any", "P,0,g0,0,gt", "E,0,enc,add,1"]);
    assert_unread(&["E,2,op,ah,0,1", "E,2,op,op,0,1", "E,2,add,add,0,1", "E,0,ah,1"]);
    assert_unread(&["T,0,num", "T,0,op", "T,0,plain", "E,0,int,1", "E,1,arrow,0,0"]);
    assert_unread(&["T,0,integer", "T,0,in", "P,0,ahh,0", "P,0,a,0", "E,0,nu,1", "E,0,,1"]);
}

#[test]
fn only_letters_of_ascii_have_two_cases() {
    assert_unread(&["T,0,[NT", "T,0,@NY", "T,0,`ny", "T,0,{ny", "T,0,\0NT", "T,0,\0nt"]);
    assert_unread(&[&b"E,0,NU\xcd,1"[..], b"E,0,nu\xed,1", b"T,0,\xc9NT", b"P,0,\xc1H,0"]);
    // A dotless i, whose capital is I, and letters A that are wide or have an accent.
    for word in ["PLA\u{131}N", "pla\u{131}n", "\u{ff21}H", "\u{ff41}h", "\u{c0}H", "\u{e0}h"] {
        assert_unread(&[&format!("P,0,{word},0")]);
    }
    // Bytes that differ from a comma and from digits in the bit that parts small letters from capitals.
    assert_unread(&["T\x0c0\x0cINT", "T,0\x0cINT", "T,\x10,INT", "E,0,NUM,\x11", "P,0,g\x10,0"]);
}

#[test]
fn rows_of_one_table_may_be_in_any_case() {
    let capitals = table(
        "T,0,ANY T,1,ARROW,AH,0,g7,0 P,0,g0,0,FHE P,1,RAND,1 E,0,VAR,0 E,1,ENC,AH,5 E,2,OP,ADD,0,1
         E,3,LAM,0,2",
    );
    let small = table(
        "T,0,any T,1,arrow,ah,0,g7,0 P,0,g0,0,fhe P,1,rand,1 E,0,var,0 E,1,enc,ah,5 E,2,op,add,0,1
         E,3,lam,0,2",
    );
    let mixed = table(
        "T,0,aNy T,1,ArroW,aH,0,g7,0 P,0,g0,0,Fhe P,1,raND,1 E,0,Var,0 E,1,eNC,Ah,5 E,2,oP,AdD,0,1
         E,3,LAm,0,2",
    );
    assert_eq!(small, capitals);
    assert_eq!(mixed, capitals);
}

#[test]
fn a_report_is_in_capitals() {
    let report = "OK,1,4 G,0,AH P,0,AH,INT E,0,AH,INT E,1,AH,INT E,2,AH,INT E,3,PLAIN,ARROW";
    assert_prints("T,0,any P,0,g0,0 E,0,var,0 E,1,var,0 E,2,op,add,0,1 E,3,lam,0,2", report);
    assert_prints("T,0,aNY P,0,g0,0 E,0,Var,0 E,1,vaR,0 E,2,Op,aDd,0,1 E,3,lAm,0,2", report);
    let floor = "T,0,int P,0,oP,0,det E,0,var,0 E,1,Lam,0,0";
    assert_prints(floor, "NO,24,0");
    assert_prints(&floor.replace("det", "fhe"), "OK,1,2 P,0,OP,INT E,0,OP,INT E,1,PLAIN,ARROW");
}

/// The answers to a list of calls, with the table after the last one.
fn answers(calls: &[Call]) -> (Vec<Vec<u8>>, Table) {
    let mut table = Table::fresh();
    let mut answers = vec![];
    for call in calls {
        answers.push(match call {
            Call::Add(line) => table.add(line).to_string().into_bytes(),
            Call::Redeclare(parameter, code) => {
                table.redeclare(*parameter, *code).to_string().into_bytes()
            }
            Call::TakeBack => table.take_back().to_string().into_bytes(),
            Call::Infer(..) => inferred(&table),
        });
    }
    (answers, table)
}

#[test]
fn the_case_of_words_changes_no_answer() {
    let mut random = Random::seeded(1);
    let (mut other_lines, mut reports) = (0, 0);
    for rows in 1..=300 {
        let calls = match rows % 2 {
            0 => call_list(&mut random, rows / 2),
            _ => what_if_list(&mut random, rows / 2, 4),
        };
        let expected = answers(&calls);
        reports += expected.0.iter().filter(|answer| answer.starts_with(b"OK")).count();
        assert!(!expected.0.concat().iter().any(u8::is_ascii_lowercase));
        for case in LetterCase::ALL {
            let in_case = |call: &Call| match call {
                Call::Add(line) => Call::Add(case.of_line(&mut random, line)),
                other => other.clone(),
            };
            let written: Vec<Call> = calls.iter().map(in_case).collect();
            assert_eq!(answers(&written), expected, "for {written:?}");
            other_lines += written.iter().zip(&calls).filter(|(one, other)| one != other).count();
        }
    }
    assert!(other_lines > 10_000, "{other_lines} lines were in another case only");
    assert!(reports > 300, "{reports} reports were given only");
}
