//! Scheme files by hand: 25, 26 and 27 with each cause, the order of accepted ones, lines and codes under them.

mod common;

use common::text;
use second::generate::spellings;
use second::line::read_under;
use second::operation::Operation;
use second::rows::{Entry, Parameter, QualifiedRow, Term, TypeRow};
use second::schemes::{Code, PLAIN, SIX_FILE};
use second::{entry_under, SchemeTable, Table};

/// Sums or products, but no scheme for both, and none for a comparison.
const SUM_OR_PRODUCT: &str = "S,R,00000 S,A,10000 S,M,01000";

/// Each operation has a scheme of its own; two schemes support several, and the first is the greatest.
const EIGHT: &str = "S,NONE,00000 S,SUM,10000 S,PROD,01000 S,SAME,00100 S,LESS,00010 S,MORE,00001
    S,ARITH,11000 S,ALL,11111";

/// Schemes that are named as other words of lines.
const OTHER_WORDS: &str = "S,G,00000 S,OP,00111 S,INT,10000";

/// The number that refuses a file, 0 if it is accepted.
fn number(file: &[u8]) -> u32 {
    SchemeTable::open(file).err().unwrap_or(0)
}

/// Asserts the number of files whose lines are separated by white space.
fn assert_numbers(files: &[&str], expected: u32) {
    for file in files {
        assert_eq!(number(&text(file)), expected, "for the file {file}");
    }
}

/// Asserts the number of files given as bytes.
fn assert_bytes(files: &[&[u8]], expected: u32) {
    for file in files {
        assert_eq!(number(file), expected, "for the file {}", file.escape_ascii());
    }
}

/// The scheme table of an accepted file whose lines are separated by white space.
fn schemes(file: &str) -> SchemeTable {
    SchemeTable::open(&text(file)).unwrap()
}

#[test]
fn names_have_1_to_5_capitals_and_are_not_plain() {
    assert_numbers(&["S,A,00000", "S,Z,00000", "S,AZ,00000", "S,ZZZZZ,00000", "S,AAAAA,00000"], 0);
    // Words of lines and of reports, and what is nearly PLAIN.
    assert_numbers(&["S,G,00000", "S,OP,00000", "S,INT,00000", "S,ADD,00000", "S,S,00000"], 0);
    assert_numbers(&["S,FHE,00000", "S,RAND,11111", "S,PLAI,00000", "S,PLAIM,00000"], 0);
    assert_numbers(&["S,,00000", "S,AAAAAA,00000", "S,PLAINS,00000", "S,PLAIN,00000"], 25);
    assert_numbers(&["S,a,00000", "S,Ab,00000", "S,plain,00000", "S,Plain,00000"], 25);
    assert_numbers(&["S,A1,00000", "S,1,00000", "S,g0,00000", "S,A-B,00000", "S,A_,00000"], 25);
    assert_bytes(&[b"S,@,00000", b"S,[,00000", b"S,`,00000", b"S,A\0,00000", b"S,A ,00000"], 25);
    assert_bytes(&[b"S,\xc1,00000", "S,\u{c4},00000".as_bytes(), b"S, A,00000"], 25);
}

#[test]
fn bits_are_five_digits_0_or_1() {
    for bits in 0..32 {
        assert_numbers(&[&format!("S,A,{bits:05b}")], 0);
    }
    assert_numbers(&["S,A,", "S,A,0", "S,A,0000", "S,A,000000", "S,A,0000000000"], 25);
    assert_numbers(&["S,A,00002", "S,A,20000", "S,A,0000O", "S,A,0000l", "S,A,-0000"], 25);
    assert_numbers(&["S,A,+1111", "S,A,/0000", "S,A,0000:", "S,A,0,0,0,0,0", "S,A,0b000"], 25);
    assert_bytes(&[b"S,A,0000 ", b"S,A, 0000", b"S,A,0000\0", b"S,A,0000\xb1", b"S,A,00 00"], 25);
}

#[test]
fn a_line_has_the_tag_and_two_fields() {
    assert_numbers(&["s,A,00000", "T,A,00000", "SS,A,00000", ",A,00000", "5,A,00000"], 25);
    assert_numbers(&["S", "S,", "S,A", "S,00000", "A,00000", "00000", "A", ",", ",,", "S,,"], 25);
    assert_numbers(&["S,A,00000,", "S,A,00000,0", ",S,A,00000", "S,,A,00000", "S,A,,00000"], 25);
    assert_numbers(&["S,00000,A", "A,S,00000", "S;A;00000", "SA00000", "S,A;00000"], 25);
    assert_bytes(
        &[b" S,A,00000", b"S,A,00000 ", b"S, A,00000", b"S\tA\t00000", b"S,A,00000\0"],
        25,
    );
    assert_bytes(&["\u{feff}S,A,00000".as_bytes(), b"#\nS,A,00000\n", b"S,A,00000 # all"], 25);
    // The forms of other lines.
    assert_numbers(&["T,0,INT", "P,0,AH,0", "E,0,NUM,1", "C,ADD,AH,5", "G,0,AH"], 25);
}

#[test]
fn lines_are_parted_by_line_feeds() {
    let accepted: [&[u8]; 4] =
        [b"S,R,00000", b"S,R,00000\n", b"S,R,00000\nS,A,10000", b"S,R,00000\nS,A,10000\n"];
    assert_bytes(&accepted, 0);
    assert_eq!(SchemeTable::open(accepted[2]), SchemeTable::open(accepted[3]));
    assert_eq!(SchemeTable::open(accepted[2]).unwrap().words(), ["PLAIN", "R", "A"]);
    // Empty lines count, before, between and behind the others.
    assert_bytes(
        &[b"\n", b"\n\n", b"\nS,R,00000\n", b"S,R,00000\n\n", b"S,R,00000\n\nS,A,10000"],
        25,
    );
    assert_bytes(
        &[b"S,R,00000\r\n", b"S,R,00000\r", b"S,R,00000\rS,A,10000\n", b"\r\n", b"\r"],
        25,
    );
    assert_bytes(&[b"S,R,00000\r\nS,A,10000\r\n", b"S,R,00000\nS,A,10000\r\n"], 25);
    // What follows the last line feed is a line, whatever it is.
    assert_bytes(&[b"S,R,00000\nS", b"S,R,00000\n ", b"S,R,00000\n\0", b"S,R,00000S,A,10000"], 25);
}

#[test]
fn a_file_has_1_to_8_lines() {
    assert_bytes(&[b""], 25);
    assert_numbers(&["S,R,00000", EIGHT], 0);
    let nine = format!("{EIGHT} S,BOTH,00011");
    assert_numbers(&[&nine, &format!("{nine} S,EACH,00111"), &format!("{EIGHT} S,NONE,00000")], 25);
    // Only the number of lines is wrong: without any one of them the others are accepted, or have no greatest scheme.
    let lines: Vec<&str> = nine.split_whitespace().collect();
    for dropped in 0..9 {
        let mut eight = lines.clone();
        eight.remove(dropped);
        assert_numbers(&[&eight.join(" ")], if dropped == 0 { 26 } else { 0 });
    }
    assert_bytes(&[&b"S,R,00000\n".repeat(100_000), &b"\n".repeat(1_000_000)], 25);
}

#[test]
fn names_and_bits_are_not_repeated() {
    assert_numbers(&["S,R,00000 S,A,10000 S,AA,11111"], 0);
    assert_numbers(&["S,R,00000 S,R,00000", "S,R,00000 S,R,10000", "S,R,00000 S,A,00000"], 25);
    assert_numbers(&["S,R,00000 S,A,10000 S,R,11111", "S,A,10000 S,R,00000 S,B,10000"], 25);
    assert_numbers(&[&EIGHT.replace("ALL", "NONE"), &EIGHT.replace("11111", "00000")], 25);
}

/// The greatest lower bound of A and M would be X or Y, neither of which is at or below the other.
const NO_MEET: &str = "S,R,00000 S,A,10000 S,M,01000 S,X,11100 S,Y,11010";

#[test]
fn a_file_without_a_greatest_scheme_is_refused_with_26() {
    assert_numbers(&["S,A,10000 S,M,01000", "S,F,11111 S,A,10000 S,M,01000"], 26);
    assert_numbers(&["S,A,11110 S,B,01111", "S,D,00100 S,A,10000 S,O,00111"], 26);
    assert_numbers(&["S,A,10000 S,M,01000 S,R,00000", "S,A,11110 S,B,01111 S,C,01110"], 0);
}

#[test]
fn two_qualifiers_without_a_greatest_lower_bound_are_refused_with_26() {
    assert_numbers(&[NO_MEET], 26);
    // With Z, of which X and Y are below, or without one of X and Y, there is one.
    assert_numbers(&[&format!("{NO_MEET} S,Z,11000"), &NO_MEET.replace(" S,Y,11010", "")], 0);
    // A scheme below X and Y changes nothing, and PLAIN, which is below all of them, neither.
    assert_numbers(&[&format!("{NO_MEET} S,F,11111")], 26);
    assert_numbers(&["S,R,00000 S,AE,10100 S,M,01000 S,X,11110 S,Y,11101"], 26);
    // PLAIN is a greatest lower bound where no scheme is one.
    assert_numbers(&[SUM_OR_PRODUCT, "S,R,00000 S,D,00100 S,A,10000 S,M,01000 S,L,00010"], 0);
}

/// Schemes of which two support an operation and neither is at or below the other; each supports one more.
fn without_highest(operation: usize) -> String {
    let bits = |others: [usize; 2]| -> String {
        (0..5).map(|place| if others.contains(&place) { '1' } else { '0' }).collect()
    };
    let (one, other) =
        (bits([operation, (operation + 1) % 5]), bits([operation, (operation + 2) % 5]));
    format!("S,ONE,{one} S,R,00000 S,OTHER,{other}")
}

#[test]
fn an_operation_without_a_highest_scheme_is_refused_with_27() {
    assert_eq!(without_highest(0), "S,ONE,11000 S,R,00000 S,OTHER,10100");
    for (operation, alone) in ["10000", "01000", "00100", "00010", "00001"].into_iter().enumerate()
    {
        let file = without_highest(operation);
        assert_numbers(&[&file], 27);
        // A scheme that is below both is not above them, but one that supports the operation alone is.
        assert_numbers(&[&format!("{file} S,F,11111")], 27);
        assert_numbers(
            &[&format!("{file} S,H,{alone}"), &file.replace("S,R,00000", &format!("S,H,{alone}"))],
            0,
        );
    }
    // No supporter at all is no fault.
    assert_numbers(&["S,R,00000", "S,R,00000 S,A,10000"], 0);
}

#[test]
fn the_whole_file_is_read_before_the_order_counts() {
    let no_greatest = "S,A,10000 S,M,01000";
    for file in [no_greatest, NO_MEET, &without_highest(0)] {
        assert_ne!(number(&text(file)), 0);
        for line in ["S,C,0001", "s,C,00011", "S,PLAIN,00011", "S,C,00011,", "S", "T,0,INT"] {
            assert_numbers(&[&format!("{file} {line}"), &format!("{line} {file}")], 25);
        }
        // The first line's name, and its bits, once more.
        let (first, _) = file.split_once(' ').unwrap();
        let (name, bits) = first["S,".len()..].split_once(',').unwrap();
        assert_numbers(&[&format!("{file} S,{name},00011"), &format!("{file} S,C,{bits}")], 25);
        let more = ["00011", "00101", "01001", "10001", "00110", "01110", "01101"].into_iter();
        let lines = more.zip(["C", "D", "E", "F", "H", "I", "J"]);
        let more: String = lines.map(|(bits, name)| format!(" S,{name},{bits}")).collect();
        assert_numbers(&[&format!("{file}{more}")], 25);
        assert_eq!(number(&[&text(file)[..], b"\n"].concat()), 25);
    }
}

#[test]
fn the_order_counts_before_the_highest_schemes() {
    // No scheme is the greatest, and ADD has no highest one.
    assert_numbers(&["S,ONE,11000 S,OTHER,10100"], 26);
    assert_numbers(&["S,ONE,11000 S,R,00000 S,OTHER,10100"], 27);
    // A and M have no greatest lower bound, and EQ has no highest scheme: neither X nor U nor V is above the others.
    assert_numbers(&[&format!("{NO_MEET} S,U,00101 S,V,00110")], 26);
    assert_numbers(&[&format!("{NO_MEET} S,Z,11000 S,U,00101 S,V,00110")], 27);
}

/// A scheme table, worked out by hand.
struct ByHand {
    file: &'static str,
    /// Each word with the words at or below it, in the order of the codes.
    lower: &'static [(&'static str, &'static [&'static str])],
    /// The pairs of which neither is at or below the other, with their greatest lower bounds.
    apart: &'static [(&'static str, &'static str, &'static str)],
    greatest: &'static str,
    /// The highest scheme of ADD, MUL, EQ, LT and GT.
    highest: [&'static str; 5],
}

const BY_HAND: [ByHand; 5] = [
    ByHand {
        file: SUM_OR_PRODUCT,
        lower: &[
            ("PLAIN", &["PLAIN"]),
            ("R", &["PLAIN", "R", "A", "M"]),
            ("A", &["PLAIN", "A"]),
            ("M", &["PLAIN", "M"]),
        ],
        apart: &[("A", "M", "PLAIN")],
        greatest: "R",
        highest: ["A", "M", "PLAIN", "PLAIN", "PLAIN"],
    },
    ByHand {
        file: EIGHT,
        lower: &[
            ("PLAIN", &["PLAIN"]),
            ("NONE", &["PLAIN", "NONE", "SUM", "PROD", "SAME", "LESS", "MORE", "ARITH", "ALL"]),
            ("SUM", &["PLAIN", "SUM", "ARITH", "ALL"]),
            ("PROD", &["PLAIN", "PROD", "ARITH", "ALL"]),
            ("SAME", &["PLAIN", "SAME", "ALL"]),
            ("LESS", &["PLAIN", "LESS", "ALL"]),
            ("MORE", &["PLAIN", "MORE", "ALL"]),
            ("ARITH", &["PLAIN", "ARITH", "ALL"]),
            ("ALL", &["PLAIN", "ALL"]),
        ],
        apart: &[
            ("SUM", "PROD", "ARITH"),
            ("SUM", "SAME", "ALL"),
            ("SUM", "LESS", "ALL"),
            ("SUM", "MORE", "ALL"),
            ("PROD", "SAME", "ALL"),
            ("PROD", "LESS", "ALL"),
            ("PROD", "MORE", "ALL"),
            ("SAME", "LESS", "ALL"),
            ("SAME", "MORE", "ALL"),
            ("SAME", "ARITH", "ALL"),
            ("LESS", "MORE", "ALL"),
            ("LESS", "ARITH", "ALL"),
            ("MORE", "ARITH", "ALL"),
        ],
        greatest: "NONE",
        highest: ["SUM", "PROD", "SAME", "LESS", "MORE"],
    },
    // One scheme that supports something, and one that supports all: PLAIN is below it too.
    ByHand {
        file: "S,E,00100",
        lower: &[("PLAIN", &["PLAIN"]), ("E", &["PLAIN", "E"])],
        apart: &[],
        greatest: "E",
        highest: ["PLAIN", "PLAIN", "E", "PLAIN", "PLAIN"],
    },
    ByHand {
        file: "S,F,11111",
        lower: &[("PLAIN", &["PLAIN"]), ("F", &["PLAIN", "F"])],
        apart: &[],
        greatest: "F",
        highest: ["F", "F", "F", "F", "F"],
    },
    // Everything is at or below EQ, which stands between others.
    ByHand {
        file: "S,ALL,11111 S,EQ,00100 S,ADD,10100 S,LT,00110",
        lower: &[
            ("PLAIN", &["PLAIN"]),
            ("ALL", &["PLAIN", "ALL"]),
            ("EQ", &["PLAIN", "ALL", "EQ", "ADD", "LT"]),
            ("ADD", &["PLAIN", "ALL", "ADD"]),
            ("LT", &["PLAIN", "ALL", "LT"]),
        ],
        apart: &[("ADD", "LT", "ALL")],
        greatest: "EQ",
        highest: ["ADD", "ALL", "EQ", "LT", "ALL"],
    },
];

impl ByHand {
    /// Tells whether one word is at or below another.
    fn at_or_below(&self, lower: &str, upper: &str) -> bool {
        self.lower.iter().any(|(word, below)| *word == upper && below.contains(&lower))
    }

    /// The greatest lower bound of two words.
    fn meet<'a>(&self, one: &'a str, other: &'a str) -> &'a str {
        let are =
            |pair: &&(&str, &str, _)| [(pair.0, pair.1), (pair.1, pair.0)].contains(&(one, other));
        match self.apart.iter().find(are) {
            Some(&(_, _, bound)) => bound,
            None if self.at_or_below(one, other) => one,
            None => other,
        }
    }
}

#[test]
fn the_order_and_what_follows_are_those_by_hand() {
    for by_hand in BY_HAND {
        let schemes = schemes(by_hand.file);
        assert!(schemes.words().iter().eq(by_hand.lower.iter().map(|(word, _)| word)));
        for (one, left) in schemes.words().iter().enumerate() {
            for (other, right) in schemes.words().iter().enumerate() {
                let (one, other) = (one as Code, other as Code);
                let about = format!("{left} and {right} of {}", by_hand.file);
                let ordered = by_hand.at_or_below(left, right);
                assert_eq!(schemes.at_or_below(one, other), ordered, "{about}");
                let meet = schemes.word(schemes.meet(one, other));
                assert_eq!(meet, by_hand.meet(left, right), "{about}");
            }
        }
        assert_eq!(schemes.word(schemes.greatest()), by_hand.greatest);
        let highest = Operation::ALL.map(|operation| schemes.word(schemes.highest(operation)));
        assert_eq!(highest, by_hand.highest);
    }
}

#[test]
fn codes_follow_the_file() {
    for (file, count) in [("S,E,00100", 1), (SUM_OR_PRODUCT, 3), (EIGHT, 8)] {
        let schemes = schemes(file);
        assert!(schemes.qualifiers().eq(0..=count));
        assert!(schemes.schemes().eq(1..=count));
        assert_eq!(schemes.first_variable(), count + 1);
        assert_eq!(schemes.last_variable(), count + 64);
        assert_eq!(schemes.word(0), "PLAIN");
        for (code, line) in (1..).zip(file.split_whitespace()) {
            assert!(line.starts_with(&format!("S,{},", schemes.word(code))));
        }
        assert_eq!(schemes.file(), text(file));
    }
    // The same schemes in another order have other codes.
    assert_eq!(schemes("S,M,01000 S,R,00000 S,A,10000").words(), ["PLAIN", "M", "R", "A"]);
    assert_eq!(schemes("S,M,01000 S,R,00000 S,A,10000").greatest(), 2);
}

#[test]
fn redeclare_takes_the_codes_of_the_file() {
    for (file, last) in [("S,E,00100", 65), (SUM_OR_PRODUCT, 67), (EIGHT, 72)] {
        let (mut table, number) = Table::fresh_under(&text(file));
        assert_eq!(number, 0);
        assert_eq!((table.add(b"T,0,INT"), table.add(b"P,0,g0,0")), (0, 0));
        for code in 0..=last {
            assert_eq!(table.redeclare(0, code), 0, "for the code {code}");
            assert_eq!(u64::from(table.params[0].qualifier), code);
        }
        for code in [last + 1, last + 2, 255, 256, 256 + last, 1 << 32, u64::MAX] {
            assert_eq!(table.redeclare(0, code), 12, "for the code {code}");
            assert_eq!(table.redeclare(1, code), 5, "for the code {code}");
        }
        assert_eq!(u64::from(table.params[0].qualifier), last);
    }
}

#[test]
fn words_of_lines_follow_the_file() {
    let schemes = schemes(SUM_OR_PRODUCT);
    let read = |line: &str| read_under(&schemes, line.as_bytes());
    let row = |qualifier, type_row| QualifiedRow { qualifier, type_row };
    let parameter = |qualifier, floor| Entry::P(0, Parameter { qualifier, type_row: 1, floor });
    assert_eq!(read("P,0,R,1"), Some(parameter(1, PLAIN)));
    assert_eq!(read("P,0,PLAIN,1,A"), Some(parameter(0, 2)));
    assert_eq!(read("P,0,m,1,plain"), Some(parameter(3, 0)));
    // Variables come after three schemes.
    assert_eq!(read("P,0,g0,1,r"), Some(parameter(4, 1)));
    assert_eq!(read("P,0,g63,1"), Some(parameter(67, PLAIN)));
    let arrow = TypeRow::Arrow { argument: row(3, 0), result: row(67, 1) };
    assert_eq!(read("T,2,ARROW,M,0,g63,1"), Some(Entry::T(2, arrow)));
    assert_eq!(read("E,0,ENC,a,9"), Some(Entry::E(0, Term::Encrypted { scheme: 2, value: 9 })));
    for line in ["P,0,RAND,1", "P,0,AH,1", "P,0,g0,1,FHE", "T,2,ARROW,DET,0,g0,0", "E,0,ENC,OP,9"] {
        assert_eq!(read(line), None, "for the line {line}");
    }
    for line in
        ["E,0,ENC,PLAIN,9", "E,0,ENC,g0,9", "P,0,g64,1", "P,0,G0,1", "P,0,g0,1,g0", "P,0,RA,1"]
    {
        assert_eq!(read(line), None, "for the line {line}");
    }
}

#[test]
fn each_name_is_read_in_either_case() {
    for file in [EIGHT, OTHER_WORDS] {
        let schemes = schemes(file);
        for code in schemes.qualifiers() {
            for spelling in spellings(schemes.word(code)) {
                let line = |before: &str, behind: &str| {
                    [before.as_bytes(), &spelling, behind.as_bytes()].concat()
                };
                let declared = Parameter { qualifier: code, type_row: 0, floor: code };
                let floor = [line("P,0,", ",0,"), spelling.clone()].concat();
                assert_eq!(read_under(&schemes, &floor), Some(Entry::P(0, declared)));
                let encrypted = Entry::E(0, Term::Encrypted { scheme: code, value: 1 });
                let expected = (code != PLAIN).then_some(encrypted);
                assert_eq!(read_under(&schemes, &line("E,0,ENC,", ",1")), expected);
            }
        }
    }
}

#[test]
fn a_scheme_may_have_another_word_for_its_name() {
    let schemes = schemes(OTHER_WORDS);
    let code = |qualifier: &str| match read_under(&schemes, format!("P,0,{qualifier},0").as_bytes())
    {
        Some(Entry::P(0, parameter)) => Some(parameter.qualifier),
        _ => None,
    };
    // A `g` alone is the scheme, and with a number behind it a variable, which has no capital.
    for (qualifier, expected) in
        [("G", Some(1)), ("g", Some(1)), ("g0", Some(4)), ("g63", Some(67))]
    {
        assert_eq!(code(qualifier), expected);
    }
    for qualifier in ["G0", "g64", "gg", "g00", "g-0", "GT", "ANY", "ADD"] {
        assert_eq!(code(qualifier), None, "for the qualifier {qualifier}");
    }
    assert_eq!((code("op"), code("Int")), (Some(2), Some(3)));
    let operate = Term::Operate { operation: Operation::Lt, left: 0, right: 1 };
    assert_eq!(read_under(&schemes, b"E,2,OP,LT,0,1"), Some(Entry::E(2, operate)));
    assert_eq!(read_under(&schemes, b"T,0,INT"), Some(Entry::T(0, TypeRow::Int)));
    let encrypted = Term::Encrypted { scheme: 3, value: 1 };
    assert_eq!(read_under(&schemes, b"E,0,ENC,INT,1"), Some(Entry::E(0, encrypted)));
    // Where no scheme is named so, they are no qualifiers.
    for line in ["P,0,G,0", "P,0,g,0", "P,0,INT,0", "E,0,ENC,INT,1", "E,0,ENC,g,1"] {
        assert_eq!(read_under(SchemeTable::six(), line.as_bytes()), None, "for the line {line}");
    }
}

#[test]
fn a_refused_file_gives_a_fresh_table_of_the_six() {
    let refused = [("S,A,1000", 25), ("S,A,10000 S,M,01000", 26), (&without_highest(3), 27)];
    for (file, number) in refused {
        let (mut table, refusal) = Table::fresh_under(&text(file));
        assert_eq!((&table, refusal), (&Table::fresh(), number));
        assert_eq!(table.schemes(), SchemeTable::six());
        assert_eq!((table.add(b"T,0,INT"), table.add(b"P,0,RAND,0,AH")), (0, 0));
        assert_eq!((table.redeclare(0, 70), table.redeclare(0, 71)), (0, 12));
    }
}

#[test]
fn an_accepted_file_gives_a_fresh_table_of_its_schemes() {
    let (table, number) = Table::fresh_under(&text(SUM_OR_PRODUCT));
    assert_eq!((&table, number), (&Table::fresh_of(schemes(SUM_OR_PRODUCT)), 0));
    assert!(table.types.is_empty() && table.params.is_empty() && table.terms.is_empty());
    // The scheme table is a part of the table.
    assert_ne!(table, Table::fresh());
    assert_ne!(table, Table::fresh_under(&text("S,R,00000 S,M,01000 S,A,10000")).0);
    assert_eq!(Table::fresh_under(SIX_FILE), (Table::fresh(), 0));
}

#[test]
fn the_entry_looks_at_the_buffer_then_at_the_file_then_at_the_text() {
    let files = [(&b""[..], 25_000), (b"S,A,10000\nS,M,01000", 26_000), (b"S,R,00000", 0)];
    let no_highest = text(&without_highest(1));
    let texts = [(&b""[..], 10_000), (b"FOO\n", 1_001), (b"E,0,NUM,1\nE,2,NUM,1\n", 2_002)];
    for (file, refusal) in files.into_iter().chain([(&no_highest[..], 27_000)]) {
        for (text, returns) in texts {
            for length in [0, 1, 6279] {
                let mut buffer = vec![3; length];
                assert_eq!(entry_under(file, text, &mut buffer), 11_000);
                assert!(buffer.iter().all(|&byte| byte == 3));
            }
            for length in [6280, 6281, 9000] {
                let mut buffer = vec![3; length];
                let expected = if refusal == 0 { returns } else { refusal };
                assert_eq!(entry_under(file, text, &mut buffer), expected);
                assert!(buffer.iter().all(|&byte| byte == 3));
            }
        }
    }
}
