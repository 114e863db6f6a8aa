//! Helpers shared by the tests.

// Each test file uses some of these only.
#![allow(dead_code)]

pub use second::generate::text_of_lines as text;
use second::generate::Call;
use second::line::read;
use second::place::inferred;
use second::{entry_under, place, Answer, Table};

/// Asserts what `place` prints for a program, both given as words separated by white space.
pub fn assert_prints(program: &str, expected: &str) {
    let printed = String::from_utf8(place(&text(program))).unwrap();
    let expected = String::from_utf8(text(expected)).unwrap();
    assert_eq!(printed, expected, "for the program {program}");
}

/// Asserts the report of a program under a scheme file, all three given as words separated by white space.
pub fn assert_report_under(file: &str, program: &str, report: &str) {
    let mut buffer = [0x5A; 6280];
    let returned = entry_under(&text(file), &text(program), &mut buffer);
    assert!(returned > 100_000, "{returned} for the program {program}");
    let (found, rest) = buffer.split_at(returned as usize - 100_000);
    let expected = String::from_utf8(text(report)).unwrap();
    assert_eq!(String::from_utf8_lossy(found), expected, "for the program {program}");
    assert!(rest.iter().all(|&byte| byte == 0x5A), "for the program {program}");
}

/// Asserts what the entry returns for a program that is refused under a scheme file, and that it leaves the buffer.
pub fn assert_refused_under(file: &str, program: &str, returns: u32) {
    let mut buffer = [0x5A; 6280];
    let returned = entry_under(&text(file), &text(program), &mut buffer);
    assert_eq!(returned, returns, "for the program {program}");
    assert!(buffer.iter().all(|&byte| byte == 0x5A), "for the program {program}");
}

/// Asserts that none of these lines has one of the forms.
pub fn assert_unread<T: AsRef<[u8]> + ?Sized>(lines: &[&T]) {
    for line in lines.iter().map(|line| line.as_ref()) {
        assert_eq!(read(line), None, "for the line {}", line.escape_ascii());
    }
}

/// The seven words.
pub const WORDS: [&str; 7] = ["PLAIN", "FHE", "OP", "DET", "MH", "AH", "RAND"];

/// For each operation, the words at or below its highest scheme.
const SUPPORTED: [(&str, &[&str]); 5] = [
    ("ADD", &["PLAIN", "FHE", "AH"]),
    ("MUL", &["PLAIN", "FHE", "MH"]),
    ("EQ", &["PLAIN", "FHE", "OP", "DET"]),
    ("LT", &["PLAIN", "FHE", "OP"]),
    ("GT", &["PLAIN", "FHE", "OP"]),
];

/// Asserts that operands which have the qualifier of x, declared as each word, are accepted by the operations that support it, and refused with 23 by all others.
pub fn assert_supported(left: &str, right: &str) {
    for (operation, words) in SUPPORTED {
        for word in WORDS {
            let program = format!(
                "T,0,INT P,0,{word},0 E,0,{left} E,1,{right} E,2,OP,{operation},0,1 E,3,LAM,0,2"
            );
            let result = match operation {
                "ADD" | "MUL" => word,
                _ => "PLAIN",
            };
            let accepted = format!(
                "OK,1,4 P,0,{word},INT E,0,{word},INT E,1,{word},INT E,2,{result},INT
                 E,3,PLAIN,ARROW"
            );
            assert_prints(&program, if words.contains(&word) { &accepted } else { "NO,23,2" });
        }
    }
}

/// Asserts what is printed of an inference, given as words separated by white space.
pub fn assert_inferred(table: &Table, expected: &str) {
    let printed = String::from_utf8(inferred(table)).unwrap();
    let expected = String::from_utf8(text(expected)).unwrap();
    assert_eq!(printed, expected, "for the table {table:?}");
}

/// The table after these lines, each of which must be accepted.
pub fn table(lines: &str) -> Table {
    let mut table = Table::fresh();
    add_all(&mut table, lines);
    table
}

/// Adds lines, each of which must be accepted.
pub fn add_all(table: &mut Table, lines: &str) {
    for line in lines.split_whitespace() {
        assert_eq!(table.add(line.as_bytes()), 0, "for the line {line}");
    }
}

/// Asserts that an add is refused with this number and leaves the lists unchanged.
pub fn assert_refused(table: &mut Table, line: &str, number: u32) {
    let before = table.clone();
    assert_eq!(table.add(line.as_bytes()), number, "for the line {line}");
    assert_eq!(*table, before, "for the line {line}");
}

/// Makes a call; gives its number and asserts that a refusal changes nothing, and that no call changes the scheme table.
pub fn make(table: &mut Table, call: &Call) -> u32 {
    let before = table.clone();
    let number = match call {
        Call::Add(line) => table.add(line),
        Call::Redeclare(parameter, code) => table.redeclare(*parameter, *code),
        Call::TakeBack => table.take_back(),
        Call::Infer(length, fill) => {
            let mut buffer = vec![*fill; *length];
            let Answer { number, row, length } = table.infer(&mut buffer);
            assert!(number == 0 || length == 0);
            assert!(number > 20 || row == 0);
            assert!(buffer[length as usize..].iter().all(|byte| byte == fill));
            assert_eq!(*table, before);
            number
        }
    };
    assert!(number == 0 || *table == before);
    assert_eq!(table.schemes(), before.schemes());
    number
}

/// How many infers were made, and how many gave another answer than the one before them.
#[derive(Debug, Default)]
pub struct Infers {
    /// All of them.
    pub made: usize,
    /// Those with another answer.
    pub changed: usize,
}

impl Infers {
    /// Makes calls on a table, all but infers accepted, and counts the infers.
    pub fn take(&mut self, table: &mut Table, calls: &[Call]) {
        let mut before = None;
        for call in calls {
            let number = make(table, call);
            match call {
                Call::Infer(..) => {
                    let answer = inferred(table);
                    self.made += 1;
                    self.changed += usize::from(before.is_some_and(|before| before != answer));
                    before = Some(answer);
                }
                _ => assert_eq!(number, 0, "for {call:?}"),
            }
        }
    }
}
