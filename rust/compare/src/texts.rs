//! Texts for the C entry and for the program `place`, of many kinds.

use crate::calls::filling_lines;
use crate::well_formed::random_line_under;
use second::generate::{
    any_bytes, opened, program_with_floors_under, text_in_any_case, text_of_table, Damage, Opening,
    Program, Random,
};
use second::text::lines;
use second::{SchemeTable, Table};

/// What a text is.
#[derive(Clone, Copy, Debug, PartialEq, Eq, PartialOrd, Ord)]
pub enum Kind {
    /// A closed program.
    Closed,
    /// A closed program without its last line feed.
    NoLastLineFeed,
    /// A program that is not closed for this reason.
    Open(Opening),
    /// A closed program with this change.
    Damaged(Damage),
    /// No bytes.
    Empty,
    /// More lines than a table holds, some of them damaged.
    Long,
    /// Bytes of any values.
    AnyBytes,
}

impl Kind {
    /// All kinds.
    pub fn all() -> Vec<Kind> {
        let mut all =
            vec![Kind::Closed, Kind::NoLastLineFeed, Kind::Empty, Kind::Long, Kind::AnyBytes];
        all.extend(Opening::ALL.map(Kind::Open));
        all.extend(Damage::ALL.map(Kind::Damaged));
        all
    }

    /// A kind; closed programs and changed ones are the most frequent.
    fn random(random: &mut Random) -> Kind {
        match random.below(20) {
            0..=4 => Kind::Closed,
            5 | 6 => Kind::NoLastLineFeed,
            7 | 8 => Kind::Open(Opening::ALL[random.below(Opening::ALL.len())]),
            9 => match random.below(3) {
                0 => Kind::Empty,
                1 => Kind::Long,
                _ => Kind::AnyBytes,
            },
            // Changed fields are refused for the most different reasons.
            10 | 11 => Kind::Damaged(Damage::FieldChanged),
            _ => Kind::Damaged(Damage::ALL[random.below(Damage::ALL.len())]),
        }
    }

    /// A text of this kind under a scheme table.
    fn text(self, random: &mut Random, schemes: &SchemeTable) -> Vec<u8> {
        match self {
            Kind::Closed => closed_text_under(random, schemes),
            Kind::NoLastLineFeed => {
                let mut text = closed_text_under(random, schemes);
                text.pop();
                text
            }
            Kind::Open(opening) => open_text(random, schemes, opening),
            Kind::Damaged(damage) => {
                let text = closed_text_under(random, schemes);
                damage.of_text_under(random, schemes, &text)
            }
            Kind::Empty => vec![],
            Kind::Long => long_text(random, schemes),
            Kind::AnyBytes => any_bytes(random, 200),
        }
    }
}

/// A text of a random kind under the built-in six.
pub fn random_text(random: &mut Random) -> (Kind, Vec<u8>) {
    random_text_under(random, SchemeTable::six())
}

/// A text of a random kind under a scheme table.
pub fn random_text_under(random: &mut Random, schemes: &SchemeTable) -> (Kind, Vec<u8>) {
    let kind = Kind::random(random);
    (kind, kind.text(random, schemes))
}

/// A random closed program, small or of any size; most have floors.
fn program(random: &mut Random, schemes: &SchemeTable) -> Program {
    let rows = match random.below(3) {
        0 => random.between(1, 12),
        1 => random.between(1, 60),
        _ => random.between(1, 256),
    };
    program_with_floors_under(random, schemes, rows)
}

/// The text of a random closed program under the built-in six.
pub fn closed_text(random: &mut Random) -> Vec<u8> {
    closed_text_under(random, SchemeTable::six())
}

/// The text of a random closed program under a scheme table.
pub fn closed_text_under(random: &mut Random, schemes: &SchemeTable) -> Vec<u8> {
    let program = program(random, schemes);
    match random.one_in(2) {
        true => program.text(),
        // Here the redeclarations stand in the lines, so that more programs have a typing.
        false => text_in_any_case(random, &text_of_table(&program.table())),
    }
}

/// A text whose lines are all accepted and whose program is not closed for this reason.
fn open_text(random: &mut Random, schemes: &SchemeTable, opening: Opening) -> Vec<u8> {
    loop {
        let program = program(random, schemes);
        if let Some(lines) = opened(random, &program, opening) {
            return joined(&lines);
        }
    }
}

/// A text with more lines than the 384 that a table holds; one of the first is often damaged.
fn long_text(random: &mut Random, schemes: &SchemeTable) -> Vec<u8> {
    let mut lines: Vec<String> = filling_lines().collect();
    for _ in 0..random.between(2, 100) {
        let line = match random.below(6) {
            0 => "T,64,INT".to_string(),
            1 => "P,64,PLAIN,0".to_string(),
            2 => "E,256,NUM,1".to_string(),
            3 => String::new(),
            _ => String::from_utf8_lossy(&random_line_under(random, schemes)).into_owned(),
        };
        lines.push(line);
    }
    let text = joined(&lines);
    match random.one_in(3) {
        true => Damage::FieldChanged.of_text_under(random, schemes, &text),
        false => text,
    }
}

/// The lines as one text, each ended by a line feed.
fn joined(lines: &[String]) -> Vec<u8> {
    lines.iter().flat_map(|line| format!("{line}\n").into_bytes()).collect()
}

/// The table that a text fills; each of its lines must be accepted.
pub fn filled_table(mut table: Table, text: &[u8]) -> Table {
    for line in lines(text) {
        assert_eq!(table.add(line), 0, "for the line {}", line.escape_ascii());
    }
    table
}

/// Texts of more than a million bytes, each with its name; all are refused at one of their first lines.
pub fn large_texts() -> Vec<(&'static str, Vec<u8>)> {
    const SIZE: usize = 1_100_000;
    let closed = b"E,0,NUM,1\n".to_vec();
    let filling: Vec<String> = filling_lines().collect();
    let followed = |mut text: Vec<u8>, piece: &[u8]| {
        text.extend(piece.iter().cycle().take(SIZE));
        text
    };
    vec![
        ("line feeds only", followed(vec![], b"\n")),
        ("one line", followed(vec![], b"0")),
        ("one line that begins as a row does", followed(b"E,0,NUM,".to_vec(), b"1")),
        ("a program and a long line", followed(closed.clone(), b",")),
        ("a program and line feeds", followed(closed.clone(), b"\n")),
        ("a row again and again", followed(vec![], b"E,0,NUM,1\n")),
        ("a full table and a long line", followed(joined(&filling), b"E")),
        ("a full table and more rows", followed(joined(&filling), b"E,256,NUM,1\n")),
    ]
}
