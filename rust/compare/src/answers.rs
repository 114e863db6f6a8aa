//! The entries for scripts compared with the reference, and what their answers say.

use crate::buffers::{
    assert_bytes, assert_same, filled_buffer, inner, random_buffer, shown, MARGIN,
};
use crate::{placement_session, session_lent};
use second::generate::{text_of_lines, Random};
use second::session::{written, Command};

/// A function that answers scripts: the script and a buffer in, the length of all answers out.
pub type Entry = fn(&[u8], &mut [u8]) -> usize;

/// The functions that are compared with the reference.
pub const ENTRIES: [(&str, Entry); 2] =
    [("placement_session", placement_session), ("session_lent", session_lent)];

/// How long a buffer for answers is.
#[derive(Clone, Copy, Debug, PartialEq, Eq, PartialOrd, Ord)]
pub enum Room {
    /// No byte.
    Zero,
    /// Too short.
    Shorter,
    /// One byte too short.
    OneTooShort,
    /// Just long enough.
    Exact,
    /// Longer than it must be.
    Longer,
}

impl Room {
    /// All kinds of length.
    pub const ALL: [Room; 5] =
        [Room::Zero, Room::Shorter, Room::OneTooShort, Room::Exact, Room::Longer];

    /// A kind of length, mostly one that is long enough.
    pub fn random(random: &mut Random) -> Room {
        match random.below(4) {
            0 => Room::ALL[random.below(Room::ALL.len())],
            1 => Room::Longer,
            _ => Room::Exact,
        }
    }

    /// A length of this kind for answers of so many bytes, of which there are some.
    pub fn length(self, random: &mut Random, answers: usize) -> usize {
        match self {
            Room::Zero => 0,
            Room::Shorter => random.below(answers),
            Room::OneTooShort => answers - 1,
            Room::Exact => answers,
            Room::Longer => random.between(answers + 1, answers + 100),
        }
    }
}

/// Asserts that both functions answer a script with these bytes, with a buffer of this length.
pub fn assert_written(random: &mut Random, script: &[u8], answers: &[u8], length: usize) {
    for (name, entry) in ENTRIES {
        let mut expected = random_buffer(random, length);
        let mut found = expected.clone();
        written(answers, inner(&mut expected));
        let returned = entry(script, inner(&mut found));
        assert_eq!(returned, answers.len(), "for {name}, {}", shown(script));
        assert_same(&found, &expected, || format!("{name}, {}", shown(script)));
    }
}

/// Asserts that both functions answer a script with these bytes where there is just enough room.
pub fn assert_answers(about: &str, script: &[u8], answers: &[u8]) {
    for (name, entry) in ENTRIES {
        for byte in [0, b'\n', 0xA5] {
            let mut bytes = filled_buffer(byte, answers.len());
            assert_eq!(entry(script, inner(&mut bytes)), answers.len(), "for {name}, {about}");
            assert_bytes(inner(&mut bytes), answers, &format!("{name}, {about}"));
            bytes.drain(MARGIN..MARGIN + answers.len());
            assert!(bytes.iter().all(|&other| other == byte), "for {name}, {about}");
        }
    }
}

/// A line of a script and what is printed of it, lines separated by white space.
pub type Exchange<'a> = (&'a str, &'a str);

/// Asserts what both functions print of each line of a script, and of the whole without its last line feed.
pub fn assert_exchanges(exchanges: &[Exchange]) {
    let (mut script, mut answers) = (vec![], vec![]);
    for (line, printed) in exchanges {
        script.extend(format!("{line}\n").into_bytes());
        answers.extend(text_of_lines(printed));
        assert_answers(&format!("a script up to the line {line}"), &script, &answers);
    }
    assert_eq!(script.pop(), Some(b'\n'));
    assert_answers("a script without its last line feed", &script, &answers);
}

/// The answers to a script, by one call that asks for their length and one that has room for them.
pub fn asked(entry: Entry, script: &[u8]) -> Vec<u8> {
    let mut answers = vec![0; entry(script, &mut [])];
    assert_eq!(entry(script, &mut answers), answers.len());
    answers
}

/// The first word of a command; `?` for other lines.
pub fn word(line: &[u8]) -> &'static str {
    match Command::read(line) {
        Some(Command::Add(_)) => "add",
        Some(Command::Redeclare(..)) => "redeclare",
        Some(Command::TakeBack) => "take-back",
        Some(Command::Infer) => "infer",
        Some(Command::Schemes(_)) => "schemes",
        Some(Command::Run(..)) => "run",
        None => "?",
    }
}

/// The number that an answer holds; 0 for a report and for `?`.
pub fn number(answer: &[u8]) -> u32 {
    let text = String::from_utf8(answer.to_vec()).unwrap();
    let fields: Vec<&str> = text.trim_end().split(',').collect();
    match fields[..] {
        ["NO", number, _] => number.parse().unwrap(),
        [number] => number.parse().unwrap_or(0),
        _ => 0,
    }
}
