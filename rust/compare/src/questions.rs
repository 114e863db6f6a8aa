//! Questions to the C entries for texts, compared with the reference, and what occurred in many of them.

use crate::buffers::{assert_same, filled_buffer, inner, random_buffer, shown, MARGIN};
use crate::slowest::Slowest;
use crate::{placement_report, placement_report_under};
use second::counts::Counts;
use second::generate::Random;
use second::place::number_of;
use second::report::LONGEST_REPORT;
use second::schemes::{Code, PLAIN, SIX_FILE};
use second::{entry, entry_under, SchemeTable};
use std::fmt::{Display, Formatter, Result};
use std::time::Instant;

/// A text for a C entry.
#[derive(Clone, Copy, Debug)]
pub struct Question<'a> {
    /// The scheme file; without one it is asked under the built-in six.
    pub file: Option<&'a [u8]>,
    /// The text.
    pub text: &'a [u8],
}

impl<'a> Question<'a> {
    /// A text under the built-in six.
    pub fn of_six(text: &'a [u8]) -> Question<'a> {
        Question { file: None, text }
    }

    /// A text under a scheme file.
    pub fn under(file: &'a [u8], text: &'a [u8]) -> Question<'a> {
        Question { file: Some(file), text }
    }

    /// What the proved entry returns; it may write to the report.
    pub fn ask(self, report: &mut [u8]) -> u32 {
        match self.file {
            Some(file) => placement_report_under(file, self.text, report),
            None => placement_report(self.text, report),
        }
    }

    /// What the reference returns; it may write to the report.
    fn ask_reference(self, report: &mut [u8]) -> u32 {
        match self.file {
            Some(file) => entry_under(file, self.text, report),
            None => entry(self.text, report),
        }
    }

    /// The scheme table of a question with an accepted file.
    fn schemes(self) -> SchemeTable {
        SchemeTable::open(self.file.unwrap_or(SIX_FILE)).expect("the file is accepted")
    }
}

impl Display for Question<'_> {
    fn fmt(&self, formatter: &mut Formatter) -> Result {
        let file = self.file.map_or("the six".to_string(), shown);
        write!(formatter, "{} under {file}", shown(self.text))
    }
}

/// How long a report buffer is.
#[derive(Clone, Copy, Debug, PartialEq, Eq, PartialOrd, Ord)]
pub enum Room {
    /// No byte.
    Zero,
    /// One byte.
    One,
    /// Too short.
    Shorter,
    /// One byte too short.
    OneTooShort,
    /// Just long enough.
    Exact,
    /// Longer than it must be.
    Longer,
}

impl Room {
    /// All kinds of length.
    pub const ALL: [Room; 6] =
        [Room::Zero, Room::One, Room::Shorter, Room::OneTooShort, Room::Exact, Room::Longer];

    /// A kind of length, mostly one that is long enough.
    pub fn random(random: &mut Random) -> Room {
        match random.below(4) {
            0 => Room::ALL[random.below(4)],
            1 => Room::Longer,
            _ => Room::Exact,
        }
    }

    /// A length of this kind.
    fn length(self, random: &mut Random) -> usize {
        match self {
            Room::Zero => 0,
            Room::One => 1,
            Room::Shorter => random.between(2, LONGEST_REPORT - 2),
            Room::OneTooShort => LONGEST_REPORT - 1,
            Room::Exact => LONGEST_REPORT,
            Room::Longer => random.between(LONGEST_REPORT + 1, LONGEST_REPORT + 1_000),
        }
    }
}

/// What occurred in many comparisons.
#[derive(Default)]
pub struct Tally {
    /// 0 for accepted, otherwise the refusal's number.
    pub answers: Counts<u32>,
    /// The lines of refused adds.
    pub lines: Counts<u32>,
    /// The rows of programs without a typing.
    pub rows: Counts<u32>,
    /// The parameters of missed floors.
    pub parameters: Counts<u32>,
    /// The lengths of buffers.
    pub rooms: Counts<Room>,
    /// The lines of reports without their own numbers and with the codes of their words, as `P,5,INT`.
    slots: Counts<String>,
    slowest: Slowest,
}

impl Tally {
    /// Compares the C entry with the reference on a question and a buffer with random bytes; returns the answer.
    pub fn compare(
        &mut self,
        random: &mut Random,
        about: &str,
        question: Question,
        room: Room,
    ) -> u32 {
        let length = room.length(random);
        let mut expected = random_buffer(random, length);
        let mut found = expected.clone();
        let number = question.ask_reference(inner(&mut expected));
        let start = Instant::now();
        let returned = question.ask(inner(&mut found));
        let time = start.elapsed();
        assert_eq!(returned, number, "for {about}, {question}");
        assert_same(&found, &expected, || format!("{about}, {question}"));
        let again = || {
            question.ask(inner(&mut found));
        };
        self.slowest.take(time, again, || format!("{about}, {} bytes", question.text.len()));
        self.rooms.add(room);
        self.answers.add(number_of(returned));
        self.count_place(returned);
        if returned > 100_000 {
            let report = &inner(&mut expected)[..(returned - 100_000) as usize];
            self.count_slots(&question.schemes(), report);
        }
        number
    }

    /// Counts the line, the row or the parameter that an answer names.
    fn count_place(&mut self, returned: u32) {
        let place = returned % 1_000;
        match number_of(returned) {
            1..=8 => self.lines.add(place),
            21..=23 => self.rows.add(place),
            24 => self.parameters.add(place),
            _ => {}
        }
    }

    /// Counts the lines of a report after the first.
    fn count_slots(&mut self, schemes: &SchemeTable, report: &[u8]) {
        for line in String::from_utf8(report.to_vec()).unwrap().lines().skip(1) {
            let fields: Vec<&str> = line.split(',').collect();
            let code = schemes.of_word(fields[2].as_bytes()).expect("a report has words only");
            self.slots.add(slot(fields[0], code, &fields[3..]));
        }
    }

    /// Asserts that each of these words was reported so often, with INT too, and that a function was.
    pub fn assert_each_word(&self, codes: impl Iterator<Item = Code>, fewest: usize) {
        for code in codes {
            self.slots.assert_each([slot("G", code, &[])], fewest);
            self.assert_each_slot(code, "INT", fewest);
        }
        self.assert_each_slot(PLAIN, "ARROW", fewest);
    }

    /// Asserts that each of these words was reported with ANY so often.
    pub fn assert_each_free_word(&self, codes: impl IntoIterator<Item = Code>, fewest: usize) {
        codes.into_iter().for_each(|code| self.assert_each_slot(code, "ANY", fewest));
    }

    /// Asserts that a word was reported with a shape for so many parameters and rows.
    fn assert_each_slot(&self, code: Code, shape: &str, fewest: usize) {
        self.slots.assert_each(["P", "E"].map(|list| slot(list, code, &[shape])), fewest);
    }

    /// Prints the counts for those who want to see them, and the slowest call for all.
    pub fn finish(&self, inputs: &str) {
        println!("{:?}", self.answers.0);
        println!("{:?}", self.rooms.0);
        println!("{:?}", self.slots.0);
        self.slowest.assert_within_limit(inputs);
    }
}

/// Asserts what a C entry returns and writes with a buffer of this length, whatever stands there before.
pub fn assert_answer(about: &str, question: Question, length: usize, number: u32, report: &[u8]) {
    for byte in [0, b'\n', 0xA5] {
        let mut bytes = filled_buffer(byte, length);
        assert_eq!(question.ask(inner(&mut bytes)), number, "for {about}");
        let written = String::from_utf8_lossy(&inner(&mut bytes)[..report.len()]);
        assert_eq!(written, String::from_utf8_lossy(report), "for {about}");
        bytes.drain(MARGIN..MARGIN + report.len());
        assert!(bytes.iter().all(|&other| other == byte), "for {about}");
    }
}

/// Asserts what a C entry returns and writes with buffers that are long enough.
pub fn assert_answers(about: &str, question: Question, number: u32, report: &[u8]) {
    for length in [LONGEST_REPORT, LONGEST_REPORT + 1, 2 * LONGEST_REPORT] {
        assert_answer(about, question, length, number, report);
    }
}

/// A line of a report: its list, the code of its word, and its shape if it has one.
fn slot(list: &str, code: Code, shape: &[&str]) -> String {
    [&[list, &code.to_string()], shape].concat().join(",")
}
