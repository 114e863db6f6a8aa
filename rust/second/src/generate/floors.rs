//! Floors for the parameters of random programs: none, met ones and missed ones. Words are in any case.

use super::goals::any_word;
use super::letter_case::{in_any_case, text_in_any_case};
use super::program::{closed_program_under, Program};
use super::random::Random;
use super::text::with_floor;
use crate::schemes::{Code, SchemeTable, PLAIN};
use crate::table::Table;
use crate::typing::judge;

/// How often a floor is missed in a program, where one can be: once in so many parameters, 0 for never.
const MISSED: [usize; 7] = [0, 0, 0, 1, 3, 8, 24];

/// A random closed program under the built-in six, as [`program_with_floors_under`] makes it.
pub fn program_with_floors(random: &mut Random, rows: usize) -> Program {
    program_with_floors_under(random, SchemeTable::six(), rows)
}

/// A random closed program as [`closed_program_under`] makes it, its words in any case; two of three have floors.
pub fn program_with_floors_under(
    random: &mut Random,
    schemes: &SchemeTable,
    rows: usize,
) -> Program {
    let program = closed_program_under(random, schemes, rows);
    with_floors_in_any_case(random, program)
}

/// The program with floors in two of three cases, and its words in any case.
pub fn with_floors_in_any_case(random: &mut Random, program: Program) -> Program {
    let mut program = with_floors(random, program);
    for line in &mut program.lines {
        *line = String::from_utf8_lossy(&in_any_case(random, line.as_bytes())).into_owned();
    }
    program
}

/// A text under the built-in six, with what [`text_with_floors_under`] adds.
pub fn text_with_floors(random: &mut Random, text: &[u8]) -> Vec<u8> {
    text_with_floors_under(random, SchemeTable::six(), text)
}

/// A text whose lines are all accepted and have no floors, with its words in any case, and with floors in two of three texts.
pub fn text_with_floors_under(random: &mut Random, schemes: &SchemeTable, text: &[u8]) -> Vec<u8> {
    let lines = String::from_utf8_lossy(text).lines().map(str::to_string).collect();
    let program = Program { schemes: schemes.clone(), lines, redeclarations: vec![] };
    let program = with_floors(random, program);
    text_in_any_case(random, &program.text())
}

/// The program with floors that suit the words of its parameters, in two of three cases.
fn with_floors(random: &mut Random, mut program: Program) -> Program {
    if random.one_in(3) {
        return program;
    }
    let (table, schemes) = (program.table(), &program.schemes);
    let words: Vec<Code> = match judge(&table) {
        Ok(judgement) => judgement.params.iter().map(|slot| slot.word).collect(),
        // Without a typing no floor is looked at, so any will do.
        Err(_) => table.params.iter().map(|_| any_word(random, schemes)).collect(),
    };
    let missed = MISSED[random.below(MISSED.len())];
    let parameter_lines = program.lines.iter_mut().filter(|line| line.starts_with('P'));
    for (line, word) in parameter_lines.zip(words) {
        let misses = random.one_in(missed);
        let floor = floor(random, schemes, word, misses);
        // Four fields mean PLAIN, so it is mostly left out.
        if floor != PLAIN || random.one_in(3) {
            *line = with_floor(schemes, line, floor);
        }
    }
    program
}

/// A floor that a word misses, if that is wanted and there is one; otherwise one that it meets.
fn floor(random: &mut Random, schemes: &SchemeTable, word: Code, misses: bool) -> Code {
    let is_met = |&floor: &Code| schemes.at_or_below(floor, word);
    let (met, missed): (Vec<_>, Vec<_>) = schemes.qualifiers().partition(is_met);
    let candidates = if misses && !missed.is_empty() { missed } else { met };
    candidates[random.below(candidates.len())]
}

/// What can be seen of the floors of a closed program.
#[derive(Clone, Copy, Debug, PartialEq, Eq, PartialOrd, Ord)]
pub enum Floors {
    /// Every floor is PLAIN.
    Plain,
    /// Some floor is not PLAIN, and the program has no typing.
    NoTyping,
    /// Some floor is not PLAIN, and every floor is met.
    Met,
    /// One floor is missed.
    OneMissed,
    /// Several floors are missed.
    SeveralMissed,
}

impl Floors {
    /// All that can be seen.
    pub const ALL: [Floors; 5] =
        [Floors::Plain, Floors::NoTyping, Floors::Met, Floors::OneMissed, Floors::SeveralMissed];

    /// What is seen of the floors of the program that stands in a table.
    pub fn of(table: &Table) -> Floors {
        if table.params.iter().all(|parameter| parameter.floor == PLAIN) {
            return Floors::Plain;
        }
        let Ok(judgement) = judge(table) else {
            return Floors::NoTyping;
        };
        match table.missed_floors(&judgement).count() {
            0 => Floors::Met,
            1 => Floors::OneMissed,
            _ => Floors::SeveralMissed,
        }
    }
}
