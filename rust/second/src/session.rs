//! A session: a script of commands, one a line, each answered at once.

use crate::dry_run::{dry_run, Ending, Outcome};
use crate::expression::Number;
use crate::line;
use crate::place::inferred;
use crate::table::Table;
use crate::text::lines;

/// What a line of a script asks for.
#[derive(Clone, Debug, PartialEq, Eq)]
pub enum Command<'a> {
    /// Add this line.
    Add(&'a [u8]),
    /// Redeclare this parameter with this code.
    Redeclare(u32, u32),
    /// Take back the last term row.
    TakeBack,
    /// Infer.
    Infer,
    /// Go on with a fresh table of the scheme file that has these lines, a blank standing for each line feed.
    Schemes(&'a [u8]),
    /// Make a dry run with this budget on these numbers; of more than 65 numbers the first 65 stand here.
    Run(u32, Vec<u32>),
}

/// How many numbers of a run are looked at: one more than there are parameters, so that no more can be a right count.
const MOST_NUMBERS: usize = Table::PARAMETER_LIMIT + 1;

impl Command<'_> {
    /// Reads a line given without its line feed; `None` if it is no command.
    pub fn read(line: &[u8]) -> Option<Command<'_>> {
        if let Some(added) = line.strip_prefix(b"add ") {
            return Some(Command::Add(added));
        }
        if let Some(lines) = line.strip_prefix(b"schemes ") {
            return Some(Command::Schemes(lines));
        }
        if let Some(numbers) = line.strip_prefix(b"run ") {
            return run(numbers);
        }
        let words: Vec<&[u8]> = line.split(|&byte| byte == b' ').collect();
        match *words.as_slice() {
            [b"redeclare", parameter, code] => {
                Some(Command::Redeclare(line::number(parameter)?, line::number(code)?))
            }
            [b"take-back"] => Some(Command::TakeBack),
            [b"infer"] => Some(Command::Infer),
            _ => None,
        }
    }

    /// Makes the call on a table; gives what is printed of it.
    fn answer(self, table: &mut Table) -> Vec<u8> {
        match self {
            Command::Add(line) => number_line(table.add(line)),
            Command::Redeclare(parameter, code) => {
                number_line(table.redeclare(parameter.into(), code.into()))
            }
            Command::TakeBack => number_line(table.take_back()),
            Command::Infer => inferred(table),
            Command::Schemes(lines) => number_line(renew(table, &scheme_file(lines))),
            Command::Run(budget, numbers) => outcome_line(table, &dry_run(table, &numbers, budget)),
        }
    }
}

/// Reads the budget and the numbers of a run; `None` if one that is looked at is no number.
fn run(numbers: &[u8]) -> Option<Command<'_>> {
    let words = numbers.split(|&byte| byte == b' ');
    let mut read = words.take(1 + MOST_NUMBERS).map(line::number);
    let budget = read.next()??;
    Some(Command::Run(budget, read.collect::<Option<_>>()?))
}

/// The scheme file that a command names, with a line feed for each blank.
pub fn scheme_file(lines: &[u8]) -> Vec<u8> {
    lines.iter().map(|&byte| if byte == b' ' { b'\n' } else { byte }).collect()
}

/// Puts a fresh table of a scheme file in a table's place, unless the file is refused; returns 0 or the refusal's number.
fn renew(table: &mut Table, file: &[u8]) -> u32 {
    let (fresh, number) = Table::fresh_under(file);
    if number == 0 {
        *table = fresh;
    }
    number
}

/// What is printed in answer to one line, which may change the table.
pub fn answer(table: &mut Table, line: &[u8]) -> Vec<u8> {
    match Command::read(line) {
        Some(command) => command.answer(table),
        None => b"?\n".to_vec(),
    }
}

/// What is printed in answer to all lines of a script, from a fresh table on.
pub fn session(script: &[u8]) -> Vec<u8> {
    let mut table = Table::fresh();
    lines(script).flat_map(|line| answer(&mut table, line)).collect()
}

/// What the C entry for scripts returns, the length of all answers; they are written only where there is room for all.
pub fn entry(script: &[u8], buffer: &mut [u8]) -> usize {
    written(&session(script), buffer)
}

/// Writes the answers to the buffer's front where there is room for all; gives their length.
pub fn written(answers: &[u8], buffer: &mut [u8]) -> usize {
    if let Some(front) = buffer.get_mut(..answers.len()) {
        front.copy_from_slice(answers);
    }
    answers.len()
}

/// The line that holds a number.
fn number_line(number: u32) -> Vec<u8> {
    format!("{number}\n").into_bytes()
}

/// The line that tells how a run on a table ended.
fn outcome_line(table: &Table, outcome: &Outcome) -> Vec<u8> {
    let ending = match outcome.ending {
        Ending::Number(Number { value, tag }) => {
            format!("NUMBER,{value},{}", table.schemes().word(tag))
        }
        Ending::Function => "FUNCTION".to_string(),
        Ending::Refused(number) => format!("NO,{number}"),
        Ending::Stuck(stuck) => panic!("a run is stuck: {stuck:?}"),
    };
    format!("{ending},{},{}\n", outcome.applications, outcome.operations).into_bytes()
}
