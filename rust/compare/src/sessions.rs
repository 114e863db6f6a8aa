//! Scripts for sessions: lists of all four calls as lines, with scheme files and lines between that are no commands.

use crate::calls::{self, filling_lines, fitting_calls_on};
use second::generate::{
    accepted_file, any_bytes, call_list_under, damaged_line, what_if_list_under, Call, Random,
    SchemeFile,
};
use second::schemes::SIX_FILE;
use second::text::lines;
use second::{SchemeTable, Table};

/// An accepted scheme file as long as one can be: eight lines with names of five letters, and the last line feed.
pub const LONGEST_FILE: &str = "S,AAAAA,00000\nS,BBBBB,10000\nS,CCCCC,01000\nS,DDDDD,00100\n\
                                S,EEEEE,11000\nS,FFFFF,10100\nS,GGGGG,01100\nS,HHHHH,11100\n";

/// What a script is, or a part of one.
#[derive(Clone, Copy, Debug, PartialEq, Eq, PartialOrd, Ord)]
pub enum Kind {
    /// Calls that build a program, with other calls between.
    Program,
    /// A program, and infers before and after redeclarations of its parameters and take-backs of its rows.
    WhatIf,
    /// Calls that fit the table before them, or nearly fit it.
    Fitting,
    /// The same on a table that was filled before.
    Full,
}

impl Kind {
    /// All kinds.
    pub const ALL: [Kind; 4] = [Kind::Program, Kind::WhatIf, Kind::Fitting, Kind::Full];

    /// A kind; questions to programs are the most frequent.
    fn random(random: &mut Random) -> Kind {
        match random.below(20) {
            0..=4 => Kind::Program,
            5..=15 => Kind::WhatIf,
            16..=18 => Kind::Fitting,
            _ => Kind::Full,
        }
    }

    /// A list of calls of this kind on a fresh table of these schemes, as lines of a script.
    fn commands(self, random: &mut Random, schemes: &SchemeTable) -> Vec<Vec<u8>> {
        let calls = match self {
            Kind::Program => {
                let rows = rows(random);
                call_list_under(random, schemes, rows)
            }
            Kind::WhatIf => {
                let (rows, questions) = (rows(random), random.between(1, 8));
                what_if_list_under(random, schemes, rows, questions)
            }
            Kind::Fitting => {
                let count = random.between(1, 60);
                let calls = fitting_calls_on(random, Table::fresh_of(schemes.clone()), count);
                with_infers(random, calls)
            }
            Kind::Full => full_calls(random, schemes),
        };
        calls.iter().map(command).collect()
    }
}

/// How many rows a program is to have: mostly few.
fn rows(random: &mut Random) -> usize {
    match random.below(20) {
        0 => random.between(1, Table::TERM_LIMIT),
        1..=9 => random.between(1, 12),
        _ => random.between(1, 40),
    }
}

/// Calls that fill a table, and some on the full table.
fn full_calls(random: &mut Random, schemes: &SchemeTable) -> Vec<Call> {
    let mut table = Table::fresh_of(schemes.clone());
    let mut all: Vec<calls::Call> =
        filling_lines().map(|line| calls::Call::Add(line.into_bytes())).collect();
    for call in &all {
        call.apply(&mut table);
    }
    let count = random.between(1, 30);
    all.extend(fitting_calls_on(random, table, count));
    with_infers(random, all)
}

/// The calls with infers among them by chance, and one at the end.
fn with_infers(random: &mut Random, calls: Vec<calls::Call>) -> Vec<Call> {
    let mut all = vec![];
    for call in calls {
        if random.one_in(12) {
            all.push(Call::INFER);
        }
        all.push(call.into());
    }
    all.push(Call::INFER);
    all
}

/// The line of a script that asks for a call.
fn command(call: &Call) -> Vec<u8> {
    match call {
        Call::Add(line) => [b"add ", &line[..]].concat(),
        Call::Redeclare(parameter, code) => format!("redeclare {parameter} {code}").into_bytes(),
        Call::TakeBack => b"take-back".to_vec(),
        Call::Infer(..) => b"infer".to_vec(),
    }
}

/// The line of a script that goes on with a scheme file; a blank of the file is read as a line feed.
pub fn schemes_command(file: &[u8]) -> Vec<u8> {
    let lines = file.iter().map(|&byte| if byte == b'\n' { b' ' } else { byte });
    b"schemes ".iter().copied().chain(lines).collect()
}

/// Lines that are no commands, to stand between the others.
const NO_COMMANDS: [&str; 24] = [
    "", " ", "?", "0", "add", "Add E,0,NUM,1", "T,0,ANY", "E,0,NUM,1", "redeclare", "redeclare 0",
    "redeclare 0 06", "redeclare 00 6", "redeclare 0  6", "redeclare 0 6 ", "redeclare 0 6\r",
    "take-back ", "take-back\r", "infer ", "infer\r", "INFER", "schemes", "schemes\r",
    "Schemes S,A,00000", "S,A,00000",
];

/// A line that is no command, or that is one only by chance.
fn other_line(random: &mut Random, command: &[u8]) -> Vec<u8> {
    match random.below(4) {
        0 => any_bytes(random, 70),
        1 => damaged_line(random, command),
        _ => NO_COMMANDS[random.below(NO_COMMANDS.len())].as_bytes().to_vec(),
    }
}

/// The script of some commands; half of them have other lines between, and some have no last line feed.
fn script(random: &mut Random, commands: Vec<Vec<u8>>) -> Vec<u8> {
    let others = if random.one_in(2) { random.between(2, 20) } else { 0 };
    let mut script = vec![];
    for command in commands {
        if random.one_in(others) {
            script.extend(other_line(random, &command));
            script.push(b'\n');
        }
        script.extend(command);
        script.push(b'\n');
    }
    if random.one_in(6) {
        script.pop();
    }
    script
}

/// The script that adds the lines of a text and infers.
pub fn adding(text: &[u8]) -> Vec<u8> {
    let mut script: Vec<u8> =
        lines(text).flat_map(|line| [b"add ", line, b"\n"].concat()).collect();
    script.extend(b"infer\n");
    script
}

/// A script of a random kind under the built-in six.
pub fn random_script(random: &mut Random) -> (Kind, Vec<u8>) {
    let kind = Kind::random(random);
    let commands = kind.commands(random, SchemeTable::six());
    (kind, script(random, commands))
}

/// A script of one to three parts of random kinds, with accepted scheme files before them and refused ones among their lines.
pub fn random_script_with_files(random: &mut Random) -> (Vec<Kind>, Vec<u8>) {
    let kinds: Vec<Kind> = (0..random.between(1, 3)).map(|_| Kind::random(random)).collect();
    let mut commands = vec![];
    for (part, kind) in kinds.iter().enumerate() {
        // A script begins with the six.
        let file = (part > 0 || !random.one_in(6)).then(|| any_accepted_file(random));
        commands.extend(file.as_deref().map(schemes_command));
        let schemes = SchemeTable::open(file.as_deref().unwrap_or(SIX_FILE));
        let calls = kind.commands(random, &schemes.expect("the file is accepted"));
        commands.extend(with_files(random, calls));
    }
    (kinds, script(random, commands))
}

/// An accepted scheme file, now and then that of the six.
fn any_accepted_file(random: &mut Random) -> Vec<u8> {
    match random.one_in(10) {
        true => SIX_FILE.to_vec(),
        false => accepted_file(random),
    }
}

/// The commands with refused scheme files among them by chance, and seldom an accepted one, after which the others meet a fresh table.
fn with_files(random: &mut Random, commands: Vec<Vec<u8>>) -> Vec<Vec<u8>> {
    let often = random.between(5, 40);
    let mut all = vec![];
    for command in commands {
        if random.one_in(often) {
            all.push(schemes_command(&SchemeFile::refused(random).bytes));
        }
        if random.one_in(400) {
            all.push(schemes_command(&any_accepted_file(random)));
        }
        all.push(command);
    }
    all
}
