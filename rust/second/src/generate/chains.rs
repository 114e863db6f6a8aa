//! Random closed programs with deep sharing or with a chain of 256 rows.

use super::goals::{any_code, any_word, wrong_scheme};
use super::random::Random;
use super::text::{code_text, text_of_lines};
use crate::operation::Operation;
use crate::schemes::{Code, SchemeTable};

/// How the rows of a chain hang together.
#[derive(Clone, Copy, PartialEq)]
enum Join {
    /// Operations on the row before and a leaf.
    Operations,
    /// The row before is applied to a leaf.
    Applied,
    /// A leaf is applied to the row before.
    Nested,
}

/// A program under the built-in six, as [`doubling_under`] makes it.
pub fn doubling(random: &mut Random) -> Vec<u8> {
    doubling_under(random, SchemeTable::six())
}

/// A program of 64 type rows that each use the one before twice.
///
/// Parameter p has type row p. Parameter 63 is applied to 62, the result to 61 and so on, and
/// what is left of the type is compared with parameter 0 or a number.
pub fn doubling_under(random: &mut Random, schemes: &SchemeTable) -> Vec<u8> {
    let qualifiers = Qualifiers::random(random, schemes);
    let mut lines = String::from(if random.one_in(2) { "T,0,ANY" } else { "T,0,INT" });
    for row in 1..64 {
        let [argument, result] = [(); 2].map(|()| qualifiers.of_type(random, row - 1));
        lines += &format!(" T,{row},ARROW,{argument},{0},{result},{0}", row - 1);
    }
    for parameter in 0..64 {
        lines += &format!(" P,{parameter},{},{parameter}", qualifiers.of_type(random, parameter));
    }
    let wrong = if random.one_in(4) { random.below(63) } else { 63 };
    lines += " E,0,VAR,63";
    for application in 0..63 {
        let row = 2 * application + 1;
        let argument = if application == wrong { random.below(64) } else { 62 - application };
        lines += &format!(" E,{row},VAR,{argument} E,{},APP,{},{row}", row + 1, row - 1);
    }
    let last = if random.one_in(2) { "VAR,0" } else { NUMBER };
    let operation = operation(random, &Operation::ALL, 126, 127);
    lines += &format!(" E,127,{last} E,128,{operation}");
    for parameter in 0..64 {
        lines += &format!(" E,{},LAM,{parameter},{}", 129 + parameter, 128 + parameter);
    }
    text_of_lines(&lines)
}

/// The operations of a chain before its last one.
const ARITHMETIC: [&[Operation]; 3] =
    [&[Operation::Add], &[Operation::Mul], &[Operation::Add, Operation::Mul]];

/// A program under the built-in six, as [`chain_under`] makes it.
pub fn chain(random: &mut Random) -> Vec<u8> {
    chain_under(random, SchemeTable::six())
}

/// A program of 256 rows: a chain of rows and leaves under LAMs.
pub fn chain_under(random: &mut Random, schemes: &SchemeTable) -> Vec<u8> {
    let join = [Join::Operations, Join::Applied, Join::Nested][random.below(3)];
    let qualifiers = Qualifiers::random(random, schemes);
    // With an odd number of LAMs all 256 rows can be used.
    let lambdas = 2 * random.below(32) + 1;
    let leaves = Leaves::random(random, schemes, join, lambdas);
    let arithmetic = ARITHMETIC[random.below(3)];
    let mut lines = String::new();
    for own in 0..lambdas {
        lines += &format!(" T,{own},ANY P,{own},{},{own}", qualifiers.text(random));
    }
    lines += &format!(" E,0,{}", leaves.first(random));
    let last = 255 - lambdas;
    for row in (1..last).step_by(2) {
        let (before, next) = (row - 1, row + 1);
        lines += &format!(" E,{row},{}", leaves.next(random));
        lines += &match join {
            Join::Operations => {
                let operations = if next < last { arithmetic } else { &Operation::ALL };
                format!(" E,{next},{}", operation(random, operations, before, row))
            }
            Join::Applied => format!(" E,{next},APP,{before},{row}"),
            Join::Nested => format!(" E,{next},APP,{row},{before}"),
        };
    }
    for own in 0..lambdas {
        lines += &format!(" E,{},LAM,{own},{}", last + 1 + own, last + own);
    }
    text_of_lines(&lines)
}

/// One of these operations on two rows in either order.
fn operation(random: &mut Random, operations: &[Operation], one: usize, other: usize) -> String {
    let word = operations[random.below(operations.len())].word();
    match random.one_in(2) {
        true => format!("OP,{word},{one},{other}"),
        false => format!("OP,{word},{other},{one}"),
    }
}

/// How the leaves of a chain are made.
struct Leaves<'a> {
    schemes: &'a SchemeTable,
    join: Join,
    lambdas: usize,
    /// Once in so many leaves one does not fit, 0 for never.
    departures: usize,
    /// Once in so many leaves that may be numbers one is, 0 for never.
    numbers: usize,
}

impl<'a> Leaves<'a> {
    /// The leaves of a chain.
    fn random(
        random: &mut Random,
        schemes: &'a SchemeTable,
        join: Join,
        lambdas: usize,
    ) -> Leaves<'a> {
        let (departures, numbers) = ([0, 0, 30, 400], [0, 2, 3, 40]);
        Leaves {
            schemes,
            join,
            lambdas,
            departures: departures[random.below(4)],
            numbers: numbers[random.below(4)],
        }
    }

    /// The leaf at the chain's start: parameter 0, or a number where it need not be a function.
    fn first(&self, random: &mut Random) -> String {
        match self.join {
            Join::Operations | Join::Nested if random.one_in(self.numbers) => NUMBER.to_string(),
            _ => "VAR,0".to_string(),
        }
    }

    /// Any other leaf.
    fn next(&self, random: &mut Random) -> String {
        let (join, lambdas) = (self.join, self.lambdas);
        let variable = |number: usize| format!("VAR,{number}");
        if random.one_in(self.departures) {
            return match join {
                Join::Nested if random.one_in(4) => NUMBER.to_string(),
                Join::Applied | Join::Nested if random.one_in(2) => variable(0),
                _ => {
                    let scheme = wrong_scheme(random, self.schemes);
                    format!("ENC,{},1", self.schemes.word(scheme))
                }
            };
        }
        match join {
            Join::Operations if random.one_in(self.numbers) => NUMBER.to_string(),
            Join::Operations => variable(random.below(lambdas)),
            Join::Applied if lambdas == 1 || random.one_in(self.numbers) => NUMBER.to_string(),
            Join::Nested if lambdas == 1 => variable(0),
            _ => variable(random.between(1, lambdas - 1)),
        }
    }
}

/// A NUM leaf.
const NUMBER: &str = "NUM,1";

/// The declared qualifiers of a program: one everywhere or named variables, with a constant now and then.
struct Qualifiers<'a> {
    schemes: &'a SchemeTable,
    usual: Option<Code>,
    departures: usize,
}

/// Once in so many qualifiers of the functions of a program one is any word, where the program departs.
const ENCRYPTED_FUNCTIONS: usize = 300;

impl<'a> Qualifiers<'a> {
    /// The qualifiers of a program.
    fn random(random: &mut Random, schemes: &'a SchemeTable) -> Qualifiers<'a> {
        let usual = random.one_in(3).then(|| any_code(random, schemes));
        Qualifiers { schemes, usual, departures: [0, 0, 30][random.below(3)] }
    }

    /// One qualifier for a type row of which only row 0 is no function: a scheme at a function is rare, as one refuses the program.
    fn of_type(&self, random: &mut Random, row: usize) -> String {
        match row {
            0 if random.one_in(5) => self.word(random),
            0 => self.text(random),
            _ if self.departures > 0 && random.one_in(ENCRYPTED_FUNCTIONS) => self.word(random),
            // Functions have the first variables, and row 0 may have one of the others.
            _ => format!("g{}", random.below(32)),
        }
    }

    /// Any qualifier word.
    fn word(&self, random: &mut Random) -> String {
        self.schemes.word(any_word(random, self.schemes)).to_string()
    }

    /// One qualifier.
    fn text(&self, random: &mut Random) -> String {
        if random.one_in(self.departures) {
            return self.word(random);
        }
        match self.usual {
            Some(usual) => code_text(self.schemes, usual),
            None => format!("g{}", random.below(64)),
        }
    }
}
