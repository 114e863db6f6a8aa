//! Refusals, and how the entry packs them into one number.

use crate::run::Steps;
use std::error::Error;
use std::fmt;

/// What the entry adds to a report's length.
const ACCEPTED: u32 = 100_000;

/// Why a table has no report, a scheme file no table, or a dry run no answer; docs/NUMBERS.md has an example and a fix for each number.
#[derive(Clone, Copy, Debug, PartialEq, Eq)]
pub struct Refusal {
    /// 1 to 8 for a line, 10 or 11 for the whole, 21 to 23 for a row, 24 for a parameter, 25 to 27 for a scheme file, 28 to 30 for a dry run.
    pub number: u32,
    /// Where the refusal stands.
    pub place: Place,
}

/// Where a refusal stands. Later versions may have more places.
#[derive(Clone, Copy, Debug, PartialEq, Eq)]
#[non_exhaustive]
pub enum Place {
    /// A line of the text, counted from 1.
    Line(u32),
    /// A term row, counted from 0: the least one that leaves no typing. With 22 at row 0 the T and P lines alone leave none.
    Row(u32),
    /// A parameter, counted from 0: the lowest whose greatest scheme is not at or above its floor.
    Parameter(u32),
    /// The table as a whole, the buffer, or the scheme file.
    Whole,
    /// A dry run, after the steps that it made.
    Run(Steps),
}

/// The report's length, or the refusal, that the entry's answer stands for.
pub fn taken_apart(answer: u32) -> Result<usize, Refusal> {
    if answer >= ACCEPTED {
        return Ok((answer - ACCEPTED) as usize);
    }
    Err(refusal(answer))
}

/// The refusal that an answer below those for accepted tables stands for.
pub fn refusal(answer: u32) -> Refusal {
    let (number, place) = (answer / 1_000, answer % 1_000);
    let place = match number {
        1..=8 => Place::Line(place),
        21..=23 => Place::Row(place),
        24 => Place::Parameter(place),
        _ => Place::Whole,
    };
    Refusal { number, place }
}

impl Refusal {
    /// What the refusal's number means.
    pub fn meaning(&self) -> &'static str {
        match self.number {
            1 => {
                "longer than 64 bytes, or none of the forms: \
                 T, P and E are capitals, and the g of a variable is small; \
                 scheme words are those of the scheme file, or of the six where none is given"
            }
            2 => "own number is not the next in its list",
            3 => "list full: 64 types, 64 parameters, 256 term rows",
            4 => "type row not declared before this line",
            5 => "parameter not declared before this line",
            6 => "child not below own number",
            7 => "child already used, or one row named as both children",
            8 => "LAM of a parameter already bound",
            10 => "the rows are not one closed program",
            11 => "report buffer too short",
            21 => "numbers and functions are mixed up, or a type would contain itself",
            22 => {
                "two different qualifiers would have to be one, or a function would stand under a scheme; \
                 at row 0 by the T and P lines alone"
            }
            23 => "a declared scheme does not support an operation on it",
            24 => {
                "the greatest scheme for this input is not at or above its floor: \
                 lower the floor, or change what the program does with the input"
            }
            25 => {
                "the scheme file does not have 1 to 8 lines S,NAME,BITS \
                 with names of 1 to 5 capitals other than PLAIN, each with five digits 0 or 1, \
                 or two lines have the same name or the same digits"
            }
            26 => {
                "the scheme file has no greatest scheme, or two schemes in it have no greatest lower bound: \
                 add a scheme that supports exactly what all schemes have in common, \
                 or one that supports exactly what those two support together, and check the file again"
            }
            27 => {
                "an operation has supporters in the scheme file, but no highest one: \
                 add a scheme that supports exactly what all its supporters have in common, and check the file again"
            }
            28 => {
                "the count of numbers is not that of the leading parameters, \
                 one of these is a function, or the table has no report"
            }
            29 => {
                "a result passes 4294967295: \
                 run the job on smaller numbers, or change the operation that comes next"
            }
            30 => {
                "the budget's steps were made and the run is not over, \
                 or more than 4,096 reduction contexts stand around the next step: \
                 give a greater budget, up to 10,000, or run a shorter job"
            }
            _ => "unknown number",
        }
    }
}

impl fmt::Display for Refusal {
    fn fmt(&self, f: &mut fmt::Formatter<'_>) -> fmt::Result {
        write!(f, "refused with {}", self.number)?;
        match self.place {
            Place::Line(line) => write!(f, " at line {line}")?,
            Place::Row(row) => write!(f, " at row E,{row}")?,
            Place::Parameter(parameter) => write!(f, " at parameter P,{parameter}")?,
            Place::Run(steps) => write!(f, " after {steps}")?,
            Place::Whole => {}
        }
        write!(f, ": {}", self.meaning())
    }
}

impl Error for Refusal {}
