//! Dry runs of jobs: how they end, and how the entries pack that into four numbers.

use crate::entry::{self, ANSWER_LENGTH};
use crate::refusal::{refusal, Place, Refusal};
use std::fmt;

/// What the entries return for a run that came to its end.
const TO_NUMBER: u32 = 100_000;
const TO_FUNCTION: u32 = 100_001;

/// The built-in six as a scheme file.
pub(crate) const SIX: &[u8] =
    b"S,FHE,11111\nS,OP,00111\nS,DET,00100\nS,MH,01000\nS,AH,10000\nS,RAND,00000\n";

/// How a dry run came to its end. It is shown as `session` prints it: `NUMBER,40,AH,1,1` or `FUNCTION,3,0`.
#[derive(Clone, Debug, PartialEq, Eq)]
pub struct Outcome {
    /// What the run ended with.
    pub answer: Answer,
    /// The steps that it made.
    pub steps: Steps,
}

/// What a dry run ended with.
#[derive(Clone, Debug, PartialEq, Eq)]
pub enum Answer {
    /// A number.
    Number {
        /// The number itself.
        number: u32,
        /// The word of its scheme, such as AH; PLAIN for a number without a tag.
        tag: String,
    },
    /// A function, which nothing is applied to.
    Function,
}

/// The steps that a dry run made.
#[derive(Clone, Copy, Debug, PartialEq, Eq)]
pub struct Steps {
    /// How often a function was applied.
    pub applications: u32,
    /// How many of ADD, MUL, EQ, LT and GT were made.
    pub operations: u32,
}

/// Makes a dry run of a job, without keys: applies the leading LAMs of the table's last row to the numbers, the outermost to the first, under
/// the built-in six schemes.
///
/// Each number has its parameter's scheme in the report as its tag, and each literal its row's. A function and its argument are worked out before
/// the call, an operation's left side before its right, and nothing is worked out inside a LAM that waits for its argument. ADD and MUL keep the
/// tag of their operands; EQ, LT and GT give 1 where they hold and else 0, without a tag. One application or one operation is a step, and the
/// budget says how many steps may be made. One above 10,000 counts as 10,000.
///
/// A refused line is refused as by [`report`](crate::report). The run itself is refused, with [`Place::Run`] and the steps made, with
///
/// - 28 where the count of numbers is not that of the leading LAMs, where the report has the shape ARROW for one of their parameters, and where the
///   program is refused with 10 or 21 to 24: no step is made;
/// - 29 where the result of the next operation passes 4294967295;
/// - 30 where the budget's steps were made and the run is not over, or where more than 4,096 reduction contexts stand around the next step. This is
///   looked at before each step, and before 29.
///
/// Threads may call it at once. A call takes up to 384 KiB of stack, less than a thread has by default.
///
/// ```
/// use placement::{Answer, Place, Steps};
///
/// let sum = b"T,0,INT\nP,0,g0,0\nP,1,g1,0\nE,0,VAR,0\nE,1,VAR,1\nE,2,OP,ADD,0,1\nE,3,LAM,1,2\nE,4,LAM,0,3\n";
/// let outcome = placement::run(sum, &[20, 22], 10_000).unwrap();
/// assert_eq!(outcome.answer, Answer::Number { number: 42, tag: "AH".to_string() });
/// assert_eq!(outcome.steps, Steps { applications: 2, operations: 1 });
///
/// let refusal = placement::run(sum, &[20, 22], 2).unwrap_err();
/// assert_eq!(refusal.number, 30);
/// assert_eq!(refusal.place, Place::Run(Steps { applications: 2, operations: 0 }));
/// ```
pub fn run(text: &[u8], numbers: &[u32], budget: u32) -> Result<Outcome, Refusal> {
    ran(SIX, |answer| {
        entry::placement_run(text, numbers, budget, answer)
    })
}

/// Makes a dry run of a job under a scheme file, as [`report_under`](crate::report_under) takes it.
///
/// A refused file is refused with 25, 26 or 27 and [`Place::Whole`], before the text is looked at. All else is as for [`run`], also the stack that
/// a call takes; tags are the file's names.
///
/// ```
/// let schemes = b"S,BFV,11000\nS,GCM,00000\nS,PAIL,10000\n";
/// let text = b"T,0,INT\nP,0,g0,0\nE,0,VAR,0\nE,1,NUM,7\nE,2,OP,ADD,0,1\nE,3,LAM,0,2\n";
/// let outcome = placement::run_under(schemes, text, &[20], 10_000).unwrap();
/// assert_eq!(outcome.to_string(), "NUMBER,27,PAIL,1,1");
/// ```
pub fn run_under(
    schemes: &[u8],
    text: &[u8],
    numbers: &[u32],
    budget: u32,
) -> Result<Outcome, Refusal> {
    ran(schemes, |answer| {
        entry::placement_run_under(schemes, text, numbers, budget, answer)
    })
}

/// Lends an entry an array for its answer and takes the answer apart.
fn ran(schemes: &[u8], entry: impl FnOnce(&mut [u32]) -> u32) -> Result<Outcome, Refusal> {
    let mut answer = [0; ANSWER_LENGTH];
    let returned = entry(&mut answer);
    let [number, tag, applications, operations] = answer;
    let steps = Steps {
        applications,
        operations,
    };
    let answer = match returned {
        TO_NUMBER => Answer::Number {
            number,
            tag: word(schemes, tag),
        },
        TO_FUNCTION => Answer::Function,
        _ => return Err(refused(returned, steps)),
    };
    Ok(Outcome { answer, steps })
}

/// The refusal that an answer stands for; one of the run itself comes with its steps.
fn refused(returned: u32, steps: Steps) -> Refusal {
    let refusal = refusal(returned);
    match refusal.number {
        28..=30 => Refusal {
            place: Place::Run(steps),
            ..refusal
        },
        _ => refusal,
    }
}

/// The word of a tag: PLAIN, or the name in that line of an accepted scheme file, counted from 1.
fn word(schemes: &[u8], tag: u32) -> String {
    let Some(line) = (tag as usize).checked_sub(1) else {
        return "PLAIN".to_string();
    };
    let lines = schemes.split(|&byte| byte == b'\n').nth(line);
    let name = lines.and_then(|line| line.split(|&byte| byte == b',').nth(1));
    String::from_utf8_lossy(name.unwrap_or_default()).into_owned()
}

impl fmt::Display for Outcome {
    fn fmt(&self, f: &mut fmt::Formatter<'_>) -> fmt::Result {
        match &self.answer {
            Answer::Number { number, tag } => write!(f, "NUMBER,{number},{tag}")?,
            Answer::Function => f.write_str("FUNCTION")?,
        }
        write!(f, ",{},{}", self.steps.applications, self.steps.operations)
    }
}

impl fmt::Display for Steps {
    fn fmt(&self, f: &mut fmt::Formatter<'_>) -> fmt::Result {
        let applications = counted(self.applications, "application");
        let operations = counted(self.operations, "operation");
        write!(f, "{applications} and {operations}")
    }
}

/// A count with its word, such as `1 application` or `2 applications`.
fn counted(count: u32, word: &str) -> String {
    let ending = if count == 1 { "" } else { "s" };
    format!("{count} {word}{ending}")
}
