//! Makes a dry run of the job in a table on the numbers named, with at most so many steps, and prints how it ended, in one line:
//!
//! - `NUMBER,number,tag,applications,operations` with a number, and the word of its scheme;
//! - `FUNCTION,applications,operations` with a function, which nothing is applied to;
//! - `NO,number,applications,operations` refused with 28, 29 or 30, after so many steps;
//! - `X,number,line` a line is refused; `X,25,0`, `X,26,0` or `X,27,0` for a scheme file.
//!
//! With `--schemes` the tags are those of the owner's scheme file.

use placement::{Outcome, Place, Refusal};
use std::env;
use std::ffi::{OsStr, OsString};
use std::fs::File;
use std::io::{self, Read, Write};
use std::path::Path;
use std::process::ExitCode;

const REFUSED: u8 = 1;
const NOT_RUN: u8 = 2;

fn main() -> ExitCode {
    let arguments: Vec<_> = env::args_os().skip(1).collect();
    let answer = match answered(&arguments) {
        Ok(answer) => answer,
        Err(error) => {
            eprintln!("{error}");
            return ExitCode::from(NOT_RUN);
        }
    };
    let (line, status) = match &answer {
        Ok(outcome) => (outcome.to_string(), ExitCode::SUCCESS),
        Err(refusal) => (line_of(refusal), ExitCode::from(REFUSED)),
    };
    match writeln!(io::stdout(), "{line}") {
        Ok(()) => status,
        Err(error) => {
            eprintln!("standard output: {error}");
            ExitCode::from(NOT_RUN)
        }
    }
}

/// The outcome of the run that the arguments name, or its refusal; or why it cannot be made.
fn answered(arguments: &[OsString]) -> Result<Result<Outcome, Refusal>, String> {
    let (schemes, words) = match arguments {
        [option, schemes, words @ ..] if option == "--schemes" => (Some(schemes), words),
        words => (None, words),
    };
    let [table, budget, numbers @ ..] = words else {
        return Err("usage: run [--schemes SCHEMES] TABLE BUDGET NUMBER ...".to_string());
    };
    let text = read_front(Path::new(table), placement::TEXT_LENGTH)?;
    let budget = number(budget)?;
    let numbers = numbers.iter().map(|it| number(it));
    let numbers = numbers.collect::<Result<Vec<u32>, String>>()?;
    Ok(match schemes {
        Some(schemes) => {
            let schemes = read_front(Path::new(schemes), placement::SCHEMES_LENGTH)?;
            placement::run_under(&schemes, &text, &numbers, budget)
        }
        None => placement::run(&text, &numbers, budget),
    })
}

/// The line that is printed of a refusal.
fn line_of(refusal: &Refusal) -> String {
    let number = refusal.number;
    match refusal.place {
        Place::Run(steps) => format!("NO,{number},{},{}", steps.applications, steps.operations),
        Place::Line(line) => format!("X,{number},{line}"),
        _ => format!("X,{number},0"),
    }
}

/// Reads a number of 0 to 4294967295, in digits alone.
fn number(word: &OsStr) -> Result<u32, String> {
    let digits = word.to_str().filter(|it| !it.starts_with('+'));
    let number = digits.and_then(|it| it.parse().ok());
    number.ok_or_else(|| format!("{} is no number of 0 to 4294967295", word.to_string_lossy()))
}

/// Reads as much of a file as can matter.
fn read_front(path: &Path, length: u64) -> Result<Vec<u8>, String> {
    let mut front = vec![];
    match File::open(path).and_then(|file| file.take(length).read_to_end(&mut front)) {
        Ok(_) => Ok(front),
        Err(error) => Err(format!("{}: {error}", path.display())),
    }
}
