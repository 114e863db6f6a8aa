//! Reads a table from a file and prints its report, or says in words why it is refused. A second file, where one is named, is the owner's
//! scheme file, and the report is the one under its schemes.

use placement::{Refusal, Report};
use std::env;
use std::fs::File;
use std::io::{self, Read, Write};
use std::path::Path;
use std::process::ExitCode;

const REFUSED: u8 = 1;
const NOT_RUN: u8 = 2;

fn main() -> ExitCode {
    let arguments: Vec<_> = env::args_os().skip(1).collect();
    let (table, schemes) = match &arguments[..] {
        [table] => (Path::new(table), None),
        [table, schemes] => (Path::new(table), Some(Path::new(schemes))),
        _ => {
            eprintln!("usage: example TABLE [SCHEMES]");
            return ExitCode::from(NOT_RUN);
        }
    };
    let answer = match answered(table, schemes) {
        Ok(answer) => answer,
        Err(error) => {
            eprintln!("{error}");
            return ExitCode::from(NOT_RUN);
        }
    };
    match answer {
        Ok(report) => match io::stdout().write_all(report.as_bytes()) {
            Ok(()) => ExitCode::SUCCESS,
            Err(error) => {
                eprintln!("standard output: {error}");
                ExitCode::from(NOT_RUN)
            }
        },
        Err(refusal) => {
            eprintln!("{refusal}");
            ExitCode::from(REFUSED)
        }
    }
}

/// The report of a table or its refusal; or, where a file cannot be read, which and why.
fn answered(table: &Path, schemes: Option<&Path>) -> Result<Result<Report, Refusal>, String> {
    let text = read_front(table, placement::TEXT_LENGTH)?;
    Ok(match schemes {
        Some(schemes) => {
            let schemes = read_front(schemes, placement::SCHEMES_LENGTH)?;
            placement::report_under(&schemes, &text)
        }
        None => placement::report(&text),
    })
}

/// Reads as much of a file as can matter.
fn read_front(path: &Path, length: u64) -> Result<Vec<u8>, String> {
    let mut front = vec![];
    match File::open(path).and_then(|file| file.take(length).read_to_end(&mut front)) {
        Ok(_) => Ok(front),
        Err(error) => Err(format!("{}: {error}", path.display())),
    }
}
