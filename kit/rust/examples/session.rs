//! Reads a script from a file and prints the answers to its commands.

use std::env;
use std::fs;
use std::io::{self, Write};
use std::path::Path;
use std::process::ExitCode;

const NOT_RUN: u8 = 2;

fn main() -> ExitCode {
    let arguments: Vec<_> = env::args_os().skip(1).collect();
    let [path] = &arguments[..] else {
        eprintln!("usage: session SCRIPT");
        return ExitCode::from(NOT_RUN);
    };
    let script = match fs::read(path) {
        Ok(script) => script,
        Err(error) => {
            eprintln!("{}: {error}", Path::new(path).display());
            return ExitCode::from(NOT_RUN);
        }
    };
    match io::stdout().write_all(&placement::session(&script)) {
        Ok(()) => ExitCode::SUCCESS,
        Err(error) => {
            eprintln!("standard output: {error}");
            ExitCode::from(NOT_RUN)
        }
    }
}
