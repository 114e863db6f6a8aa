//! The C entries for dry runs, each on a whole text.

use crate::dry_run::{dry_run, Ending, Outcome};
use crate::expression::Number;
use crate::place::filled;
use crate::table::Table;

/// What is written of a run: the number and the code of its tag, 0 both where there is none, the applications and the operations.
pub type Written = [u32; 4];

/// What the C entry for dry runs returns, and what it writes where the lines of the text are all accepted.
///
/// It returns 100,000 for a number, 100,001 for a function, 28,000, 29,000 or 30,000 where the run is refused; or, without
/// writing, the number of the first refused line x 1,000 + the line.
pub fn run_entry(text: &[u8], numbers: &[u32], budget: u32) -> (u32, Option<Written>) {
    run_on(Table::fresh(), text, numbers, budget)
}

/// The same under a scheme file: 25,000, 26,000 or 27,000 where the file is refused, before any line is read.
pub fn run_entry_under(
    file: &[u8],
    text: &[u8],
    numbers: &[u32],
    budget: u32,
) -> (u32, Option<Written>) {
    match Table::fresh_under(file) {
        (fresh, 0) => run_on(fresh, text, numbers, budget),
        (_, number) => (number * 1_000, None),
    }
}

/// What an entry returns and writes for a text on a fresh table.
fn run_on(fresh: Table, text: &[u8], numbers: &[u32], budget: u32) -> (u32, Option<Written>) {
    let table = match filled(fresh, text) {
        Ok(table) => table,
        Err((number, line)) => return (number * 1_000 + line, None),
    };
    let outcome = dry_run(&table, numbers, budget);
    (returned(&outcome), Some(written(&outcome)))
}

/// What an entry returns for an outcome.
fn returned(outcome: &Outcome) -> u32 {
    match outcome.ending {
        Ending::Number(_) => 100_000,
        Ending::Function => 100_001,
        Ending::Refused(number) => number * 1_000,
        Ending::Stuck(stuck) => panic!("a run is stuck: {stuck:?}"),
    }
}

/// What an entry writes for an outcome.
fn written(outcome: &Outcome) -> Written {
    let Outcome { ending, applications, operations } = *outcome;
    match ending {
        Ending::Number(Number { value, tag }) => [value, tag.into(), applications, operations],
        _ => [0, 0, applications, operations],
    }
}
