//! The tables that are measured: random ones from a fixed seed.

use crate::deep_sharing::deep_sharing;
use crate::full::{full_program, FULL_ROWS};
use crate::functions::under_schemes;
use crate::rival::{Failure, Refusal, Rival};
use crate::unknowns::long_application;
use second::generate::{chain, closed_program, text_of_table, Random};
use second::rows::Entry;
use second::text::lines;
use second::{line, Table};

/// A table with the text that declares it.
pub struct Sample {
    /// The lines, each ended by a line feed.
    pub text: Vec<u8>,
    /// What the lines declare.
    pub table: Table,
}

impl Sample {
    /// The table of a text whose lines are all accepted, without the checks of add.
    pub fn of_text(text: &[u8]) -> Sample {
        let mut table = Table::fresh();
        for entry in lines(text).filter_map(line::read) {
            match entry {
                Entry::T(_, row) => table.types.push(row),
                Entry::P(_, parameter) => table.params.push(parameter),
                Entry::E(_, term) => table.terms.push(term),
            }
        }
        Sample { text: text.to_vec(), table }
    }

    /// A table with its text.
    fn of_table(table: Table) -> Sample {
        Sample { text: text_of_table(&table), table }
    }
}

/// So many accepted programs of exactly so many rows.
pub fn accepted(random: &mut Random, count: usize, rows: usize) -> Vec<Sample> {
    accepted_of(count, rows, || any_program(random, rows))
}

/// So many accepted programs with as many types, parameters and rows as a table can hold.
pub fn full(random: &mut Random, count: usize) -> Vec<Sample> {
    accepted_of(count, FULL_ROWS, || full_program(random))
}

/// So many of the programs that are made, accepted and of exactly so many rows.
fn accepted_of(count: usize, rows: usize, make: impl FnMut() -> Table) -> Vec<Sample> {
    let mut rival = Rival::default();
    let tables = std::iter::repeat_with(make);
    let wanted = tables.filter(|it| it.terms.len() == rows && cause(&mut rival, it) == 0);
    wanted.take(count).map(Sample::of_table).collect()
}

/// So many refused programs of exactly so many rows; the four causes have equal parts.
pub fn refused(random: &mut Random, count: usize, rows: usize) -> Vec<Sample> {
    let mut rival = Rival::default();
    let mut found = [0; CAUSES];
    // A chain always has as many rows as a table can hold.
    let chains = if rows == Table::TERM_LIMIT { 4 } else { 0 };
    let mut programs = std::iter::repeat_with(|| match random.one_in(chains) {
        true => Sample::of_text(&chain(random)),
        false => Sample::of_table(any_program(random, rows)),
    });
    let mut samples = vec![];
    while samples.len() < count {
        let Some(sample) = programs.next() else { break };
        let cause = cause(&mut rival, &sample.table);
        let wanted = ROW_CAUSES.contains(&cause) && found[cause] < count.div_ceil(ROW_CAUSES.len());
        if wanted && sample.table.terms.len() == rows {
            found[cause] += 1;
            samples.push(sample);
        }
    }
    samples
}

/// So many programs of 256 rows with deep sharing, accepted or not.
pub fn shared(random: &mut Random, count: usize) -> Vec<Sample> {
    (0..count).map(|_| Sample::of_text(&deep_sharing(random))).collect()
}

/// So many programs of 256 rows that are refused only because a function would be a ciphertext.
pub fn functions_only(random: &mut Random, count: usize) -> Vec<Sample> {
    let mut rival = Rival::default();
    let tables = std::iter::repeat_with(|| function_under_scheme(random, &mut rival)).flatten();
    tables.take(count).map(Sample::of_table).collect()
}

/// A random program, accepted but for a scheme that it declares for a function.
fn function_under_scheme(random: &mut Random, rival: &mut Rival) -> Option<Table> {
    let rows = random.between(Table::TERM_LIMIT - 1, Table::TERM_LIMIT);
    let program = any_program(random, rows);
    if program.terms.len() != rows || cause(rival, &program) != 0 {
        return None;
    }
    let mut programs = under_schemes(random, &program);
    programs.find(|it| cause(rival, it) != 0)
}

/// So many accepted programs of 256 rows with a long application over 60 parameters of unknown types.
pub fn long_applications(random: &mut Random, count: usize) -> Vec<Sample> {
    (0..count).map(|_| Sample::of_text(&long_application(random))).collect()
}

/// A random closed program with its redeclarations made.
fn any_program(random: &mut Random, rows: usize) -> Table {
    closed_program(random, rows).table()
}

/// Accepted, 21 by a clash, 21 by a cycle, 22 at a row, 23, and 22 by the lines before the first row.
const CAUSES: usize = 6;

/// The causes of a refusal that a row gives.
const ROW_CAUSES: [usize; 4] = [1, 2, 3, 4];

/// Sorts programs by what the rival says; the measure compares all its answers with others.
fn cause(rival: &mut Rival, table: &Table) -> usize {
    match rival.solve(table) {
        Ok(()) => 0,
        Err(Refusal::Types(Failure::Clash, _)) => 1,
        Err(Refusal::Types(Failure::Cycle, _)) => 2,
        Err(Refusal::Apart(1..)) => 3,
        Err(Refusal::Broken(_)) => 4,
        Err(Refusal::Apart(0)) => 5,
    }
}
