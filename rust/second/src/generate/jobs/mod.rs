//! Random jobs for dry runs: a text, the numbers that it is run on, and budgets of steps.

mod declared;
mod depths;
mod limits;
mod numerals;
mod tree;
mod typed;

use super::goals::any_word;
use super::letter_case::text_in_any_case;
use super::program::closed_program_under;
use super::random::Random;
use super::scheme_files::accepted_file;
use super::text::text_of_table;
use crate::dry_run::{dry_run, leading_parameters, start, MOST_CONTEXTS, MOST_STEPS};
use crate::rows::Term;
use crate::schemes::SchemeTable;
use crate::table::Table;
use tree::Tree;
use typed::Typed;

/// What a job is.
#[derive(Clone, Copy, Debug, PartialEq, Eq, PartialOrd, Ord)]
pub enum JobKind {
    /// Operations under LAMs.
    Straight,
    /// Functions that take and give functions.
    Typed,
    /// A function that is iterated by numerals.
    Counted,
    /// Functions of functions that are composed with themselves.
    SelfComposed,
    /// Numerals applied to each other, which takes more steps than any budget has.
    Tower,
    /// A step stands in about as many contexts as may be.
    Deep,
    /// Results are close to the greatest number.
    Limit,
    /// A closed program of any form.
    Program,
}

impl JobKind {
    /// All kinds.
    pub const ALL: [JobKind; 8] = [
        JobKind::Straight,
        JobKind::Typed,
        JobKind::Counted,
        JobKind::SelfComposed,
        JobKind::Tower,
        JobKind::Deep,
        JobKind::Limit,
        JobKind::Program,
    ];

    /// A kind; the ones that take thousands of steps are rare.
    fn random(random: &mut Random) -> JobKind {
        match random.below(200) {
            0..=39 => JobKind::Straight,
            40..=99 => JobKind::Typed,
            100..=139 => JobKind::Counted,
            140..=159 => JobKind::SelfComposed,
            160..=179 => JobKind::Limit,
            180..=197 => JobKind::Program,
            198 => JobKind::Tower,
            _ => JobKind::Deep,
        }
    }

    /// A table of this kind that is mostly accepted, and the numbers that it is meant for if any will not do.
    fn table(self, random: &mut Random, schemes: &SchemeTable) -> (Table, Option<Vec<u32>>) {
        loop {
            let (tree, parameters, numbers) = match self {
                JobKind::Program => return (program(random, schemes), None),
                JobKind::Straight => unnumbered(Typed::straight_job(random)),
                JobKind::Typed => unnumbered(Typed::job(random)),
                JobKind::Counted => unnumbered(numerals::counted_job(random)),
                JobKind::SelfComposed => unnumbered(numerals::self_composed_job(random)),
                JobKind::Tower => unnumbered(numerals::tower_job(random)),
                JobKind::Deep => {
                    let contexts = MOST_CONTEXTS - 2 + random.below(5);
                    let (tree, parameters) = depths::deep_job(random, contexts);
                    (tree, parameters, Some(vec![random.below(100) as u32]))
                }
                JobKind::Limit => {
                    let (tree, parameters, numbers) = limits::limit_job(random);
                    (tree, parameters, Some(numbers))
                }
            };
            if let Some(table) = declared::table_of(random, schemes, &tree, parameters) {
                return (table, numbers);
            }
        }
    }
}

/// A term and its number of parameters, for any numbers.
fn unnumbered((tree, parameters): (Tree, u16)) -> (Tree, u16, Option<Vec<u32>>) {
    (tree, parameters, None)
}

/// A closed program, mostly one that can be run.
fn program(random: &mut Random, schemes: &SchemeTable) -> Table {
    let is_any = random.one_in(6);
    loop {
        let rows = random.between(1, 60);
        let table = closed_program_under(random, schemes, rows).table();
        let zeros = vec![0; leading_parameters(&table).len()];
        if is_any || start(&table, &zeros).is_some() {
            return table;
        }
    }
}

/// A job with the numbers that it is run on.
#[derive(Clone, Debug)]
pub struct Job {
    /// What it is.
    pub kind: JobKind,
    /// The scheme file that it is placed under, if not under the built-in six.
    pub file: Option<Vec<u8>>,
    /// Its lines, which are all accepted.
    pub text: Vec<u8>,
    /// The numbers, mostly as many as there are leading LAMs.
    pub numbers: Vec<u32>,
}

impl Job {
    /// The job of a seed; half of them are under scheme files of owners.
    pub fn of_seed(seed: u64) -> Job {
        let mut random = Random::seeded(seed);
        let kind = JobKind::random(&mut random);
        Job::random(&mut random, kind)
    }

    /// A job of a kind.
    pub fn random(random: &mut Random, kind: JobKind) -> Job {
        let file = random.one_in(2).then(|| accepted_file(random));
        let schemes = schemes(file.as_deref());
        let (mut table, numbers) = kind.table(random, &schemes);
        let mut numbers = numbers.unwrap_or_else(|| any_numbers(random, &table));
        match random.below(40) {
            0 => spoil(random, &mut table),
            1 | 2 => numbers = wrong_count(random, numbers),
            _ => {}
        }
        let text = text_in_any_case(random, &text_of_table(&table));
        Job { kind, file, text, numbers }
    }

    /// The job of one number whose deepest step stands in exactly so many contexts, at least [`Job::FEWEST_CONTEXTS`].
    pub fn deep(random: &mut Random, contexts: usize) -> Job {
        let (tree, parameters) = depths::deep_job(random, contexts);
        let table = declared::table_of(random, SchemeTable::six(), &tree, parameters);
        let text = text_of_table(&table.expect("a deep job has room"));
        Job { kind: JobKind::Deep, file: None, text, numbers: vec![1] }
    }

    /// The fewest contexts of such a job.
    pub const FEWEST_CONTEXTS: usize = depths::FEWEST;

    /// The table that the job stands in.
    pub fn table(&self) -> Table {
        let mut table = Table::fresh_of(schemes(self.file.as_deref()));
        for line in crate::text::lines(&self.text) {
            assert_eq!(table.add(line), 0, "for the line {}", line.escape_ascii());
        }
        table
    }

    /// Budgets to try: none, one step, as many as the run makes, one less and one more, the most, and more than the most.
    pub fn budgets(&self, random: &mut Random) -> Vec<u32> {
        let exact = dry_run(&self.table(), &self.numbers, MOST_STEPS).steps();
        let above = match random.below(3) {
            0 => MOST_STEPS + 1,
            1 => u32::MAX,
            _ => random.between(MOST_STEPS as usize + 1, u32::MAX as usize) as u32,
        };
        let mut budgets = vec![0, 1, exact.saturating_sub(1), exact, exact + 1, MOST_STEPS, above];
        budgets.sort_unstable();
        budgets.dedup();
        budgets
    }
}

/// The scheme table of an accepted file, or the built-in six.
fn schemes(file: Option<&[u8]>) -> SchemeTable {
    file.map_or_else(
        || SchemeTable::six().clone(),
        |file| SchemeTable::open(file).expect("the file is accepted"),
    )
}

/// As many numbers as a table has leading LAMs.
fn any_numbers(random: &mut Random, table: &Table) -> Vec<u32> {
    leading_parameters(table).iter().map(|_| any_number(random)).collect()
}

/// A number: mostly small, now and then of any size, or close to the greatest one or its root.
fn any_number(random: &mut Random) -> u32 {
    match random.below(16) {
        0 => u32::MAX - random.below(4) as u32,
        1 => 65_533 + random.below(6) as u32,
        2 => 2_147_483_646 + random.below(4) as u32,
        3 => (random.number() >> random.between(32, 63)) as u32,
        4..=6 => random.below(100) as u32,
        _ => random.below(4) as u32,
    }
}

/// Another count of numbers.
fn wrong_count(random: &mut Random, mut numbers: Vec<u32>) -> Vec<u32> {
    let count = match random.below(6) {
        0 if !numbers.is_empty() => 0,
        1 if numbers.len() > 1 => numbers.len() - 1,
        2 => 64,
        3 => 65,
        4 => random.between(66, 300),
        _ => numbers.len() + 1,
    };
    numbers.resize_with(count, || any_number(random));
    numbers
}

/// Spoils an accepted table: with another qualifier or floor, a number in a row's place, or a row that is no child.
fn spoil(random: &mut Random, table: &mut Table) {
    let word = any_word(random, table.schemes());
    let own = random.below(table.params.len());
    let row = random.below(table.terms.len());
    match (random.below(4), table.params.get_mut(own)) {
        (0, Some(parameter)) => parameter.qualifier = word,
        (1, Some(parameter)) => parameter.floor = word,
        (2, _) if table.terms.len() < Table::TERM_LIMIT => {
            table.terms.push(Term::Number { value: 1 });
        }
        _ => table.terms[row] = Term::Number { value: 1 },
    }
}
