//! The C entries for dry runs as safe functions, runs that they are asked for, and the comparison with the reference.

use crate::buffers::shown;
use crate::slowest::Slowest;
use second::counts::Counts;
use second::generate::{Job, Random};
use second::run_entry::Written;
use second::{run_entry, run_entry_under};
use std::fmt::{Display, Formatter, Result};
use std::time::Instant;

/// The functions as the library declares them; a slice passes as its pointer and its length.
mod raw {
    extern "C" {
        pub fn placement_run(
            text: *const u8,
            text_length: usize,
            numbers: *const u32,
            numbers_length: usize,
            budget: u32,
            answer: *mut u32,
            answer_length: usize,
        ) -> u32;

        pub fn placement_run_under(
            schemes: *const u8,
            schemes_length: usize,
            text: *const u8,
            text_length: usize,
            numbers: *const u32,
            numbers_length: usize,
            budget: u32,
            answer: *mut u32,
            answer_length: usize,
        ) -> u32;
    }
}

/// Runs the job of a text on numbers; writes the number, the code of its tag, the applications and the operations.
///
/// It returns 100,000 for a number, 100,001 for a function, 28,000 to 30,000 where the run is refused; or, without writing, 11,000
/// for an answer of fewer than four numbers, and the number of a refused line x 1,000 + the line.
pub fn placement_run(text: &[u8], numbers: &[u32], budget: u32, answer: &mut [u32]) -> u32 {
    // SAFETY: the slices are valid for their lengths during the call, and only `answer` is written.
    unsafe {
        raw::placement_run(
            text.as_ptr(),
            text.len(),
            numbers.as_ptr(),
            numbers.len(),
            budget,
            answer.as_mut_ptr(),
            answer.len(),
        )
    }
}

/// The same under the schemes of a file; a refused file gives its number x 1,000 and leaves the answer.
pub fn placement_run_under(
    schemes: &[u8],
    text: &[u8],
    numbers: &[u32],
    budget: u32,
    answer: &mut [u32],
) -> u32 {
    // SAFETY: the slices are valid for their lengths during the call, and only `answer` is written.
    unsafe {
        raw::placement_run_under(
            schemes.as_ptr(),
            schemes.len(),
            text.as_ptr(),
            text.len(),
            numbers.as_ptr(),
            numbers.len(),
            budget,
            answer.as_mut_ptr(),
            answer.len(),
        )
    }
}

/// How many numbers an answer has; a longer one keeps what stands behind them.
pub const ANSWER_LENGTH: usize = 4;

/// How many numbers before and behind an answer are looked at too.
const MARGIN: usize = 8;

/// A run that a C entry is asked for.
#[derive(Clone, Copy, Debug)]
pub struct Run<'a> {
    /// The scheme file; without one it is asked under the built-in six.
    pub file: Option<&'a [u8]>,
    /// The text.
    pub text: &'a [u8],
    /// The numbers that the job is run on.
    pub numbers: &'a [u32],
    /// The budget.
    pub budget: u32,
}

impl<'a> Run<'a> {
    /// The run of a job with a budget.
    pub fn of(job: &'a Job, budget: u32) -> Run<'a> {
        Run { file: job.file.as_deref(), text: &job.text, numbers: &job.numbers, budget }
    }

    /// What the proved entry returns; it may write to the answer.
    fn ask(self, answer: &mut [u32]) -> u32 {
        let Run { file, text, numbers, budget } = self;
        match file {
            Some(file) => placement_run_under(file, text, numbers, budget, answer),
            None => placement_run(text, numbers, budget, answer),
        }
    }

    /// What is to be returned, and written if anything is, with an answer of this length.
    fn expected(self, length: usize) -> (u32, Option<Written>) {
        let Run { file, text, numbers, budget } = self;
        match file {
            _ if length < ANSWER_LENGTH => (11_000, None),
            Some(file) => run_entry_under(file, text, numbers, budget),
            None => run_entry(text, numbers, budget),
        }
    }

    /// Asserts what the entry returns and writes with an answer of this length, all numbers being random before.
    pub fn assert_answer(
        self,
        random: &mut Random,
        length: usize,
        (returned, written): (u32, Option<Written>),
    ) {
        let mut found: Vec<u32> =
            (0..length + 2 * MARGIN).map(|_| random.number() as u32).collect();
        let mut expected = found.clone();
        if let Some(written) = written {
            expected[MARGIN..MARGIN + ANSWER_LENGTH].copy_from_slice(&written);
        }
        assert_eq!(self.ask(&mut found[MARGIN..MARGIN + length]), returned, "for {self}");
        assert_eq!(found, expected, "for {self}");
    }
}

impl Display for Run<'_> {
    fn fmt(&self, formatter: &mut Formatter) -> Result {
        let Run { file, text, numbers, budget } = self;
        let file = file.map_or("the six".to_string(), shown);
        write!(formatter, "{budget} steps on {numbers:?} of {} under {file}", shown(text))
    }
}

/// What occurred in many comparisons.
#[derive(Default)]
pub struct Tally {
    /// What was returned.
    pub returned: Counts<u32>,
    /// The lengths of answers.
    pub lengths: Counts<usize>,
    /// The slowest call.
    slowest: Slowest,
}

impl Tally {
    /// Compares the C entry with the reference on an answer of any length, mostly one that is long enough; gives what was returned.
    pub fn compare(&mut self, random: &mut Random, run: Run) -> u32 {
        let length = match random.below(8) {
            0 => random.below(ANSWER_LENGTH),
            1 => random.between(ANSWER_LENGTH + 1, 20),
            _ => ANSWER_LENGTH,
        };
        let expected = run.expected(length);
        let start = Instant::now();
        run.assert_answer(random, length, expected);
        let time = start.elapsed();
        let again = || {
            run.ask(&mut [0; ANSWER_LENGTH]);
        };
        self.slowest
            .take(time, again, || format!("{} steps, {} bytes", run.budget, run.text.len()));
        self.returned.add(expected.0);
        self.lengths.add(length);
        expected.0
    }

    /// Prints the counts for those who want to see them, and asserts that no call took too long.
    pub fn finish(&self, inputs: &str) {
        println!("{inputs}: {:?}\n{:?}", self.returned.0, self.lengths.0);
        self.slowest.assert_within_limit(inputs);
        self.lengths.assert_each(0..=20, 1);
    }
}
