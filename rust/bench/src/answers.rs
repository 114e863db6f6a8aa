//! The answers of all sides to one table, in the form of the C entry.

use crate::exported::{infer_repeatedly, placement_report, solve_repeatedly};
use crate::rival::{returned, Rival};
use crate::sets::Sample;
use second::report::LONGEST_REPORT;

/// What a report buffer holds before each answer.
const BEFORE: u8 = b'#';

/// What is returned, with the whole buffer after it.
pub type Outcome = (u32, Vec<u8>);

/// What the second solver answers.
pub fn second(text: &[u8]) -> Outcome {
    outcome(|buffer| second::entry(text, buffer))
}

/// What the rival's infer call answers.
pub fn rival_infer(rival: &mut Rival, sample: &Sample) -> Outcome {
    outcome(|buffer| returned(rival.infer(&sample.table, buffer)))
}

/// What the rival's entry answers.
pub fn rival_report(rival: &mut Rival, text: &[u8]) -> Outcome {
    outcome(|buffer| rival.report(text, buffer))
}

/// What the proved library answers after solving so many times.
pub fn proved_solve(text: &[u8], times: u32) -> Outcome {
    outcome(|buffer| solve_repeatedly(text, times, buffer))
}

/// What the proved library answers after inferring so many times.
pub fn proved_infer(text: &[u8], times: u32) -> Outcome {
    outcome(|buffer| infer_repeatedly(text, times, buffer))
}

/// What the proved library's entry answers.
pub fn proved_report(text: &[u8]) -> Outcome {
    outcome(|buffer| placement_report(text, buffer))
}

fn outcome(answer: impl FnOnce(&mut [u8]) -> u32) -> Outcome {
    let mut buffer = vec![BEFORE; LONGEST_REPORT];
    (answer(&mut buffer), buffer)
}
