//! The exported functions of the proved static libraries as safe functions, for comparison tests.

#![warn(missing_docs)]

mod exported;

pub mod answers;
pub mod buffers;
pub mod calls;
pub mod dry_runs;
pub mod numbers;
pub mod pieces;
pub mod programs;
pub mod questions;
pub mod script;
pub mod sessions;
pub mod slowest;
pub mod texts;
pub mod well_formed;
pub mod words;

pub use exported::{
    number_answers, placement_report, placement_report_under, placement_session, read_line,
    run_calls, session_lent,
};
