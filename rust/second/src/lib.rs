//! A second, independent solver for scheme inference over a term table, and dry runs of what it accepts.
//!
//! It is written for clarity and serves as the reference in comparison tests. It runs over any scheme
//! table; functions that are given neither one nor a file or a table with one are about the built-in six.

#![forbid(unsafe_code)]
#![warn(missing_docs)]

pub mod classes;
pub mod counts;
pub mod dry_run;
pub mod examples;
pub mod expression;
pub mod generate;
pub mod inference;
pub mod line;
pub mod operation;
pub mod place;
pub mod qualifier;
pub mod report;
pub mod rows;
pub mod run_entry;
pub mod schemes;
pub mod session;
pub mod solution;
pub mod table;
pub mod text;
pub mod to_try;
pub mod transition;
pub mod typing;
pub mod word;

pub use dry_run::{dry_run, plain_run};
pub use inference::Answer;
pub use place::{entry, entry_under, place};
pub use rows::Entry;
pub use run_entry::{run_entry, run_entry_under};
pub use schemes::SchemeTable;
pub use session::session;
pub use table::Table;
