//! Measures the proved library beside a plain Rust program on the same tables.

#![warn(missing_docs)]

mod deep_sharing;
mod exported;
mod full;
mod functions;
mod unknowns;

pub mod answers;
pub mod measure;
pub mod rival;
pub mod sets;
