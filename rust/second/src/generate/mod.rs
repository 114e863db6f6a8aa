//! Reproducible random inputs for comparison tests: scheme files, programs, damaged lines and texts, calls, jobs.

mod calls;
mod chains;
mod damage;
mod floors;
mod function_cases;
mod functions;
mod goals;
mod jobs;
mod letter_case;
mod letter_damage;
mod numbers;
mod open;
mod order;
mod plain_by_bounds;
mod program;
mod random;
mod scheme_files;
mod scheme_lines;
mod scheme_properties;
mod supports;
mod text;
mod text_damage;
mod what_if;

pub mod deep;

pub use calls::{call_list, call_list_under, Call};
pub use chains::{chain, chain_under, doubling, doubling_under};
pub use damage::{any_bytes, changed_line, changed_line_under, damaged_line, WRONG_FLOORS};
pub use floors::{
    program_with_floors, program_with_floors_under, text_with_floors, text_with_floors_under,
    Floors,
};
pub use function_cases::{FunctionCase, FunctionCounts};
pub use functions::{functions, functions_under};
pub use jobs::{Job, JobKind};
pub use letter_case::{in_any_case, spellings, text_in_any_case, LetterCase};
pub use letter_damage::LetterDamage;
pub use numbers::{possible_words, NumberCounts, Partner, Place};
pub use open::{opened, Opening};
pub use plain_by_bounds::PlainByBounds;
pub use program::{closed_program, closed_program_under, Program};
pub use random::Random;
pub use scheme_files::{accepted_file, accepted_file_of, LineFault, SchemeFile};
pub use scheme_lines::Malformation;
pub use scheme_properties::SchemeProperty;
pub use supports::{OrderFaults, Support};
pub use text::{text_of_lines, text_of_table};
pub use text_damage::{damaged_text, damaged_text_under, Damage};
pub use what_if::{what_if_list, what_if_list_under};
