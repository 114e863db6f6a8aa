//! Under which encryption scheme each input of a job leaves its owner's house: a table in, a report or a refusal out, under the built-in
//! six schemes or under a scheme file of the owner's; or a script of commands in, the answers out. For testers: a table and numbers in, the
//! result of a dry run out.
//!
//! The work is done by a proved library, which is linked as an archive. This crate only lends it buffers and takes its answers apart.
//!
//! ```
//! let report = placement::report(b"E,0,ENC,AH,5\n").unwrap();
//! assert_eq!(report.as_bytes(), b"OK,0,1\nE,0,AH,INT\n");
//! assert_eq!(placement::report(b"E,0,enc,ah,5\n"), Ok(report));
//!
//! let refusal = placement::report(b"E,0,NUM,1\nE,1,APP,0,0\n").unwrap_err();
//! assert_eq!(refusal.number, 7);
//! assert_eq!(refusal.place, placement::Place::Line(2));
//!
//! let report = placement::report_under(b"S,SEAL,00000\nS,SUM,10000\n", b"E,0,ENC,SUM,5\n").unwrap();
//! assert_eq!(report.as_bytes(), b"OK,0,1\nE,0,SUM,INT\n");
//!
//! let outcome = placement::run(b"E,0,ENC,AH,5\nE,1,NUM,7\nE,2,OP,ADD,0,1\n", &[], 10_000).unwrap();
//! assert_eq!(outcome.to_string(), "NUMBER,12,AH,0,1");
//!
//! let answers = placement::session(b"add E,0,ENC,AH,5\ninfer\ntake-back\ninfer\n");
//! assert_eq!(answers, b"0\nOK,0,1\nE,0,AH,INT\n0\nNO,10,0\n");
//! ```

#![warn(missing_docs)]
#![deny(unsafe_op_in_unsafe_fn)]

mod entry;
mod refusal;
mod run;

pub use refusal::{Place, Refusal};
pub use run::{run, run_under, Answer, Outcome, Steps};

use std::fmt;

/// What stands in a text after this many bytes changes nothing: by then a line has been refused, or the text has ended.
pub const TEXT_LENGTH: u64 = 25025;

/// What stands in a scheme file after this many bytes changes nothing: no accepted one has more than 112, and a longer one is refused with 25.
pub const SCHEMES_LENGTH: u64 = 113;

/// The report of an accepted table.
#[derive(Clone, Debug, PartialEq, Eq)]
pub struct Report {
    bytes: Vec<u8>,
}

impl Report {
    /// The report's bytes: lines that end in a line feed.
    pub fn as_bytes(&self) -> &[u8] {
        &self.bytes
    }

    /// The report's lines without their line feeds, each as its fields, such as `P`, `0`, `AH`, `INT`.
    pub fn lines(&self) -> impl Iterator<Item = Vec<&[u8]>> {
        let lines = self.bytes.split_inclusive(|&byte| byte == b'\n');
        lines.map(|line| {
            let line = line.strip_suffix(b"\n").unwrap_or(line);
            line.split(|&byte| byte == b',').collect()
        })
    }
}

impl fmt::Display for Report {
    fn fmt(&self, f: &mut fmt::Formatter<'_>) -> fmt::Result {
        f.write_str(&String::from_utf8_lossy(&self.bytes))
    }
}

/// Finds the report of a table, whose lines are the text's, or why there is none, under the built-in six schemes.
///
/// A line's words, such as ADD, INT or RAND, may be in capitals, in small letters or mixed; its tag T, P or E is a capital, and the g of a
/// variable is small. The report has capitals, whatever the table has. The last line may lack its line feed.
///
/// A line P or E of the report ends in its shape: INT for a number, ARROW for a function, and ANY where the table leaves it open, a number
/// being taken for it in the words. There is no key for a function: with the shape ARROW the word is always PLAIN. A variable that stands with a
/// function is PLAIN too, and an input that shares it leaves in the open, unless its floor refuses that with 24.
///
/// Line E,i of the report is the table's row i. The word that the report has for a NUM row is the scheme under which the loader encrypts that
/// literal before upload; PLAIN leaves it in the open. A loader that looks for NUM and ENC rows in the table has to know these words in
/// either case, or it misses literals. The table's text has every literal in the open: do not upload it as it stands.
///
/// Threads may call it at once. A call takes up to 128 KiB of stack, far less than a thread has by default.
pub fn report(text: &[u8]) -> Result<Report, Refusal> {
    reported(|buffer| entry::placement_report(text, buffer))
}

/// Finds the report of a table under a scheme file, in which the owner's schemes stand in the place of the six, or why there is none.
///
/// A scheme file has 1 to 8 lines `S,NAME,BITS`: a name of 1 to 5 capital letters other than PLAIN, and five digits 0 or 1 that say whether
/// the scheme supports ADD, MUL, EQ, LT and GT, in this order. No two lines have the same name, and no two the same digits. The last line may
/// lack its line feed; carriage returns and empty lines are refused. One scheme is at or below another when it supports at least as much, and
/// PLAIN is below all.
///
/// The qualifier words of the table are PLAIN and the file's names, in either case; a word of the six that the file does not name is refused
/// with 1. A refused file is refused with 25, 26 or 27 and [`Place::Whole`], before the text is looked at. All else is as for [`report`], also
/// the stack that a call takes. kit/placement.h says more.
///
/// ```
/// let schemes = b"S,BFV,11000\nS,GCM,00000\nS,PAIL,10000\n";
/// let text = b"T,0,INT\nP,0,g0,0\nE,0,VAR,0\nE,1,NUM,7\nE,2,OP,ADD,0,1\nE,3,LAM,0,2\n";
/// let report = placement::report_under(schemes, text).unwrap();
/// assert_eq!(report.lines().nth(2).unwrap(), [&b"P"[..], b"0", b"PAIL", b"INT"]);
///
/// let refusal = placement::report_under(b"S,PLAIN,00000\n", text).unwrap_err();
/// assert_eq!((refusal.number, refusal.place), (25, placement::Place::Whole));
/// ```
pub fn report_under(schemes: &[u8], text: &[u8]) -> Result<Report, Refusal> {
    reported(|buffer| entry::placement_report_under(schemes, text, buffer))
}

/// Lends an entry a buffer and takes its answer apart.
fn reported(entry: impl FnOnce(&mut [u8]) -> u32) -> Result<Report, Refusal> {
    let mut bytes = vec![0; entry::REPORT_LENGTH];
    let length = refusal::taken_apart(entry(&mut bytes))?;
    bytes.truncate(length);
    Ok(Report { bytes })
}

/// Answers the commands of a script in turn, from a fresh table of the built-in six schemes on: `add LINE`, `redeclare P CODE`, `take-back`,
/// `infer`, `schemes LINES` and `run BUDGET NUMBER ...`, one a line.
///
/// Commands are in small letters; the words of an added line may be in either case. An infer is answered by the report or `NO,number,row`
/// (`NO,24,parameter`), a run by one line, as [`Outcome`] is shown, or by `NO,number,applications,operations`, the other four by their number, 0 or a refusal's, and any other line by `?`; each answer ends in a line feed.
/// kit/placement.h says more of each.
///
/// The lines of `schemes LINES` are those of a scheme file, with a blank in the place of each line feed. Where the file is accepted, the table
/// from then on is a fresh one of that file's schemes; where it is refused, with 25, 26 or 27, nothing is changed. Under a file of n schemes
/// the codes of a redeclare are 0 for PLAIN, 1 to n for the schemes in the file's order, and n + 1 to n + 64 for g0 to g63.
///
/// ```
/// let answers = placement::session(b"schemes S,GCM,00000 S,PAIL,10000\nadd E,0,NUM,5\ninfer\nschemes S,GCM\n");
/// assert_eq!(answers, b"0\n0\nOK,0,1\nE,0,GCM,INT\n25\n");
/// ```
///
/// The script is run twice, once for the length of all answers. Threads may call it at once; it takes as much stack as [`report`], and where the
/// script has the command `run` as much as [`run`].
pub fn session(script: &[u8]) -> Vec<u8> {
    let mut answers = vec![0; entry::placement_session(script, &mut [])];
    entry::placement_session(script, &mut answers);
    answers
}

#[cfg(test)]
mod tests;
