//! The functions that the static libraries export, each with a safe function of the same name.
//!
//! A slice passes as its pointer and its length.

/// The functions as the libraries declare them.
mod raw {
    extern "C" {
        pub fn number_answers(
            bytes: *const u8,
            bytes_length: usize,
            most: u32,
            answers: *mut u64,
            answers_length: usize,
        ) -> usize;

        pub fn read_line(
            line: *const u8,
            line_length: usize,
            numbers: *mut u32,
            numbers_length: usize,
        ) -> u32;

        pub fn run_calls(
            script: *const u8,
            script_length: usize,
            numbers: *mut u16,
            numbers_length: usize,
            entries: *mut u8,
            entries_length: usize,
        ) -> u64;

        pub fn placement_report(
            text: *const u8,
            text_length: usize,
            report: *mut u8,
            report_length: usize,
        ) -> u32;

        pub fn placement_report_under(
            schemes: *const u8,
            schemes_length: usize,
            text: *const u8,
            text_length: usize,
            report: *mut u8,
            report_length: usize,
        ) -> u32;

        pub fn placement_session(
            script: *const u8,
            script_length: usize,
            answers: *mut u8,
            answers_length: usize,
        ) -> usize;

        pub fn session_lent(
            script: *const u8,
            script_length: usize,
            answers: *mut u8,
            answers_length: usize,
        ) -> usize;
    }
}

/// Feeds the bytes to one reader of numbers and writes its answer before the first byte and after each.
///
/// An answer is a number up to `most`, or 2^32 for none. It returns how many were written: one more
/// than there are bytes, or 0 where the buffer is shorter.
pub fn number_answers(bytes: &[u8], most: u32, answers: &mut [u64]) -> usize {
    let (buffer, length) = (answers.as_mut_ptr(), answers.len());
    // SAFETY: both slices are valid for their lengths during the call, and only `answers` is written.
    unsafe { raw::number_answers(bytes.as_ptr(), bytes.len(), most, buffer, length) }
}

/// Reads a line and writes its six numbers; returns 6, or 0 where the buffer is shorter.
pub fn read_line(line: &[u8], numbers: &mut [u32]) -> u32 {
    // SAFETY: both slices are valid for their lengths during the call, and only `numbers` is written.
    unsafe { raw::read_line(line.as_ptr(), line.len(), numbers.as_mut_ptr(), numbers.len()) }
}

/// Runs the calls of a script on a fresh table, as many as there is room for their numbers.
///
/// It writes what each call returned, and every entry where there is room for all, and returns
/// how many entries stand in each list.
pub fn run_calls(script: &[u8], numbers: &mut [u16], entries: &mut [u8]) -> u64 {
    // SAFETY: the slices are valid for their lengths during the call, and `script` is not written.
    unsafe {
        raw::run_calls(
            script.as_ptr(),
            script.len(),
            numbers.as_mut_ptr(),
            numbers.len(),
            entries.as_mut_ptr(),
            entries.len(),
        )
    }
}

/// Runs a whole text on a table of its own; writes the report where the program is accepted.
///
/// It returns 100,000 + the report's length, or the refusal's number x 1,000 + its line, row or parameter.
pub fn placement_report(text: &[u8], report: &mut [u8]) -> u32 {
    // SAFETY: both slices are valid for their lengths during the call, and only `report` is written.
    unsafe { raw::placement_report(text.as_ptr(), text.len(), report.as_mut_ptr(), report.len()) }
}

/// The same under the schemes of a file; a refused file gives its number x 1,000 and leaves the report's bytes.
pub fn placement_report_under(schemes: &[u8], text: &[u8], report: &mut [u8]) -> u32 {
    // SAFETY: the slices are valid for their lengths during the call, and only `report` is written.
    unsafe {
        raw::placement_report_under(
            schemes.as_ptr(),
            schemes.len(),
            text.as_ptr(),
            text.len(),
            report.as_mut_ptr(),
            report.len(),
        )
    }
}

/// Runs the commands of a script on a table of its own; writes all answers where there is room for all.
///
/// It returns the length of all answers.
pub fn placement_session(script: &[u8], answers: &mut [u8]) -> usize {
    let (buffer, length) = (answers.as_mut_ptr(), answers.len());
    // SAFETY: both slices are valid for their lengths during the call, and only `answers` is written.
    unsafe { raw::placement_session(script.as_ptr(), script.len(), buffer, length) }
}

/// The same through the layer that lends the table.
pub fn session_lent(script: &[u8], answers: &mut [u8]) -> usize {
    let (buffer, length) = (answers.as_mut_ptr(), answers.len());
    // SAFETY: both slices are valid for their lengths during the call, and only `answers` is written.
    unsafe { raw::session_lent(script.as_ptr(), script.len(), buffer, length) }
}
