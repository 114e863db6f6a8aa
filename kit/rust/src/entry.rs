//! The archive's entries as safe functions; kit/placement.h says what they do and what their caller owes.

/// The shortest report buffer that the entry for tables takes; no report is longer.
pub const REPORT_LENGTH: usize = 6280;

/// The shortest answer that the entries for dry runs take, in numbers.
pub const ANSWER_LENGTH: usize = 4;

mod raw {
    extern "C" {
        pub fn placement_report(
            text: *const u8,
            text_length: usize,
            report: *mut u8,
            report_length: usize,
        ) -> u32;

        pub fn placement_report_under(
            schemes: *const u8,
            schemes_length: usize,
            text: *const u8,
            text_length: usize,
            report: *mut u8,
            report_length: usize,
        ) -> u32;

        pub fn placement_run(
            text: *const u8,
            text_length: usize,
            numbers: *const u32,
            numbers_length: usize,
            budget: u32,
            answer: *mut u32,
            answer_length: usize,
        ) -> u32;

        pub fn placement_run_under(
            schemes: *const u8,
            schemes_length: usize,
            text: *const u8,
            text_length: usize,
            numbers: *const u32,
            numbers_length: usize,
            budget: u32,
            answer: *mut u32,
            answer_length: usize,
        ) -> u32;

        pub fn placement_session(
            script: *const u8,
            script_length: usize,
            answers: *mut u8,
            answers_length: usize,
        ) -> usize;
    }
}

/// Writes the report of a text to the buffer's front, or refuses it and leaves the buffer as it was.
pub fn placement_report(text: &[u8], report: &mut [u8]) -> u32 {
    // SAFETY: slices are never null, are aligned and valid for their lengths, and a mutable one overlaps no other.
    unsafe { raw::placement_report(text.as_ptr(), text.len(), report.as_mut_ptr(), report.len()) }
}

/// Writes the report of a text under a scheme file to the buffer's front, or refuses the file or the text and leaves the buffer as it was.
pub fn placement_report_under(schemes: &[u8], text: &[u8], report: &mut [u8]) -> u32 {
    // SAFETY: as above.
    unsafe {
        raw::placement_report_under(
            schemes.as_ptr(),
            schemes.len(),
            text.as_ptr(),
            text.len(),
            report.as_mut_ptr(),
            report.len(),
        )
    }
}

/// Runs the job of a text on numbers and writes the answer's front, or refuses a line and leaves the answer as it was.
pub fn placement_run(text: &[u8], numbers: &[u32], budget: u32, answer: &mut [u32]) -> u32 {
    // SAFETY: as above.
    unsafe {
        raw::placement_run(
            text.as_ptr(),
            text.len(),
            numbers.as_ptr(),
            numbers.len(),
            budget,
            answer.as_mut_ptr(),
            answer.len(),
        )
    }
}

/// Runs the job of a text under a scheme file on numbers and writes the answer's front, or refuses the file or a line and leaves the answer as it was.
pub fn placement_run_under(
    schemes: &[u8],
    text: &[u8],
    numbers: &[u32],
    budget: u32,
    answer: &mut [u32],
) -> u32 {
    // SAFETY: as above.
    unsafe {
        raw::placement_run_under(
            schemes.as_ptr(),
            schemes.len(),
            text.as_ptr(),
            text.len(),
            numbers.as_ptr(),
            numbers.len(),
            budget,
            answer.as_mut_ptr(),
            answer.len(),
        )
    }
}

/// Gives the length of all answers to a script; writes them to the buffer's front where there is room for all.
pub fn placement_session(script: &[u8], answers: &mut [u8]) -> usize {
    let (buffer, length) = (answers.as_mut_ptr(), answers.len());
    // SAFETY: as above.
    unsafe { raw::placement_session(script.as_ptr(), script.len(), buffer, length) }
}
