//! The functions of the static library that are measured, each with a safe function of the same name.

/// The functions as the library declares them; a slice passes as its pointer and its length.
mod raw {
    extern "C" {
        pub fn solve_repeatedly(
            text: *const u8,
            text_length: usize,
            times: u32,
            report: *mut u8,
            report_length: usize,
        ) -> u32;

        pub fn infer_repeatedly(
            text: *const u8,
            text_length: usize,
            times: u32,
            report: *mut u8,
            report_length: usize,
        ) -> u32;

        pub fn placement_report(
            text: *const u8,
            text_length: usize,
            report: *mut u8,
            report_length: usize,
        ) -> u32;
    }
}

/// Solves the program of a text so many times, and then answers once as the C entry does.
pub fn solve_repeatedly(text: &[u8], times: u32, report: &mut [u8]) -> u32 {
    let (buffer, length) = (report.as_mut_ptr(), report.len());
    // SAFETY: both slices are valid for their lengths during the call, and only `report` is written.
    unsafe { raw::solve_repeatedly(text.as_ptr(), text.len(), times, buffer, length) }
}

/// The same with the whole infer call: the closed test, the solver and the report.
pub fn infer_repeatedly(text: &[u8], times: u32, report: &mut [u8]) -> u32 {
    let (buffer, length) = (report.as_mut_ptr(), report.len());
    // SAFETY: both slices are valid for their lengths during the call, and only `report` is written.
    unsafe { raw::infer_repeatedly(text.as_ptr(), text.len(), times, buffer, length) }
}

/// The loader's C entry: a text in, a report or a refusal out.
pub fn placement_report(text: &[u8], report: &mut [u8]) -> u32 {
    let (buffer, length) = (report.as_mut_ptr(), report.len());
    // SAFETY: both slices are valid for their lengths during the call, and only `report` is written.
    unsafe { raw::placement_report(text.as_ptr(), text.len(), buffer, length) }
}
