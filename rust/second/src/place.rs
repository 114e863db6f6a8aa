//! The program `place` and the loader's C entry, each on a whole text.

use crate::inference::Answer;
use crate::report::LONGEST_REPORT;
use crate::table::Table;
use crate::text::lines;

/// What `place` prints when its standard input is this text.
pub fn place(text: &[u8]) -> Vec<u8> {
    place_on(Table::fresh(), text)
}

/// What `place` would print if it had this fresh table.
pub fn place_on(fresh: Table, text: &[u8]) -> Vec<u8> {
    let table = match filled(fresh, text) {
        Ok(table) => table,
        Err((number, line)) => return format!("X,{number},{line}\n").into_bytes(),
    };
    inferred(&table)
}

/// What is printed of an inference: the report, or the line of its refusal with a row or a parameter.
pub fn inferred(table: &Table) -> Vec<u8> {
    let mut report = vec![0; LONGEST_REPORT];
    let Answer { number, row, length } = table.infer(&mut report);
    if number != 0 {
        return format!("NO,{number},{row}\n").into_bytes();
    }
    report.truncate(length as usize);
    report
}

/// What the C entry returns; the buffer is changed only if the program is accepted.
///
/// It is 100,000 + the report's length, or the refusal's number x 1,000 + its line, row or parameter.
pub fn entry(text: &[u8], buffer: &mut [u8]) -> u32 {
    if buffer.len() < LONGEST_REPORT {
        return 11_000;
    }
    entry_on(Table::fresh(), text, buffer)
}

/// What the C entry under a scheme file returns: 25,000, 26,000 or 27,000 where the file is refused, before any line is read.
pub fn entry_under(file: &[u8], text: &[u8], buffer: &mut [u8]) -> u32 {
    if buffer.len() < LONGEST_REPORT {
        return 11_000;
    }
    match Table::fresh_under(file) {
        (fresh, 0) => entry_on(fresh, text, buffer),
        (_, number) => number * 1_000,
    }
}

/// What the entry returns for a text for which this is printed.
pub fn returned_for(printed: &[u8]) -> u32 {
    let text = String::from_utf8_lossy(printed);
    let fields: Vec<&str> = text.trim_end().split(',').collect();
    let number = |place: usize| fields[place].parse::<u32>().expect("a number is printed");
    match fields[0] {
        "OK" => 100_000 + printed.len() as u32,
        _ => number(1) * 1_000 + number(2),
    }
}

/// The refusal's number in what an entry returned, 0 if it accepted.
pub fn number_of(returned: u32) -> u32 {
    match returned {
        100_000.. => 0,
        _ => returned / 1_000,
    }
}

/// What an entry returns for a text on a fresh table and a buffer that is long enough.
fn entry_on(fresh: Table, text: &[u8], buffer: &mut [u8]) -> u32 {
    let table = match filled(fresh, text) {
        Ok(table) => table,
        Err((number, line)) => return number * 1_000 + line,
    };
    let Answer { number, row, length } = table.infer(buffer);
    if number != 0 {
        return number * 1_000 + row;
    }
    100_000 + length
}

/// The table after all lines are added to it, or the first refusal's number and line from 1.
pub(crate) fn filled(mut table: Table, text: &[u8]) -> Result<Table, (u32, u32)> {
    for (number, line) in (1..).zip(lines(text)) {
        let refusal = table.add(line);
        if refusal != 0 {
            return Err((refusal, number));
        }
    }
    Ok(table)
}
