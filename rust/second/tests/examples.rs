//! Every table of examples/ has the report and the runs that stand beside it, also under scheme files, and every script its answers.

use second::examples::{bytes, files, scheme_files, tables_of};
use second::place::place_on;
use second::run_entry::Written;
use second::{place, run_entry, run_entry_under, session, SchemeTable, Table};

/// Asserts that each file of one kind in a folder gives the file of the other kind that stands beside it.
fn assert_each(folder: &str, given: &str, printed: &str, program: impl Fn(&[u8]) -> Vec<u8>) {
    for path in files(folder, given) {
        let expected = String::from_utf8(bytes(&path.with_extension(printed))).unwrap();
        let found = String::from_utf8(program(&bytes(&path))).unwrap();
        assert_eq!(found, expected, "for {}", path.display());
    }
}

#[test]
fn every_table_has_its_report() {
    assert_each("", "table", "report", place);
}

#[test]
fn every_script_has_its_answers() {
    assert_each("", "script", "answers", session);
    assert_each("schemes", "script", "answers", session);
}

#[test]
fn every_scheme_file_is_refused_by_its_name_or_has_tables_with_reports() {
    for (name, file, number) in scheme_files() {
        let (fresh, found) = Table::fresh_under(&file);
        assert_eq!(found, number, "for {name}");
        if number == 0 {
            assert_each(&tables_of(&name), "table", "report", |it| place_on(fresh.clone(), it));
        }
    }
}

/// The line that stands for what an entry for dry runs returns and writes.
fn run_line(schemes: &SchemeTable, (returned, written): (u32, Option<Written>)) -> String {
    let Some([number, tag, applications, operations]) = written else {
        return format!("X,{},{}", returned / 1_000, returned % 1_000);
    };
    let ending = match returned {
        100_000 => format!("NUMBER,{number},{}", schemes.word(tag.try_into().unwrap())),
        100_001 => "FUNCTION".to_string(),
        _ => format!("NO,{}", returned / 1_000),
    };
    format!("{ending},{applications},{operations}")
}

/// Asserts that each run of a folder prints what stands behind its budget and its numbers.
fn assert_runs(
    folder: &str,
    schemes: &SchemeTable,
    run: impl Fn(&[u8], &[u32], u32) -> (u32, Option<Written>),
) {
    for path in files(folder, "runs") {
        let table = bytes(&path.with_extension("table"));
        for line in String::from_utf8(bytes(&path)).unwrap().lines() {
            let (asked, expected) = line.rsplit_once(' ').unwrap();
            let numbers: Vec<u32> = asked.split(' ').map(|it| it.parse().unwrap()).collect();
            let found = run_line(schemes, run(&table, &numbers[1..], numbers[0]));
            assert_eq!(found, expected, "for {} with {asked}", path.display());
        }
    }
}

#[test]
fn every_run_prints_what_stands_beside_it() {
    assert_runs("", SchemeTable::six(), run_entry);
    for (name, file, number) in scheme_files() {
        if number == 0 {
            let schemes = SchemeTable::open(&file).unwrap();
            assert_runs(&tables_of(&name), &schemes, |text, numbers, budget| {
                run_entry_under(&file, text, numbers, budget)
            });
        }
    }
}
