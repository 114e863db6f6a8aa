//! Measures the proved library and the rival on the same tables, and compares all their answers.
//!
//! `bench` prints times. `bench write FOLDER` writes every tenth table of each set to a file, and
//! `bench once SIDE WORK FILE TIMES` does one side's work over such a file, so that a tool that
//! counts instructions sees nothing else.

use bench::answers;
use bench::measure::{Sides, Times, Work};
use bench::rival::Rival;
use bench::sets::{self, Sample};
use second::generate::Random;
use std::path::Path;
use std::process::ExitCode;
use std::time::Duration;
use std::{env, fs, io};

/// Tables in each set.
const COUNT: usize = 1_000;

/// One of so many tables is written for counting, as counts hardly differ from run to run.
const WRITTEN: usize = 10;

const SEED: u64 = 1;

/// What is measured on all sets, with the titles.
const WORKS: [(Work, &str); 3] = [
    (Work::Solve, "solver alone"),
    (Work::Infer, "whole infer call"),
    (Work::Report, "whole entry"),
];

const USAGE: &str = "usage: bench | bench write FOLDER | bench once SIDE WORK FILE TIMES
SIDE is proved or rust, WORK is solve, infer or report";

fn main() -> ExitCode {
    let arguments: Vec<String> = env::args().skip(1).collect();
    let arguments: Vec<&str> = arguments.iter().map(String::as_str).collect();
    let done = match *arguments.as_slice() {
        [] => Some(print_times()),
        ["write", folder] => Some(write(Path::new(folder)).is_ok()),
        ["once", side, work, file, times] => once(side, work, file, times),
        _ => None,
    };
    if done.is_none() {
        eprintln!("{USAGE}");
    }
    if done == Some(true) {
        ExitCode::SUCCESS
    } else {
        ExitCode::FAILURE
    }
}

/// All sets with their names.
fn all_sets() -> Vec<(String, Vec<Sample>)> {
    let random = &mut Random::seeded(SEED);
    vec![
        ("A accepted".to_string(), sets::accepted(random, COUNT, 256)),
        ("B refused".to_string(), sets::refused(random, COUNT, 256)),
        ("C deep sharing".to_string(), sets::shared(random, COUNT)),
        ("D full".to_string(), sets::full(random, COUNT)),
        ("E functions only".to_string(), sets::functions_only(random, COUNT)),
        ("F many unknowns".to_string(), sets::long_applications(random, COUNT)),
    ]
}

/// Accepted tables of so many rows.
fn sized_set(rows: usize) -> (String, Vec<Sample>) {
    (format!("{rows} rows"), sets::accepted(&mut Random::seeded(SEED), COUNT / 4, rows))
}

/// Refused tables of 32 rows, where what does not depend on the rows weighs most.
fn small_refused_set() -> (String, Vec<Sample>) {
    ("32 rows, refused".to_string(), sets::refused(&mut Random::seeded(SEED), COUNT / 4, 32))
}

/// Prints the times of all sets; false where an answer differs.
fn print_times() -> bool {
    let sets = all_sets();
    let sized: Vec<_> = [32, 64, 128, 256].map(sized_set).into();
    let small = [small_refused_set()];
    let compared = sets.iter().chain(&sized).chain(&small);
    let differences: usize = compared.map(|(name, set)| compare(name, set)).sum();
    let mut sides = Sides::default();
    for (work, title) in WORKS {
        print_title(title, "us/table");
        for (name, set) in &sets {
            print_line(name, &sides.times(work, set), 1.0);
        }
    }
    print_title("solver, accepted", "ns/row");
    for (name, set) in &sized {
        let rows = set.first().map_or(1, |sample| sample.table.terms.len());
        print_line(name, &sides.times(Work::Solve, set), 1_000.0 / rows as f64);
    }
    print_title("solver, refused", "us/table");
    for (name, set) in &small {
        print_line(name, &sides.times(Work::Solve, set), 1.0);
    }
    differences == 0
}

fn print_title(title: &str, unit: &str) {
    let (proved, rival) = (format!("proved {unit}"), format!("rust {unit}"));
    println!("\n{title:<18}{proved:>16}{rival:>16}{:>8}", "ratio");
}

/// Prints both times, in microseconds times the scale, and their ratio.
fn print_line(name: &str, times: &Times, scale: f64) {
    let scaled = |time: Duration| 1e6 * time.as_secs_f64() * scale;
    let (proved, rival) = (scaled(times.proved), scaled(times.rival));
    println!("{name:<18}{proved:>16.2}{rival:>16.2}{:>8.2}", times.ratio());
}

/// Compares every answer with the second solver's; prints and gives the number of differences.
fn compare(name: &str, set: &[Sample]) -> usize {
    let mut rival = Rival::default();
    let (mut accepted, mut row_sum, mut differences) = (0, 0, 0);
    for sample in set {
        let text = &sample.text;
        let expected = answers::second(text);
        let agree = answers::rival_infer(&mut rival, sample) == expected
            && answers::rival_report(&mut rival, text) == expected
            && answers::proved_solve(text, 1) == expected
            && answers::proved_infer(text, 1) == expected
            && answers::proved_report(text) == expected;
        differences += usize::from(!agree);
        match expected.0 {
            100_000.. => accepted += 1,
            refusal => row_sum += refusal as usize % 1_000,
        }
    }
    let refused = set.len() - accepted;
    let row = row_sum / refused.max(1);
    print!("{name}: {} tables, {accepted} accepted, {refused} refused", set.len());
    println!(" (at row {row} on average), {differences} answered differently");
    differences
}

/// Writes some tables of each set to a file that its letter names; an empty line follows each table.
fn write(folder: &Path) -> io::Result<()> {
    for (name, set) in all_sets() {
        let texts = set.iter().step_by(WRITTEN).map(|sample| sample.text.as_slice());
        let texts: Vec<u8> = texts.flat_map(|text| [text, b"\n"].concat()).collect();
        fs::write(folder.join(&name[..1]), texts)?;
    }
    Ok(())
}

/// Does the work of one side so many times over each table of a file; `None` for wrong arguments.
fn once(side: &str, work: &str, file: &str, times: &str) -> Option<bool> {
    let times = times.parse().ok()?;
    let work = match work {
        "solve" => Work::Solve,
        "infer" => Work::Infer,
        "report" => Work::Report,
        _ => return None,
    };
    let Ok(texts) = fs::read_to_string(file) else {
        return Some(false);
    };
    let mut sides = Sides::default();
    for text in texts.split_terminator("\n\n") {
        let sample = Sample::of_text(text.as_bytes());
        match side {
            "proved" => sides.proved(work, &sample, times),
            "rust" => sides.rival(work, &sample, times),
            _ => return None,
        }
    }
    Some(true)
}
