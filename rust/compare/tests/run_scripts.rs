//! Scripts with dry runs among their commands: both entries for scripts answer as the reference does.

use compare::answers::{assert_answers, word};
use compare::sessions::schemes_command;
use second::counts::Counts;
use second::generate::{Job, Random};
use second::session::session;
use second::text::lines;

/// How many scripts are compared.
const SCRIPTS: u64 = 3_000;

/// How many bytes of a line decide its answer.
const LINE: usize = 730;

/// Words that are no numbers.
const NO_NUMBERS: [&str; 8] = ["", "-1", "00", "07", "4294967296", "x", "1\t2", "99999999999"];

/// A run's line.
fn run_line(budget: u32, numbers: &[u32]) -> String {
    let words = numbers.iter().map(|number| format!(" {number}"));
    format!("run {budget}{}", words.collect::<String>())
}

/// A line of a run, mostly a right one; else one with a word too many, one too few, or one that is no number.
fn any_run(random: &mut Random, job: &Job, budgets: &[u32]) -> String {
    let line = run_line(*random.pick(budgets).unwrap(), &job.numbers);
    match random.below(8) {
        0 => format!("{line} 1"),
        1 => line.rsplit_once(' ').unwrap().0.to_string(),
        2 => format!("{line} {}", random.pick(&NO_NUMBERS).unwrap()),
        _ => line,
    }
}

/// The script of a job: its schemes, its lines, and runs with other commands between.
fn script(random: &mut Random, job: &Job) -> Vec<u8> {
    let mut script = vec![];
    let mut append = |line: &[u8]| {
        script.extend(line);
        script.push(b'\n');
    };
    if let Some(file) = &job.file {
        append(&schemes_command(file));
    }
    for line in lines(&job.text) {
        append(&[b"add ", line].concat());
    }
    let budgets = job.budgets(random);
    for _ in 0..random.between(2, 8) {
        let line = match random.below(6) {
            0 => "infer".to_string(),
            1 => format!("redeclare {} {}", random.below(3), random.below(9)),
            _ => any_run(random, job, &budgets),
        };
        append(line.as_bytes());
    }
    append(b"take-back");
    append(any_run(random, job, &budgets).as_bytes());
    script
}

/// The first field of an answer to a run.
fn first_field(answer: &str) -> String {
    let fields: Vec<&str> = answer.split(',').collect();
    match fields[..] {
        ["NO", number, ..] => format!("NO,{number}"),
        [first, ..] => first.to_string(),
        [] => unreachable!(),
    }
}

#[test]
fn scripts_with_runs_are_answered_alike() {
    let mut seen: Counts<String> = Counts::default();
    for seed in 0..SCRIPTS {
        let mut random = Random::seeded(seed);
        let job = Job::of_seed(seed);
        let script = script(&mut random, &job);
        let expected = session(&script);
        assert_answers(&format!("the script of seed {seed}"), &script, &expected);
        let runs = lines(&script).filter(|line| word(line) == "run").count();
        let printed = String::from_utf8(expected).unwrap();
        let answers = printed.lines().map(first_field);
        let told: Vec<String> = answers
            .filter(|first| {
                ["NUMBER", "FUNCTION"].contains(&&first[..]) || first.starts_with("NO,")
            })
            .collect();
        assert!(told.len() >= runs, "for seed {seed}");
        told.into_iter().for_each(|first| seen.add(first));
    }
    seen.assert_each(["NUMBER", "FUNCTION", "NO,28", "NO,29", "NO,30"].map(String::from), 20);
}

#[test]
fn lines_of_many_numbers_are_answered_alike() {
    let adds = "add T,0,ANY\nadd P,0,g0,0\nadd E,0,VAR,0\nadd E,1,LAM,0,0\n";
    let mut ends: Vec<String> = NO_NUMBERS.iter().map(|word| format!(" {word}")).collect();
    ends.extend(["", " ", " 1", " 1 1", " 12345678901 1"].map(String::from));
    for count in [0, 1, 2, 63, 64, 65, 66, 67, 200] {
        for number in [0, 7, u32::MAX] {
            for end in &ends {
                let line = format!("{}{end}", run_line(u32::MAX, &vec![number; count]));
                let script = format!("{adds}{line}\ninfer\n");
                assert_answers(&line, script.as_bytes(), &session(script.as_bytes()));
            }
        }
    }
}

#[test]
fn the_first_bytes_of_a_line_decide() {
    let adds = "add E,0,NUM,1\n";
    let longest = run_line(u32::MAX, &[u32::MAX; 65]);
    assert_eq!(longest.len(), LINE - 1);
    for (end, answer) in [
        ("", "NO,28,0,0\n"),
        (" ", "NO,28,0,0\n"),
        (" x", "NO,28,0,0\n"),
        ("5", "?\n"),
        ("x", "?\n"),
    ] {
        let script = format!("{adds}{longest}{end}\n");
        assert_answers(end, script.as_bytes(), format!("0\n{answer}").as_bytes());
    }
}
