//! The C entries for dry runs and the reference give the same number and write the same answer for the same job.

use compare::dry_runs::{Run, Tally, ANSWER_LENGTH};
use compare::texts::{large_texts, random_text_under};
use second::counts::Counts;
use second::generate::{accepted_file, text_of_lines, Job, JobKind, Random, SchemeFile};
use second::run_entry::Written;
use second::schemes::SIX_FILE;
use second::{run_entry_under, SchemeTable};

/// How many jobs are compared, each with all its budgets.
const JOBS: u64 = 24_000;

/// How many texts of all kinds are compared.
const TEXTS: usize = 6_000;

/// What is returned for a number and for a function.
const NUMBER: u32 = 100_000;
const FUNCTION: u32 = 100_001;

/// x + x, and (\y. \z. y) x.
const DOUBLE: &str = "T,0,ANY P,0,g0,0 E,0,VAR,0 E,1,VAR,0 E,2,OP,ADD,0,1 E,3,LAM,0,2";
const CONSTANT: &str = "T,0,ANY T,1,ANY T,2,ANY P,0,g0,0 P,1,g1,1 P,2,g2,2
    E,0,VAR,1 E,1,LAM,2,0 E,2,LAM,1,1 E,3,VAR,0 E,4,APP,2,3 E,5,LAM,0,4";

/// Asserts what is returned and written for a program of lines separated by white space, with and without the file of the six.
fn assert_run(lines: &str, numbers: &[u32], budget: u32, returned: u32, written: Written) {
    let (mut random, text) = (Random::seeded(9), text_of_lines(lines));
    for file in [None, Some(SIX_FILE)] {
        let run = Run { file, text: &text, numbers, budget };
        for length in ANSWER_LENGTH..ANSWER_LENGTH + 3 {
            run.assert_answer(&mut random, length, (returned, Some(written)));
        }
    }
}

#[test]
fn worked_out_jobs_are_run() {
    assert_run(DOUBLE, &[21], 2, NUMBER, [42, 5, 1, 1]);
    assert_run(DOUBLE, &[21], u32::MAX, NUMBER, [42, 5, 1, 1]);
    assert_run(DOUBLE, &[21], 1, 30_000, [0, 0, 1, 0]);
    assert_run(DOUBLE, &[21], 0, 30_000, [0; 4]);
    assert_run(DOUBLE, &[2_147_483_647], 9, NUMBER, [4_294_967_294, 5, 1, 1]);
    assert_run(DOUBLE, &[2_147_483_648], 1, 30_000, [0, 0, 1, 0]);
    assert_run(DOUBLE, &[2_147_483_648], 2, 29_000, [0, 0, 1, 0]);
    assert_run(DOUBLE, &[], 9, 28_000, [0; 4]);
    assert_run(DOUBLE, &[1, 2], 9, 28_000, [0; 4]);
    assert_run(DOUBLE, &[1; 100], 9, 28_000, [0; 4]);
    assert_run(CONSTANT, &[1], 2, FUNCTION, [0, 0, 2, 0]);
    assert_run(CONSTANT, &[1], 1, 30_000, [0, 0, 1, 0]);
    assert_run("E,0,NUM,7", &[], 0, NUMBER, [7, 6, 0, 0]);
    assert_run("E,0,NUM,4294967295", &[], 0, NUMBER, [u32::MAX, 6, 0, 0]);
    assert_run("E,0,NUM,7", &[7], 0, 28_000, [0; 4]);
    assert_run("", &[], 9, 28_000, [0; 4]);
    assert_run("E,0,NUM,1 E,1,NUM,2 E,2,APP,0,1", &[], 9, 28_000, [0; 4]);
    assert_run("T,0,INT P,0,g0,0,RAND E,0,VAR,0 E,1,LAM,0,0", &[3], 9, NUMBER, [3, 6, 1, 0]);
    assert_run("T,0,INT P,0,AH,0,RAND E,0,VAR,0 E,1,LAM,0,0", &[3], 9, 28_000, [0; 4]);
    let applied = "T,0,ANY P,0,g0,0 E,0,VAR,0 E,1,NUM,1 E,2,APP,0,1 E,3,LAM,0,2";
    assert_run(applied, &[1], 9, 28_000, [0; 4]);
    // x is no function where it is declared RAND, so that applying it refuses the job.
    assert_run(&applied.replace("g0", "RAND"), &[1], 9, 28_000, [0; 4]);
    let given = "T,0,ANY P,0,RAND,0 E,0,VAR,0 E,1,LAM,0,0";
    assert_run(given, &[3], 9, NUMBER, [3, 6, 1, 0]);
    let less = "T,0,INT P,0,g0,0 E,0,VAR,0 E,1,NUM,9 E,2,OP,LT,0,1 E,3,LAM,0,2";
    assert_run(less, &[8], 9, NUMBER, [1, 0, 1, 1]);
    assert_run(less, &[9], 9, NUMBER, [0, 0, 1, 1]);
}

#[test]
fn deep_jobs_are_run_as_the_reference_runs_them() {
    let (mut random, mut tally) = (Random::seeded(1), Tally::default());
    let depths = [4_094, 4_095, 4_096, 4_097, 4_098];
    for contexts in depths.into_iter().cycle().take(100) {
        let job = Job::deep(&mut random, contexts);
        for budget in job.budgets(&mut random) {
            let returned = tally.compare(&mut random, Run::of(&job, budget));
            let is_plenty = budget >= 10_000 && returned != 11_000;
            let expected = if contexts <= 4_096 { NUMBER } else { 30_000 };
            assert!(!is_plenty || returned == expected);
        }
    }
    tally.finish("deep jobs");
}

#[test]
fn a_short_answer_is_told_before_everything_else() {
    let mut random = Random::seeded(2);
    let texts = [&b"no line"[..], b"", b"E,0,NUM,1\n", &text_of_lines(DOUBLE)];
    for file in [None, Some(SIX_FILE), Some(b""), Some(b"S,A,10000\nS,B,01000\n")] {
        for text in texts {
            for numbers in [&[][..], &[21], &[4_294_967_295], &[1; 70]] {
                for budget in [0, 1, 9, u32::MAX] {
                    let run = Run { file, text, numbers, budget };
                    for length in 0..ANSWER_LENGTH {
                        run.assert_answer(&mut random, length, (11_000, None));
                    }
                }
            }
        }
    }
}

#[test]
fn a_refused_file_or_text_leaves_the_answer() {
    let mut random = Random::seeded(3);
    for (text, returned) in [
        (&b"\n"[..], 1_001),
        (b"E,0,NUM,1\nE,0,NUM,1\n", 2_002),
        (b"T,0,INT\nP,0,AH,1\n", 4_002),
        (b"E,0,VAR,0", 5_001),
        (b"E,0,NUM,1\nE,1,APP,0,1", 6_002),
        (b"E,0,NUM,1\nE,1,APP,0,0", 7_002),
    ] {
        for numbers in [&[][..], &[1], &[1; 65]] {
            let run = Run { file: None, text, numbers, budget: 9 };
            run.assert_answer(&mut random, ANSWER_LENGTH, (returned, None));
            let run = Run { file: Some(SIX_FILE), ..run };
            run.assert_answer(&mut random, ANSWER_LENGTH, (returned, None));
        }
    }
    for _ in 0..2_000 {
        let file = SchemeFile::refused(&mut random);
        let job = Job::of_seed(random.number());
        let run = Run { file: Some(&file.bytes), ..Run::of(&job, 9) };
        run.assert_answer(&mut random, ANSWER_LENGTH, (file.number() * 1_000, None));
    }
}

#[test]
fn many_jobs_are_run_alike() {
    let (mut random, mut tally) = (Random::seeded(4), Tally::default());
    let (mut kinds, mut files) = (Counts::default(), Counts::default());
    for seed in 0..JOBS {
        let job = Job::of_seed(1_000_000 + seed);
        for budget in job.budgets(&mut random) {
            tally.compare(&mut random, Run::of(&job, budget));
        }
        kinds.add(job.kind);
        files.add(job.file.is_some());
    }
    println!("{:?}\n{:?}", kinds.0, files.0);
    tally.finish(&format!("{JOBS} jobs"));
    kinds.assert_each(JobKind::ALL, JOBS as usize / 400);
    files.assert_each([false, true], JOBS as usize / 3);
    let often = JOBS as usize / 10;
    tally.returned.assert_each([NUMBER, FUNCTION, 11_000, 28_000, 29_000, 30_000], often);
}

#[test]
fn texts_of_each_kind_are_run_alike() {
    let (mut random, mut tally) = (Random::seeded(5), Tally::default());
    for _ in 0..TEXTS {
        let file = (!random.one_in(3)).then(|| match random.one_in(8) {
            true => SchemeFile::refused(&mut random).bytes,
            false => accepted_file(&mut random),
        });
        let opened = SchemeTable::open(file.as_deref().unwrap_or(SIX_FILE));
        let schemes = opened.unwrap_or(SchemeTable::six().clone());
        let (_, text) = random_text_under(&mut random, &schemes);
        let numbers: Vec<u32> = (0..random.below(6)).map(|_| random.below(9) as u32).collect();
        let budget = random.below(200) as u32;
        let run = Run { file: file.as_deref(), text: &text, numbers: &numbers, budget };
        tally.compare(&mut random, run);
    }
    for (_, text) in large_texts() {
        tally.compare(&mut random, Run { file: None, text: &text, numbers: &[], budget: 9 });
    }
    tally.finish(&format!("{TEXTS} texts"));
    let lines: usize = tally.returned.0.range(1_000..9_000).map(|(_, count)| count).sum();
    assert!(lines > TEXTS / 4, "{lines} texts are refused at a line");
    tally.returned.assert_each([NUMBER, 25_000, 26_000, 28_000, 11_000], TEXTS / 200);
}

#[test]
fn jobs_are_run_alike_under_the_six_and_under_their_file() {
    let mut random = Random::seeded(6);
    for seed in 0..2_000 {
        let job = Job::of_seed(2_000_000 + seed);
        if job.file.is_some() {
            continue;
        }
        for budget in job.budgets(&mut random) {
            let run = Run::of(&job, budget);
            let expected = run_entry_under(SIX_FILE, &job.text, &job.numbers, budget);
            run.assert_answer(&mut random, ANSWER_LENGTH, expected);
            let under = Run { file: Some(SIX_FILE), ..run };
            under.assert_answer(&mut random, ANSWER_LENGTH, expected);
        }
    }
}
