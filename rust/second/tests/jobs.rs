//! Dry runs of random jobs: none is stuck, each ends as its report says, and the plain run goes beside it step by step.

mod literal;

use literal::Literal;
use second::counts::Counts;
use second::dry_run::{start, Ending, Outcome, MOST_CONTEXTS, MOST_STEPS};
use second::expression::Number;
use second::generate::{Job, JobKind, Random};
use second::rows::Term;
use second::transition::{Halt, Reduction, Rules, Step};
use second::typing::Shape;
use second::{dry_run, plain_run, SchemeTable, Table};

/// How many jobs are run with all budgets.
const JOBS: u64 = 24_000;

/// How many jobs are taken for runs that are looked at step by step, and the most steps and nodes that are looked at.
const STEPPED_JOBS: u64 = 6_000;
const MOST_LOOKED_AT: usize = 120;
const MOST_NODES: usize = 1_500;

/// How a run ended, as it is counted: 0 for a number, 1 for a function, otherwise the refusal's number.
fn class(outcome: &Outcome) -> u32 {
    match outcome.ending {
        Ending::Number(_) => 0,
        Ending::Function => 1,
        Ending::Refused(number) => number,
        Ending::Stuck(stuck) => panic!("{stuck:?}"),
    }
}

/// The row under the leading LAMs.
fn body(table: &Table) -> usize {
    let mut row = table.terms.len() - 1;
    while let Term::Lambda { body, .. } = table.terms[row] {
        row = usize::from(body);
    }
    row
}

/// Asserts that a run that came to its end has the tag and the shape that the report gives to the row under the leading LAMs.
fn assert_as_reported(table: &Table, outcome: &Outcome) {
    let expected = match outcome.ending {
        Ending::Number(number) => Some((Some(number.tag), false)),
        Ending::Function => Some((None, true)),
        _ => None,
    };
    if let Some((tag, is_function)) = expected {
        let slot = table.accepted().unwrap().terms[body(table)];
        assert_eq!(slot.shape == Shape::Arrow, is_function);
        assert!(tag.is_none_or(|tag| tag == slot.word));
    }
}

/// Asserts what a budget changes in a run that makes so many steps with the greatest one.
fn assert_cut(outcome: &Outcome, whole: &Outcome, budget: u32) {
    if budget > whole.steps() || whole.ending == Ending::Refused(28) {
        assert_eq!(outcome, whole);
        return;
    }
    assert_eq!(outcome.steps(), budget);
    match whole.ending {
        Ending::Number(_) | Ending::Function if budget == whole.steps() => {
            assert_eq!(outcome, whole);
        }
        _ => assert_eq!(outcome.ending, Ending::Refused(30)),
    }
}

#[test]
fn runs_of_many_jobs_keep_their_promises() {
    let mut random = Random::seeded(1);
    let (mut kinds, mut classes, mut tags) =
        (Counts::default(), Counts::default(), Counts::default());
    // Whether a run that 30 stops with the greatest budget has made all steps of it.
    let mut stopped = Counts::default();
    let (mut accepted, mut runs, mut steps, mut longest) = (0, 0, 0u64, 0);
    for seed in 0..JOBS {
        let job = Job::of_seed(seed);
        let table = job.table();
        let whole = dry_run(&table, &job.numbers, MOST_STEPS);
        assert_as_reported(&table, &whole);
        for budget in job.budgets(&mut random) {
            let outcome = dry_run(&table, &job.numbers, budget);
            assert_cut(&outcome, &whole, budget);
            assert_eq!(plain_run(&table, &job.numbers, budget), outcome.untagged());
            runs += 1;
            steps += u64::from(outcome.steps());
        }
        accepted += u64::from(table.accepted().is_ok());
        kinds.add(job.kind);
        classes.add((job.kind, class(&whole)));
        match class(&whole) {
            0 | 1 => longest = longest.max(whole.steps()),
            30 => stopped.add(whole.steps() == MOST_STEPS),
            _ => {}
        }
        if let (Ending::Number(Number { tag, .. }), None) = (whole.ending, &job.file) {
            tags.add(tag);
        }
    }
    println!("{accepted} of {JOBS} accepted, {runs} runs, {steps} steps, the longest {longest}");
    println!("{:?}\n{:?}\n{:?}", classes.0, tags.0, stopped.0);
    assert!(accepted > JOBS * 19 / 20, "{accepted} of {JOBS} jobs are accepted");
    kinds.assert_each(JobKind::ALL, JOBS as usize / 400);
    for (kind, found) in [
        (JobKind::Straight, &[0, 28, 29][..]),
        (JobKind::Typed, &[0, 1, 28, 29]),
        (JobKind::Counted, &[0, 1, 28, 29, 30]),
        (JobKind::SelfComposed, &[0, 1, 28, 29, 30]),
        (JobKind::Limit, &[0, 28, 29]),
        (JobKind::Program, &[0, 1, 28, 29]),
    ] {
        classes.assert_each(found.iter().map(|&class| (kind, class)), JOBS as usize / 500);
    }
    classes.assert_each([(JobKind::Deep, 0), (JobKind::Deep, 30), (JobKind::Tower, 30)], 30);
    tags.assert_each(SchemeTable::six().qualifiers(), 80);
    stopped.assert_each([false, true], 30);
    assert!(longest > 4_000, "the longest run that comes to its end makes {longest} steps");
}

/// What came of asking for a step.
#[derive(Clone, Copy, Debug, PartialEq, Eq)]
enum End {
    /// It was made, in so many contexts.
    Made(usize, Step),
    /// There is none, as the expression is a value.
    Value,
    /// Its result would pass the greatest number.
    TooLarge,
}

/// Asks for the next step.
fn ask(reduction: &mut Reduction, rules: Rules) -> End {
    let contexts = reduction.contexts();
    if reduction.value().is_some() {
        return End::Value;
    }
    match reduction.step(rules) {
        Ok(step) => End::Made(contexts, step),
        Err(Halt::TooLarge) => End::TooLarge,
        Err(Halt::Stuck(stuck)) => panic!("{stuck:?}"),
    }
}

/// Tells whether a LAM stands inside a copy of itself.
fn has_nested_copies(expression: &Literal, outer: u64) -> bool {
    match expression {
        Literal::Number(_) | Literal::Variable(_) => false,
        Literal::Lambda(own, body) => {
            outer >> own & 1 == 1 || has_nested_copies(body, outer | 1 << own)
        }
        Literal::Apply(left, right) | Literal::Operate(_, left, right) => {
            has_nested_copies(left, outer) || has_nested_copies(right, outer)
        }
    }
}

/// A whole expression as it stands, if it is small.
fn small(reduction: &Reduction) -> Option<Literal> {
    let mut left = MOST_NODES;
    // Contexts are nodes too, and there may be thousands.
    (reduction.contexts() < MOST_NODES)
        .then(|| Literal::of(&reduction.clone().whole(), &mut left))
        .flatten()
}

#[test]
fn each_step_is_the_one_of_the_source_and_the_plain_run_goes_beside_it() {
    let (mut compared, mut nested, mut kinds, mut ended) =
        (0, 0, Counts::default(), Counts::default());
    for seed in 0..STEPPED_JOBS {
        let job = Job::of_seed(JOBS + seed);
        let table = job.table();
        let Some(start) = start(&table, &job.numbers) else {
            continue;
        };
        let schemes = table.schemes();
        let (mut run, mut plain) = (Reduction::of(start.clone()), Reduction::of(start.untagged()));
        let mut expected = Literal::of(&start, &mut 400).unwrap();
        let mut has_nested = false;
        for _ in 0..MOST_LOOKED_AT {
            let (Some(found), Some(found_plain)) = (small(&run), small(&plain)) else {
                break;
            };
            assert_eq!(found, expected, "for the seed {seed}");
            assert_eq!(found_plain, expected.untagged(), "for the seed {seed}");
            has_nested |= has_nested_copies(&expected, 0);
            compared += 1;
            let next = expected.step(schemes);
            let steps = [ask(&mut run, Rules::Tagged(schemes)), ask(&mut plain, Rules::Plain)];
            assert_eq!(steps[0], steps[1], "for the seed {seed}");
            let Some((next, contexts)) = next else {
                assert!(matches!(steps[0], End::Value | End::TooLarge), "for the seed {seed}");
                ended.add(steps[0] == End::Value);
                break;
            };
            assert!(matches!(steps[0], End::Made(it, _) if it == contexts), "for the seed {seed}");
            expected = next;
        }
        kinds.add(job.kind);
        nested += usize::from(has_nested);
    }
    println!("{compared} expressions compared, {nested} jobs with copies inside each other");
    println!("{:?}\n{:?}", kinds.0, ended.0);
    assert!(compared > 60_000, "{compared} expressions are compared");
    assert!(nested > 800, "{nested} jobs have copies inside each other");
    kinds.assert_each(JobKind::ALL, 10);
    ended.assert_each([false, true], 500);
}

#[test]
fn the_deepest_step_of_a_deep_job_stands_in_as_many_contexts_as_are_asked_for() {
    let mut random = Random::seeded(2);
    for contexts in [Job::FEWEST_CONTEXTS, 4_095, 4_096, 4_097, 4_098].into_iter().cycle().take(40)
    {
        let job = Job::deep(&mut random, contexts);
        let table = job.table();
        let mut reduction = Reduction::of(start(&table, &job.numbers).unwrap());
        let mut deepest = 0;
        while let End::Made(depth, _) = ask(&mut reduction, Rules::Tagged(table.schemes())) {
            deepest = deepest.max(depth);
        }
        assert_eq!(deepest, contexts);
        let outcome = dry_run(&table, &job.numbers, MOST_STEPS);
        assert_eq!(class(&outcome), if contexts <= MOST_CONTEXTS { 0 } else { 30 });
        assert!(outcome.steps() < MOST_STEPS);
    }
}

#[test]
fn the_same_seed_gives_the_same_job_and_the_same_budgets() {
    let (mut seen, mut files) = (Counts::default(), 0);
    for seed in 0..300 {
        let (job, again) = (Job::of_seed(seed), Job::of_seed(seed));
        assert_eq!(
            (&job.text, &job.numbers, &job.file),
            (&again.text, &again.numbers, &again.file)
        );
        let budgets = job.budgets(&mut Random::seeded(seed));
        assert_eq!(budgets, again.budgets(&mut Random::seeded(seed)));
        let exact = dry_run(&job.table(), &job.numbers, u32::MAX).steps();
        for budget in [0, 1, exact.saturating_sub(1), exact, exact + 1, MOST_STEPS] {
            assert!(budgets.contains(&budget));
        }
        assert!(budgets.last() > Some(&MOST_STEPS));
        files += usize::from(job.file.is_some());
        seen.add(job.text);
    }
    assert!(seen.0.len() > 290 && (100..200).contains(&files));
}
