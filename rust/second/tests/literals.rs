//! Literals: a NUM row has type INT under any one qualifier, which only its own operation or application ties.

mod common;

use common::{assert_prints, assert_supported, WORDS};
use second::counts::Counts;
use second::generate::{closed_program, Random};
use second::qualifier::{at_or_below, Qualifier};
use second::rows::Term;
use second::schemes::Code;
use second::typing::{judge, Judgement, NoTyping, Shape, Slot};
use second::Table;

#[test]
fn a_number_follows_its_partner() {
    assert_supported("VAR,0", "NUM,1");
    assert_supported("NUM,1", "VAR,0");
}

#[test]
fn a_number_follows_an_encrypted_number() {
    for (scheme, fits) in
        [("FHE", true), ("OP", false), ("DET", false), ("MH", false), ("AH", true), ("RAND", false)]
    {
        let accepted = format!("OK,0,3 E,0,{scheme},INT E,1,{scheme},INT E,2,{scheme},INT");
        let expected = if fits { &accepted } else { "NO,23,2" };
        for (left, right) in [("ENC", "NUM"), ("NUM", "ENC")] {
            let leaf =
                |word| if word == "ENC" { format!("ENC,{scheme},1") } else { "NUM,1".into() };
            let program = format!("E,0,{} E,1,{} E,2,OP,ADD,0,1", leaf(left), leaf(right));
            assert_prints(&program, expected);
        }
    }
}

#[test]
fn a_number_beside_the_result_of_a_comparison_is_plain() {
    for (comparison, word) in [("EQ", "DET"), ("LT", "OP"), ("GT", "OP")] {
        for operation in ["ADD", "MUL", "EQ", "LT", "GT"] {
            for (left, right) in [(2, 3), (3, 2)] {
                assert_prints(
                    &format!(
                        "E,0,NUM,1 E,1,NUM,2 E,2,OP,{comparison},0,1 E,3,NUM,3
                         E,4,OP,{operation},{left},{right}"
                    ),
                    &format!(
                        "OK,0,5 E,0,{word},INT E,1,{word},INT E,2,PLAIN,INT E,3,PLAIN,INT
                         E,4,PLAIN,INT"
                    ),
                );
            }
        }
    }
}

#[test]
fn numbers_of_two_operations_share_nothing() {
    // A comparison's result is PLAIN whatever its operands are.
    assert_prints(
        "E,0,NUM,1 E,1,NUM,1 E,2,OP,LT,0,1 E,3,NUM,1 E,4,NUM,1 E,5,OP,EQ,3,4 E,6,OP,ADD,2,5
         E,7,NUM,1 E,8,OP,MUL,6,7",
        "OK,0,9 E,0,OP,INT E,1,OP,INT E,2,PLAIN,INT E,3,DET,INT E,4,DET,INT E,5,PLAIN,INT
         E,6,PLAIN,INT E,7,PLAIN,INT E,8,PLAIN,INT",
    );
}

#[test]
fn numbers_of_one_sum_have_one_qualifier() {
    // The last operand decides for the first: AH or FHE, and MH supports no sum.
    let program = |last: &str| {
        format!(
            "E,0,NUM,1 E,1,NUM,2 E,2,OP,ADD,0,1 E,3,NUM,3 E,4,OP,ADD,2,3 E,5,{last} E,6,OP,ADD,4,5"
        )
    };
    let report = |word: &str| {
        let rows = (0..7).map(|row| format!(" E,{row},{word},INT"));
        format!("OK,0,7{}", rows.collect::<String>())
    };
    assert_prints(&program("NUM,4"), &report("AH"));
    assert_prints(&program("ENC,AH,4"), &report("AH"));
    assert_prints(&program("ENC,FHE,4"), &report("FHE"));
    assert_prints(&program("ENC,MH,4"), "NO,23,6");
}

#[test]
fn an_unused_number_is_rand() {
    assert_prints("E,0,NUM,0", "OK,0,1 E,0,RAND,INT");
    // The body of a LAM of each parameter, and the argument of a function that ignores it.
    for word in WORDS {
        let declared = format!("T,0,ANY P,0,{word},0");
        // What a scheme stands with is no function.
        let shape = if word == "PLAIN" { "ANY" } else { "INT" };
        assert_prints(
            &format!("{declared} E,0,NUM,1 E,1,LAM,0,0"),
            &format!("OK,1,2 P,0,{word},{shape} E,0,RAND,INT E,1,PLAIN,ARROW"),
        );
        assert_prints(
            &format!("{declared} E,0,NUM,1 E,1,LAM,0,0 E,2,NUM,2 E,3,APP,1,2"),
            &format!(
                "OK,1,4 P,0,{word},INT E,0,RAND,INT E,1,PLAIN,ARROW E,2,{word},INT E,3,RAND,INT"
            ),
        );
    }
}

#[test]
fn a_body_gives_its_qualifier_to_the_result() {
    // The result is an operand of LT, so that the body is OP; the argument is ignored.
    assert_prints(
        "T,0,ANY P,0,g0,0 E,0,NUM,1 E,1,LAM,0,0 E,2,NUM,2 E,3,APP,1,2 E,4,ENC,OP,3 E,5,OP,LT,4,3",
        "OK,1,6 G,0,RAND P,0,RAND,INT E,0,OP,INT E,1,PLAIN,ARROW E,2,RAND,INT E,3,OP,INT E,4,OP,INT
         E,5,PLAIN,INT",
    );
    // A declared arrow has the result MH, which a number can have and a comparison's result cannot.
    let program = |body: &str, rows: [usize; 4]| {
        let [last, lambda, function, result] = rows;
        format!(
            "T,0,INT T,1,ARROW,g0,0,MH,0 P,0,g1,1 P,1,g0,0 {body} E,{lambda},LAM,1,{last}
             E,{function},VAR,0 E,{result},LAM,0,{function} E,{0},APP,{result},{lambda}",
            result + 1
        )
    };
    assert_prints(
        &program("E,0,NUM,1", [0, 1, 2, 3]),
        "OK,2,5 G,0,RAND G,1,PLAIN P,0,PLAIN,ARROW P,1,RAND,INT E,0,MH,INT E,1,PLAIN,ARROW
         E,2,PLAIN,ARROW E,3,PLAIN,ARROW E,4,PLAIN,ARROW",
    );
    assert_prints(&program("E,0,NUM,1 E,1,NUM,1 E,2,OP,EQ,0,1", [2, 3, 4, 5]), "NO,22,6");
}

#[test]
fn an_application_ties_a_number_to_the_parameter() {
    // f NUM where f is x + NUM: the argument has the qualifier of x.
    assert_prints(
        "T,0,ANY T,1,ANY P,0,g0,0 P,1,g1,1 E,0,VAR,0 E,1,NUM,1 E,2,APP,0,1 E,3,LAM,0,2
         E,4,VAR,1 E,5,NUM,2 E,6,OP,ADD,4,5 E,7,LAM,1,6 E,8,APP,3,7",
        "OK,2,9 G,0,PLAIN G,1,AH P,0,PLAIN,ARROW P,1,AH,INT E,0,PLAIN,ARROW E,1,AH,INT E,2,AH,INT
         E,3,PLAIN,ARROW E,4,AH,INT E,5,AH,INT E,6,AH,INT E,7,PLAIN,ARROW E,8,AH,INT",
    );
    // Both arguments of f have the named variable g1, which LT limits elsewhere.
    assert_prints(
        "T,0,INT T,1,ARROW,g1,0,g2,0 P,0,g0,1 P,1,g1,0
         E,0,VAR,0 E,1,NUM,1 E,2,APP,0,1 E,3,VAR,0 E,4,NUM,2 E,5,APP,3,4 E,6,OP,EQ,2,5
         E,7,VAR,1 E,8,VAR,1 E,9,OP,LT,7,8 E,10,OP,ADD,6,9 E,11,LAM,1,10 E,12,LAM,0,11",
        "OK,2,13 G,0,PLAIN G,1,OP G,2,DET P,0,PLAIN,ARROW P,1,OP,INT
         E,0,PLAIN,ARROW E,1,OP,INT E,2,DET,INT E,3,PLAIN,ARROW E,4,OP,INT E,5,DET,INT
         E,6,PLAIN,INT E,7,OP,INT E,8,OP,INT E,9,PLAIN,INT E,10,PLAIN,INT E,11,PLAIN,ARROW
         E,12,PLAIN,ARROW",
    );
}

#[test]
fn a_number_is_still_an_integer() {
    assert_prints("E,0,NUM,1 E,1,NUM,1 E,2,APP,0,1", "NO,21,2");
    let declared = "T,0,INT T,1,ARROW,g0,0,g1,0 P,0,g2,1 P,1,g3,0";
    // A number as the argument of a function of functions, and a function beside a number.
    assert_prints(
        &format!("{declared} E,0,NUM,1 E,1,LAM,0,0 E,2,NUM,1 E,3,APP,1,2 E,4,LAM,1,3"),
        "NO,21,3",
    );
    assert_prints(
        &format!("{declared} E,0,VAR,0 E,1,NUM,1 E,2,OP,EQ,0,1 E,3,LAM,0,2 E,4,LAM,1,3"),
        "NO,21,2",
    );
}

/// The rows that are numbers.
fn number_rows(table: &Table) -> Vec<usize> {
    let is_number = |row: &usize| matches!(table.terms[*row], Term::Number { .. });
    (0..table.terms.len()).filter(is_number).collect()
}

/// The tables in which each number has one fixed qualifier, for every choice of them.
///
/// The rule of ENC fixes a qualifier; no line declares one with PLAIN, but the rule holds for it too.
fn fixed_tables(table: &Table) -> Vec<Table> {
    let mut tables = vec![table.clone()];
    for row in number_rows(table) {
        let fixed = |table: Table| {
            Qualifier::ALL.map(|scheme| {
                let mut fixed = table.clone();
                fixed.terms[row] = Term::Encrypted { scheme: scheme.code(), value: 1 };
                fixed
            })
        };
        tables = tables.into_iter().flat_map(fixed).collect();
    }
    tables
}

/// Tells whether all words of a judgement are at or below those of another.
fn all_at_or_below(lower: &Judgement, upper: &Judgement) -> bool {
    let words = |judgement: &Judgement| -> Vec<Code> {
        let slots = judgement.params.iter().chain(&judgement.terms).map(|slot| slot.word);
        judgement.variables.iter().map(|&(_, word)| word).chain(slots).collect()
    };
    let qualifier = |code: Code| Qualifier::ALL[usize::from(code)];
    let mut pairs = words(lower).into_iter().zip(words(upper));
    pairs.all(|(lower, upper)| at_or_below(qualifier(lower), qualifier(upper)))
}

/// The shape of a slot that has these shapes in parts of the typings.
fn united(one: Shape, other: Shape) -> Shape {
    match one == other {
        true => one,
        false => Shape::Any,
    }
}

/// The words of the greatest of several judgements, with the shapes that all of them leave.
fn united_judgement(judgements: &[Judgement]) -> Judgement {
    let is_greatest = |upper: &&Judgement| judgements.iter().all(|it| all_at_or_below(it, upper));
    let greatest = judgements.iter().find(is_greatest).expect("one is the greatest");
    let mut all = greatest.clone();
    let unite = |slots: &mut [Slot], others: &[Slot]| {
        let pairs = slots.iter_mut().zip(others);
        pairs.for_each(|(slot, other)| slot.shape = united(slot.shape, other.shape));
    };
    for judgement in judgements {
        unite(&mut all.params, &judgement.params);
        unite(&mut all.terms, &judgement.terms);
    }
    all
}

/// Asserts that a table's typings are those of the tables in which each number has one fixed qualifier.
///
/// Gives 0 where it has typings, otherwise the refusal's number.
fn assert_judged_by_choices(table: &Table) -> u32 {
    let (mut accepted, mut refused) = (vec![], vec![]);
    for fixed in fixed_tables(table) {
        match judge(&fixed) {
            Ok(judgement) => accepted.push(judgement),
            Err(refusal) => refused.push(refusal),
        }
    }
    match judge(table) {
        Ok(judgement) => {
            assert_eq!(judgement, united_judgement(&accepted), "in {table:?}");
            0
        }
        Err(NoTyping { number, row }) => {
            let last = refused.iter().max_by_key(|refusal| (refusal.row, refusal.number)).unwrap();
            assert_eq!((accepted.len(), row), (0, last.row), "in {table:?}");
            // A table that breaks a bound before may get past this row without bounds.
            let same = number == last.number || (number, last.number) == (23, 22);
            assert!(same, "{number} and not {} in {table:?}", last.number);
            number
        }
    }
}

#[test]
fn a_number_has_any_one_fixed_qualifier() {
    let mut random = Random::seeded(46);
    let mut counts = Counts::default();
    for _ in 0..3_000 {
        let rows = random.between(1, 30);
        let table = closed_program(&mut random, rows).table();
        if (1..=2).contains(&number_rows(&table).len()) {
            counts.add(assert_judged_by_choices(&table));
        }
    }
    assert!(counts.0.keys().eq(&[0, 21, 22, 23]), "{counts:?}");
    counts.assert_each([0], 400);
    counts.assert_each([21, 22, 23], 50);
}

/// Tells whether a row is an operation with a number as an operand.
fn has_number_operand(table: &Table, row: u32) -> bool {
    let is_number = |child: u16| matches!(table.terms[usize::from(child)], Term::Number { .. });
    let term = table.terms[row as usize];
    matches!(term, Term::Operate { .. }) && term.children().any(is_number)
}

#[test]
fn an_operation_on_a_number_never_mixes_constants() {
    // The number takes the other operand's qualifier, so only shapes and the bound are left to refuse it.
    let mut random = Random::seeded(49);
    let mut counts = Counts::default();
    for _ in 0..6_000 {
        let rows = random.between(1, 60);
        let table = closed_program(&mut random, rows).table();
        if let Err(NoTyping { number, row }) = judge(&table) {
            if has_number_operand(&table, row) {
                counts.add(number);
            }
        }
    }
    assert!(counts.0.keys().eq(&[21, 23]), "{counts:?}");
    counts.assert_each([21, 23], 25);
}
