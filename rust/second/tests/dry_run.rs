//! Dry runs worked out by hand: outcomes and counts of steps, the order of steps, tags, budgets, contexts, refusals.

mod common;

use common::{table, text};
use second::dry_run::{start, Ending, Outcome};
use second::expression::{Expression, Number};
use second::schemes::Code;
use second::transition::{Halt, Reduction, Rules, Step, Stuck};
use second::{dry_run, plain_run, run_entry, run_entry_under, SchemeTable, Table};

/// More steps than a run makes.
const PLENTY: u32 = 20_000;

/// The code of a word of the six.
fn code(word: &str) -> Code {
    SchemeTable::six().of_word(word.as_bytes()).unwrap()
}

/// A number under a word of the six, with the applications and the operations made.
fn number(value: u32, word: &str, applications: u32, operations: u32) -> Outcome {
    let ending = Ending::Number(Number { value, tag: code(word) });
    Outcome { ending, applications, operations }
}

/// A function, with the applications and the operations made.
fn function(applications: u32, operations: u32) -> Outcome {
    Outcome { ending: Ending::Function, applications, operations }
}

/// A refusal, with the applications and the operations made.
fn refused(refusal: u32, applications: u32, operations: u32) -> Outcome {
    Outcome { ending: Ending::Refused(refusal), applications, operations }
}

/// Asserts the outcome of a run, and that the plain run has the same one but for the tag.
fn assert_run(table: &Table, numbers: &[u32], budget: u32, expected: Outcome) {
    assert_eq!(dry_run(table, numbers, budget), expected, "for {numbers:?} and {budget} steps");
    assert_eq!(plain_run(table, numbers, budget), expected.untagged());
}

/// Asserts the outcome of a run that comes to its end or to 29 after so many steps: with fewer it is refused with 30.
fn assert_whole_run(table: &Table, numbers: &[u32], expected: Outcome) {
    let steps = expected.steps();
    // The step that 29 refuses is not counted, but looked at.
    let needed = if expected.ending == Ending::Refused(29) { steps + 1 } else { steps };
    for budget in [needed, needed + 1, 10_000, 10_001, PLENTY, u32::MAX] {
        assert_run(table, numbers, budget, expected);
    }
    for budget in 0..needed.min(50) {
        let outcome = dry_run(table, numbers, budget);
        assert_eq!((outcome.ending, outcome.steps()), (Ending::Refused(30), budget));
    }
}

/// x + x.
fn double() -> Table {
    table("T,0,ANY P,0,g0,0 E,0,VAR,0 E,1,VAR,0 E,2,OP,ADD,0,1 E,3,LAM,0,2")
}

/// An operation on x and y.
fn x_and_y(operation: &str) -> Table {
    table(&format!(
        "T,0,ANY T,1,ANY P,0,g0,0 P,1,g1,1
         E,0,VAR,0 E,1,VAR,1 E,2,OP,{operation},0,1 E,3,LAM,1,2 E,4,LAM,0,3"
    ))
}

#[test]
fn x_plus_x_makes_one_application_and_one_operation() {
    assert_whole_run(&double(), &[21], number(42, "AH", 1, 1));
    assert_run(&double(), &[21], 0, refused(30, 0, 0));
    assert_run(&double(), &[21], 1, refused(30, 1, 0));
    assert_run(&double(), &[21], 2, number(42, "AH", 1, 1));
}

#[test]
fn a_result_may_be_4294967295_and_no_more() {
    let half = 2_147_483_648;
    assert_whole_run(&double(), &[half - 1], number(4_294_967_294, "AH", 1, 1));
    assert_run(&double(), &[half], 0, refused(30, 0, 0));
    assert_run(&double(), &[half], 1, refused(30, 1, 0));
    assert_run(&double(), &[half], 2, refused(29, 1, 0));
    assert_whole_run(&double(), &[half], refused(29, 1, 0));
    let (sum, product) = (x_and_y("ADD"), x_and_y("MUL"));
    assert_whole_run(&sum, &[half, half - 1], number(u32::MAX, "AH", 2, 1));
    assert_whole_run(&sum, &[u32::MAX, 0], number(u32::MAX, "AH", 2, 1));
    assert_whole_run(&sum, &[u32::MAX, 1], refused(29, 2, 0));
    assert_whole_run(&sum, &[u32::MAX, u32::MAX], refused(29, 2, 0));
    assert_whole_run(&product, &[65_535, 65_537], number(u32::MAX, "MH", 2, 1));
    assert_whole_run(&product, &[65_536, 65_536], refused(29, 2, 0));
    assert_whole_run(&product, &[u32::MAX, u32::MAX], refused(29, 2, 0));
    assert_whole_run(&product, &[u32::MAX, 0], number(0, "MH", 2, 1));
}

#[test]
fn a_value_is_over_at_once() {
    // Nothing is asked of the number, so that its word is RAND.
    assert_run(&table("E,0,NUM,7"), &[], 0, number(7, "RAND", 0, 0));
    assert_run(&table("E,0,NUM,4294967295"), &[], 0, number(u32::MAX, "RAND", 0, 0));
    assert_run(&table("E,0,ENC,MH,7"), &[], 0, number(7, "MH", 0, 0));
    assert_whole_run(&table("E,0,NUM,7"), &[], number(7, "RAND", 0, 0));
}

#[test]
fn numbers_are_taken_from_the_outermost_lam_on() {
    // The LAM of parameter 0 is the outermost, whatever the parameters' numbers are.
    assert_whole_run(&x_and_y("LT"), &[1, 2], number(1, "PLAIN", 2, 1));
    assert_whole_run(&x_and_y("LT"), &[2, 1], number(0, "PLAIN", 2, 1));
    let other = "T,0,ANY T,1,ANY P,0,g0,0 P,1,g1,1
         E,0,VAR,0 E,1,VAR,1 E,2,OP,LT,0,1 E,3,LAM,0,2 E,4,LAM,1,3";
    assert_whole_run(&table(other), &[1, 2], number(0, "PLAIN", 2, 1));
}

#[test]
fn a_comparison_gives_1_or_0_without_a_tag() {
    for (operation, results) in [("EQ", [0, 1, 0]), ("LT", [1, 0, 0]), ("GT", [0, 0, 1])] {
        for (x, result) in [4, 5, 6].into_iter().zip(results) {
            assert_whole_run(&x_and_y(operation), &[x, 5], number(result, "PLAIN", 2, 1));
        }
    }
    // The sum of two comparisons is PLAIN, and so is what it meets.
    let sum = table(
        "T,0,ANY P,0,g0,0 E,0,VAR,0 E,1,NUM,5 E,2,OP,LT,0,1 E,3,VAR,0 E,4,NUM,9 E,5,OP,LT,3,4
         E,6,OP,ADD,2,5 E,7,NUM,10 E,8,OP,MUL,6,7 E,9,LAM,0,8",
    );
    assert_whole_run(&sum, &[3], number(20, "PLAIN", 1, 4));
    assert_whole_run(&sum, &[7], number(10, "PLAIN", 1, 4));
}

#[test]
fn a_number_carries_the_reported_word() {
    for (declared, operation, word) in [
        ("g0", "ADD", "AH"),
        ("FHE", "ADD", "FHE"),
        ("PLAIN", "ADD", "PLAIN"),
        ("g0", "MUL", "MH"),
        ("FHE", "MUL", "FHE"),
        ("AH", "ADD", "AH"),
        ("MH", "MUL", "MH"),
    ] {
        // The literal has the word of x, which it meets.
        let sum = table(&format!(
            "T,0,INT P,0,{declared},0 E,0,NUM,7 E,1,VAR,0 E,2,OP,{operation},0,1 E,3,LAM,0,2"
        ));
        let result = if operation == "ADD" { 17 } else { 70 };
        assert_whole_run(&sum, &[10], number(result, word, 1, 1));
    }
    // x is ANY and RAND, and the literal under its LAM is RAND whatever x is.
    let identity = table("T,0,ANY P,0,g0,0 E,0,VAR,0 E,1,LAM,0,0");
    assert_whole_run(&identity, &[5], number(5, "RAND", 1, 0));
    let constant = table("T,0,ANY P,0,AH,0 E,0,NUM,7 E,1,LAM,0,0");
    assert_whole_run(&constant, &[5], number(7, "RAND", 1, 0));
    let encrypted = table("T,0,ANY P,0,AH,0 E,0,ENC,DET,7 E,1,LAM,0,0");
    assert_whole_run(&encrypted, &[5], number(7, "DET", 1, 0));
    // A function of AH makes AH of the literal that it is applied to.
    let applied = table("T,0,INT P,0,AH,0 E,0,VAR,0 E,1,LAM,0,0 E,2,NUM,6 E,3,APP,1,2");
    assert_whole_run(&applied, &[], number(6, "AH", 1, 0));
}

#[test]
fn a_redeclaration_changes_the_tags() {
    let mut table = double();
    for word in ["FHE", "PLAIN", "AH"] {
        assert_eq!(table.redeclare(0, code(word).into()), 0);
        assert_whole_run(&table, &[4], number(8, word, 1, 1));
    }
    assert_eq!(table.redeclare(0, code("DET").into()), 0);
    assert_run(&table, &[4], PLENTY, refused(28, 0, 0));
}

#[test]
fn a_job_can_end_with_a_function() {
    // (\y. \z. y) x
    let constant = table(
        "T,0,ANY T,1,ANY T,2,ANY P,0,g0,0 P,1,g1,1 P,2,g2,2
         E,0,VAR,1 E,1,LAM,2,0 E,2,LAM,1,1 E,3,VAR,0 E,4,APP,2,3 E,5,LAM,0,4",
    );
    assert_whole_run(&constant, &[1], function(2, 0));
    // (\y. \z. 4294967295 + y) 1: nothing is reduced under a LAM.
    let overflow = table(
        "T,0,ANY T,1,ANY P,0,g0,0 P,1,g1,1 E,0,NUM,4294967295 E,1,VAR,0 E,2,OP,ADD,0,1
         E,3,LAM,1,2 E,4,LAM,0,3 E,5,NUM,1 E,6,APP,4,5",
    );
    assert_whole_run(&overflow, &[], function(1, 0));
}

#[test]
fn arguments_are_values_even_where_they_are_not_used() {
    // (\x. 1) (4294967295 + y)
    let table = table(
        "T,0,ANY T,1,ANY P,0,g0,0 P,1,g1,1 E,0,NUM,1 E,1,LAM,0,0 E,2,NUM,4294967295 E,3,VAR,1
         E,4,OP,ADD,2,3 E,5,APP,1,4 E,6,LAM,1,5",
    );
    assert_whole_run(&table, &[1], refused(29, 1, 0));
    assert_whole_run(&table, &[0], number(1, "RAND", 2, 1));
}

#[test]
fn steps_are_made_from_left_to_right() {
    // (x + 1) + ((x + x) + x), whose left and whose right operand may pass the limit first.
    let sums = table(
        "T,0,ANY P,0,g0,0 E,0,VAR,0 E,1,NUM,1 E,2,OP,ADD,0,1
         E,3,VAR,0 E,4,VAR,0 E,5,OP,ADD,3,4 E,6,VAR,0 E,7,OP,ADD,5,6 E,8,OP,ADD,2,7 E,9,LAM,0,8",
    );
    assert_whole_run(&sums, &[u32::MAX], refused(29, 1, 0));
    assert_whole_run(&sums, &[2_147_483_648], refused(29, 1, 1));
    assert_whole_run(&sums, &[1_500_000_000], refused(29, 1, 2));
    assert_whole_run(&sums, &[1_200_000_000], refused(29, 1, 3));
    assert_whole_run(&sums, &[1_000], number(4_001, "AH", 1, 4));
    // ((\a. \b. b) (x + 1)) (x + x): the function first, then the argument, then both applications.
    let applied = table(
        "T,0,ANY T,1,ANY T,2,ANY P,0,g0,0 P,1,g1,1 P,2,g2,2
         E,0,VAR,2 E,1,LAM,2,0 E,2,LAM,1,1 E,3,VAR,0 E,4,NUM,1 E,5,OP,ADD,3,4 E,6,APP,2,5
         E,7,VAR,0 E,8,VAR,0 E,9,OP,ADD,7,8 E,10,APP,6,9 E,11,LAM,0,10",
    );
    assert_whole_run(&applied, &[u32::MAX], refused(29, 1, 0));
    assert_whole_run(&applied, &[2_147_483_648], refused(29, 2, 1));
    assert_whole_run(&applied, &[8], number(16, "AH", 3, 2));
}

/// (\t. \k. t (t k)) (\h. \x. h (x + 1)) (\y. y) n
fn composed_with_itself() -> Table {
    let parameters: String =
        (0..6).map(|own| format!("T,{own},ANY P,{own},g{own},{own} ")).collect();
    table(&format!(
        "{parameters} E,0,VAR,1 E,1,VAR,1 E,2,VAR,2 E,3,APP,1,2 E,4,APP,0,3 E,5,LAM,2,4 E,6,LAM,1,5
         E,7,VAR,3 E,8,VAR,4 E,9,NUM,1 E,10,OP,ADD,8,9 E,11,APP,7,10 E,12,LAM,4,11 E,13,LAM,3,12
         E,14,APP,6,13 E,15,VAR,5 E,16,LAM,5,15 E,17,APP,14,16 E,18,VAR,0 E,19,APP,17,18
         E,20,LAM,0,19"
    ))
}

#[test]
fn a_copy_of_a_lam_inside_itself_has_a_parameter_of_its_own() {
    // After five steps stands (\x. (\x. (\y. y) (x + 1)) (x + 1)) n. If n were put in under the inner LAM too, the end were n + 1.
    assert_whole_run(&composed_with_itself(), &[5], number(7, "AH", 8, 2));
}

#[test]
fn each_step_has_its_contexts_and_its_kind() {
    let table = composed_with_itself();
    let mut reduction = Reduction::of(start(&table, &[5]).unwrap());
    let (rules, application) = (Rules::Tagged(table.schemes()), Step::Application);
    for (contexts, step) in [
        (0, application),     // (\n. ...) 5
        (2, application),     // t is put in, in [] (\y. y) and [] 5
        (1, application),     // k is put in, in [] 5
        (2, application),     // the inner t k, in [] 5 and t []
        (1, application),     // the outer one
        (0, application),     // (\x. (\x. ...) (x + 1)) 5
        (1, Step::Operation), // 5 + 1, in (\x. ...) []
        (0, application),
        (1, Step::Operation), // 6 + 1, in (\y. y) []
        (0, application),
    ] {
        assert!(reduction.value().is_none());
        assert_eq!(reduction.contexts(), contexts);
        assert_eq!(reduction.step(rules), Ok(step));
    }
    assert!(reduction.value().is_some());
    assert_eq!(reduction.contexts(), 0);
}

/// Rows that are numbered as they come.
#[derive(Default)]
struct Rows {
    lines: String,
    rows: usize,
    parameters: usize,
}

impl Rows {
    /// Appends a row with these fields after its number; gives the number.
    fn push(&mut self, fields: String) -> usize {
        self.lines += &format!(" E,{},{fields}", self.rows);
        self.rows += 1;
        self.rows - 1
    }

    /// Declares a parameter.
    fn parameter(&mut self) -> usize {
        let own = self.parameters;
        self.lines += &format!(" T,{own},ANY P,{own},g{own},{own}");
        self.parameters += 1;
        own
    }

    fn variable(&mut self, parameter: usize) -> usize {
        self.push(format!("VAR,{parameter}"))
    }

    fn number(&mut self, value: usize) -> usize {
        self.push(format!("NUM,{value}"))
    }

    fn apply(&mut self, function: usize, argument: usize) -> usize {
        self.push(format!("APP,{function},{argument}"))
    }

    fn add(&mut self, left: usize, right: usize) -> usize {
        self.push(format!("OP,ADD,{left},{right}"))
    }

    fn lambda(&mut self, parameter: usize, body: usize) -> usize {
        self.push(format!("LAM,{parameter},{body}"))
    }

    /// \f. \x. f (f (... x)), with f so many times.
    fn numeral(&mut self, times: usize) -> usize {
        let (function, start) = (self.parameter(), self.parameter());
        let mut row = self.variable(start);
        for _ in 0..times {
            let applied = self.variable(function);
            row = self.apply(applied, row);
        }
        let row = self.lambda(start, row);
        self.lambda(function, row)
    }

    /// This number and this row added, so many times.
    fn added(&mut self, value: usize, mut row: usize, times: usize) -> usize {
        for _ in 0..times {
            let number = self.number(value);
            row = self.add(number, row);
        }
        row
    }

    /// \x. x
    fn identity(&mut self) -> usize {
        let own = self.parameter();
        let body = self.variable(own);
        self.lambda(own, body)
    }

    fn table(&self) -> Table {
        table(&self.lines)
    }
}

/// A job in which an innermost function, mostly \x. x, is applied in 15 · 17 · 16 = 4,080 contexts and so many more.
///
/// 1 + (1 + (... (15 (17 F) (\x. x) n))) with F = \h. \x. 1 + (1 + (... (h x))), 16 times.
fn deep(more: usize, innermost: impl Fn(&mut Rows) -> usize) -> Table {
    let mut rows = Rows::default();
    let (number, function, x) = (rows.parameter(), rows.parameter(), rows.parameter());
    let (applied, argument) = (rows.variable(function), rows.variable(x));
    let inner = rows.apply(applied, argument);
    let sums = rows.added(1, inner, 16);
    let body = rows.lambda(x, sums);
    let function = rows.lambda(function, body);
    let many = rows.numeral(17);
    let many = rows.apply(many, function);
    let times = rows.numeral(15);
    let iterated = rows.apply(times, many);
    let innermost = innermost(&mut rows);
    let iterated = rows.apply(iterated, innermost);
    let argument = rows.variable(number);
    let whole = rows.apply(iterated, argument);
    let whole = rows.added(1, whole, more);
    rows.lambda(number, whole);
    rows.table()
}

/// The applications of that job: the leading LAM; 17 F; 15 (17 F); that applied to \x. x, with 15 · (1 + 17) applications; the
/// 255 results of F; \x. x.
const DEEP_APPLICATIONS: u32 = 1 + 1 + 1 + 1 + 15 * 18 + 255 + 1;

#[test]
fn at_most_4096_contexts_stand_around_a_step() {
    let all = DEEP_APPLICATIONS;
    for (more, contexts) in [(0, 4_080), (15, 4_095), (16, 4_096)] {
        let table = deep(more, Rows::identity);
        assert_whole_run(&table, &[5], number(5 + contexts, "AH", all, contexts));
    }
    // The step before the deepest one stands in 16 contexts less.
    for (more, made) in [(17, all - 1), (18, all - 1), (32, all - 1), (33, all - 2)] {
        let table = deep(more, Rows::identity);
        for budget in [made, made + 1, 10_000, PLENTY] {
            assert_run(&table, &[5], budget, refused(30, made, 0));
        }
        assert_run(&table, &[5], made - 1, refused(30, made - 1, 0));
    }
}

#[test]
fn the_contexts_are_looked_at_before_the_result() {
    // \x. 0 + (4294967295 + x): the operation that passes the limit stands in one context more than the application.
    let overflow = |rows: &mut Rows| {
        let own = rows.parameter();
        let argument = rows.variable(own);
        let sum = rows.added(4_294_967_295, argument, 1);
        let sum = rows.added(0, sum, 1);
        rows.lambda(own, sum)
    };
    let all = DEEP_APPLICATIONS;
    assert_run(&deep(15, overflow), &[1], PLENTY, refused(29, all, 0));
    assert_run(&deep(15, overflow), &[1], all, refused(30, all, 0));
    assert_run(&deep(16, overflow), &[1], PLENTY, refused(30, all, 0));
    assert_run(&deep(17, overflow), &[1], PLENTY, refused(30, all - 1, 0));
}

/// A job of exactly 10,000 steps, and so many sums more.
fn long(more: usize) -> Table {
    let mut rows = Rows::default();
    let (number, x) = (rows.parameter(), rows.parameter());
    let inner = rows.variable(x);
    let sums = rows.added(0, inner, 10);
    let mut function = rows.lambda(x, sums);
    for times in [10, 18, 5] {
        let numeral = rows.numeral(times);
        function = rows.apply(numeral, function);
    }
    let argument = rows.variable(number);
    let whole = rows.apply(function, argument);
    let whole = rows.added(1, whole, more);
    rows.lambda(number, whole);
    rows.table()
}

#[test]
fn a_budget_above_10000_counts_as_10000() {
    // 5 · 18 · 10 calls with one application and ten operations each, 1 + 5 · (1 + 18) for the numerals' results, 3 for the
    // numerals and 1 for the leading LAM.
    let (applications, operations) = (900 + 1 + 5 * 19 + 3 + 1, 9_000);
    assert_eq!(applications + operations, 10_000);
    assert_whole_run(&long(0), &[3], number(3, "AH", applications, operations));
    assert_run(&long(0), &[3], 9_999, refused(30, applications, operations - 1));
    for more in [1, 2, 10] {
        for budget in [10_000, 10_001, 10_010, 20_000, u32::MAX] {
            assert_run(&long(more), &[3], budget, refused(30, applications, operations));
        }
    }
}

#[test]
fn a_run_of_thousands_of_values_inside_each_other_is_dropped() {
    // 20 (20 (20 (\h. \x. 0 + (0 + (... (h x)))))) (\x. x): 8,000 copies of one LAM, each below 26 rows of the one around it.
    let mut rows = Rows::default();
    let (taken, x) = (rows.parameter(), rows.parameter());
    let (applied, argument) = (rows.variable(taken), rows.variable(x));
    let inner = rows.apply(applied, argument);
    let sums = rows.added(0, inner, 25);
    let body = rows.lambda(x, sums);
    let mut iterated = rows.lambda(taken, body);
    for times in [20, 20, 20] {
        let numeral = rows.numeral(times);
        iterated = rows.apply(numeral, iterated);
    }
    let identity = rows.identity();
    rows.apply(iterated, identity);
    // 3 for the numerals, 1 + 20 · (1 + 20) for their results, and 8,000 for the copies.
    assert_whole_run(&rows.table(), &[], function(8_000 + 3 + 1 + 20 * 21, 0));
}

/// Asserts that a run of a program is refused with 28, whatever the budget.
fn assert_28(table: &Table, numbers: &[u32]) {
    for budget in [0, 1, 100, PLENTY] {
        assert_run(table, numbers, budget, refused(28, 0, 0));
    }
}

#[test]
fn another_count_of_numbers_is_refused_with_28() {
    for numbers in [&[][..], &[1, 2], &[1, 2, 3], &[0; 64], &[0; 65], &[0; 300]] {
        assert_28(&double(), numbers);
    }
    assert_28(&table("E,0,NUM,7"), &[7]);
    assert_28(&table("E,0,NUM,7"), &[0; 65]);
    // An applied LAM is no leading one.
    let applied = table("T,0,ANY P,0,g0,0 E,0,VAR,0 E,1,LAM,0,0 E,2,NUM,6 E,3,APP,1,2");
    assert_28(&applied, &[6]);
    assert_whole_run(&applied, &[], number(6, "RAND", 1, 0));
}

#[test]
fn there_can_be_64_numbers() {
    let mut rows = Rows::default();
    let mut row = rows.number(9);
    for _ in 0..64 {
        let own = rows.parameter();
        row = rows.lambda(own, row);
    }
    let table = rows.table();
    assert_whole_run(&table, &[1; 64], number(9, "RAND", 64, 0));
    for count in [0, 1, 63, 65, 66] {
        assert_28(&table, &vec![1; count]);
    }
}

#[test]
fn a_leading_parameter_of_shape_arrow_is_refused_with_28() {
    // x applied to a number.
    let applied = "T,0,ANY P,0,g0,0 E,0,VAR,0 E,1,NUM,1 E,2,APP,0,1 E,3,LAM,0,2";
    assert_28(&table(applied), &[1]);
    assert_28(&table(applied), &[]);
    // An arrow that is declared and not used.
    let declared =
        "T,0,INT T,1,ARROW,AH,0,AH,0 P,0,g0,0 P,1,g1,1 E,0,VAR,0 E,1,LAM,0,0 E,2,LAM,1,1";
    assert_28(&table(declared), &[1, 2]);
    let inner = "T,0,INT T,1,ARROW,AH,0,AH,0 P,0,g0,0 P,1,g1,1 E,0,VAR,0 E,1,LAM,1,0 E,2,LAM,0,1";
    assert_28(&table(inner), &[1, 2]);
    // With both types ANY it is run.
    let open = "T,0,INT T,1,ANY P,0,g0,0 P,1,g1,1 E,0,VAR,0 E,1,LAM,1,0 E,2,LAM,0,1";
    assert_whole_run(&table(open), &[1, 2], number(1, "RAND", 2, 0));
}

#[test]
fn a_program_that_infer_refuses_is_refused_with_28() {
    for (lines, numbers) in [
        // 10: no row, a row that is no child, a parameter that is not bound.
        ("", &[][..]),
        ("E,0,NUM,1 E,1,NUM,2", &[]),
        ("T,0,INT P,0,AH,0 E,0,NUM,1", &[]),
        // 21, 22, 23 and 24.
        ("E,0,NUM,1 E,1,NUM,2 E,2,APP,0,1", &[]),
        ("E,0,ENC,AH,1 E,1,ENC,FHE,2 E,2,OP,ADD,0,1", &[]),
        ("T,0,INT P,0,RAND,0 E,0,VAR,0 E,1,VAR,0 E,2,OP,ADD,0,1 E,3,LAM,0,2", &[4]),
        ("T,0,INT P,0,g0,0,RAND E,0,VAR,0 E,1,VAR,0 E,2,OP,ADD,0,1 E,3,LAM,0,2", &[4]),
    ] {
        let table = table(lines);
        assert_ne!(table.infer(&mut [0; 6280]).number, 0);
        assert_28(&table, numbers);
    }
    // The floor is met.
    let met = "T,0,INT P,0,g0,0,AH E,0,VAR,0 E,1,VAR,0 E,2,OP,ADD,0,1 E,3,LAM,0,2";
    assert_whole_run(&table(met), &[4], number(8, "AH", 1, 1));
}

#[test]
fn what_is_no_transition_is_seen() {
    // These tables are refused, so that no run begins with them; their rows are run here all the same.
    for (lines, words, stuck) in [
        ("E,0,NUM,1 E,1,NUM,2 E,2,OP,ADD,0,1", [5, 1, 0], Stuck::DifferentTags),
        ("E,0,NUM,1 E,1,NUM,2 E,2,OP,ADD,0,1", [0, 5, 0], Stuck::DifferentTags),
        ("E,0,NUM,1 E,1,NUM,2 E,2,OP,ADD,0,1", [6, 6, 0], Stuck::Unsupported),
        ("E,0,NUM,1 E,1,NUM,2 E,2,OP,LT,0,1", [3, 3, 0], Stuck::Unsupported),
        ("E,0,NUM,1 E,1,NUM,2 E,2,APP,0,1", [0; 3], Stuck::NumberApplied),
        ("T,0,ANY P,0,g0,0 E,0,VAR,0", [0; 3], Stuck::FreeParameter),
        (
            "T,0,ANY P,0,g0,0 E,0,NUM,1 E,1,LAM,0,0 E,2,NUM,1 E,3,OP,EQ,1,2",
            [0; 3],
            Stuck::FunctionAsOperand,
        ),
        (
            "T,0,ANY P,0,g0,0 P,1,g0,0 E,0,NUM,1 E,1,LAM,0,0 E,2,VAR,0 E,3,LAM,1,2 E,4,APP,1,3",
            [0; 3],
            Stuck::OpenArgument,
        ),
    ] {
        let table = table(lines);
        let word = |row: usize| words.get(row).copied().unwrap_or(0);
        let row = Expression::of_last_row(&table, word).unwrap();
        let mut reduction = Reduction::of(row);
        let rules = Rules::Tagged(SchemeTable::six());
        assert_eq!(reduction.step(rules), Err(Halt::Stuck(stuck)), "for {lines}");
    }
    // The plain rules make no step on tags.
    let table = table("E,0,NUM,1 E,1,NUM,2 E,2,OP,ADD,0,1");
    let row = Expression::of_last_row(&table, |_| 5).unwrap();
    let mut reduction = Reduction::of(row);
    assert_eq!(reduction.step(Rules::Plain), Err(Halt::Stuck(Stuck::Unsupported)));
}

#[test]
fn the_entry_returns_and_writes_what_a_run_gives() {
    let sum = text("T,0,ANY P,0,g0,0 E,0,VAR,0 E,1,VAR,0 E,2,OP,ADD,0,1 E,3,LAM,0,2");
    assert_eq!(run_entry(&sum, &[21], 2), (100_000, Some([42, 5, 1, 1])));
    assert_eq!(run_entry(&sum, &[21], 1), (30_000, Some([0, 0, 1, 0])));
    assert_eq!(run_entry(&sum, &[u32::MAX], 2), (29_000, Some([0, 0, 1, 0])));
    assert_eq!(run_entry(&sum, &[], 2), (28_000, Some([0, 0, 0, 0])));
    let constant = text(
        "T,0,ANY T,1,ANY P,0,g0,0 P,1,g1,1 E,0,VAR,0 E,1,LAM,1,0 E,2,LAM,0,1 E,3,NUM,1 E,4,APP,2,3",
    );
    assert_eq!(run_entry(&constant, &[], 9), (100_001, Some([0, 0, 1, 0])));
    assert_eq!(run_entry(b"", &[], 9), (28_000, Some([0, 0, 0, 0])));
    assert_eq!(run_entry(b"E,0,NUM,1\nE,0,NUM,1\n", &[], 9), (2_002, None));
    assert_eq!(run_entry(b"\n", &[], 9), (1_001, None));
}

#[test]
fn the_entry_runs_under_a_scheme_file() {
    let file = text("S,BFV,11000 S,ORE,00111 S,GCM,00000 S,PAIL,10000 S,SIV,00100");
    let product = text(
        "T,0,INT P,0,g0,0 P,1,g1,0 E,0,VAR,0 E,1,VAR,1 E,2,OP,MUL,0,1 E,3,NUM,5 E,4,OP,ADD,2,3
         E,5,LAM,1,4 E,6,LAM,0,5",
    );
    assert_eq!(run_entry_under(&file, &product, &[6, 7], 9), (100_000, Some([47, 1, 2, 2])));
    assert_eq!(run_entry_under(&file, &product, &[6, 7], 3), (30_000, Some([0, 0, 2, 1])));
    // GCM supports nothing; an operation that no scheme supports is made on PLAIN numbers.
    assert_eq!(run_entry_under(&file, b"E,0,NUM,1", &[], 0), (100_000, Some([1, 3, 0, 0])));
    let sum = text("E,0,NUM,1 E,1,NUM,2 E,2,OP,ADD,0,1");
    assert_eq!(run_entry_under(&text("S,R,00000"), &sum, &[], 9), (100_000, Some([3, 0, 0, 1])));
    assert_eq!(run_entry_under(b"", &sum, &[], 9), (25_000, None));
    assert_eq!(run_entry_under(&text("S,A,10000 S,B,01000"), b"no line", &[], 9), (26_000, None));
    let no_highest = text("S,Z,00000 S,A,10001 S,B,01001");
    assert_eq!(run_entry_under(&no_highest, &sum, &[], 9), (27_000, None));
    assert_eq!(run_entry_under(&file, b"E,0,ENC,AH,1", &[], 9), (1_001, None));
}
