//! Compares the solver with an exhaustive search for typings, on tiny tables.

mod compare;
mod order;
mod owners;
mod search;
mod tables;

use compare::{compare, compare_complete, Tally};
use order::Order;
use search::Searched;
use second::generate::{possible_words, FunctionCase, Place, Random};
use second::schemes::SIX_FILE;
use second::{SchemeTable, Table};
use tables::{applying_table, closed_table, function_table, tiny_table, Limits};

/// Makes a random table under a scheme table within the limits.
type Make = fn(&mut Random, &SchemeTable, &Limits) -> Table;

/// Compares so many random tables of the six without ANY rows.
fn compare_all(seed: u64, tables: usize, limits: &Limits, make: Make) -> Tally {
    let mut random = Random::seeded(seed);
    let mut tally = Tally::default();
    for _ in 0..tables {
        let table = &make(&mut random, SchemeTable::six(), limits);
        let searched = Searched { order: &Order::six(), table, variables: limits.variables };
        compare_complete(searched, &mut tally);
    }
    tally
}

#[test]
fn tables_without_unknown_types_agree() {
    let limits = Limits::without_unknowns(8);
    let tally = compare_all(1, 1000, &limits, tiny_table);
    tally.assert_each_verdict(201, [41; 3]);
    let others = [Place::Argument, Place::Function, Place::Body, Place::NoChild];
    tally.numbers.places.assert_each(Place::operands().into_iter().chain(others), 50);
}

#[test]
fn tables_without_arrows_agree() {
    let limits = Limits::without_arrows(14);
    let tally = compare_all(8, 500, &limits, tiny_table);
    tally.assert_each_verdict(101, [0, 41, 41]);
    tally.numbers.places.assert_each(Place::operands(), 80);
    tally.numbers.different_words.assert_each(2..=3, 50);
}

#[test]
fn closed_tables_without_unknown_types_agree() {
    let limits = Limits::without_unknowns(5);
    let tally = compare_all(9, 2500, &limits, closed_table);
    tally.assert_each_verdict(0, [41; 3]);
    tally.assert_each_floor(50);
    tally.numbers.places.assert_each(Place::operands(), 300);
}

#[test]
fn closed_tables_without_arrows_agree() {
    let limits = Limits::without_arrows(4);
    let tally = compare_all(10, 1500, &limits, closed_table);
    tally.assert_each_verdict(0, [0, 41, 41]);
    tally.assert_each_floor(70);
    tally.numbers.places.assert_each(Place::operands(), 200);
    let words = possible_words(SchemeTable::six()).into_iter().filter(|it| it.0.is_some());
    tally.numbers.operand_words.assert_each(words, 15);
}

#[test]
fn tables_that_apply_numbers_agree() {
    let limits = Limits::without_unknowns(9);
    let tally = compare_all(12, 1500, &limits, applying_table);
    tally.assert_each_verdict(501, [0, 201, 201]);
    let places = [Place::IgnoredArgument, Place::Argument, Place::Result, Place::Body];
    tally.numbers.places.assert_each(Place::operands().into_iter().chain(places), 80);
    tally.numbers.operand_words.assert_each(possible_words(SchemeTable::six()), 5);
}

/// Compares so many random tables of the six with types of depth 1.
fn compare_tables(seed: u64, tables: usize, limits: &Limits, make: Make) -> Tally {
    compare_under(SIX_FILE, 1, seed, tables, limits, make)
}

/// Compares so many random tables under a scheme file with types of a depth.
fn compare_under(
    file: &[u8],
    depth: usize,
    seed: u64,
    tables: usize,
    limits: &Limits,
    make: Make,
) -> Tally {
    let (mut random, mut tally) = (Random::seeded(seed), Tally::default());
    let (order, schemes) = (Order::of_file(file), SchemeTable::open(file).unwrap());
    for _ in 0..tables {
        let table = &make(&mut random, &schemes, limits);
        compare(Searched { order: &order, table, variables: limits.variables }, depth, &mut tally);
    }
    tally
}

/// Few schemes leave time for deep types. This one supports a sum, and every other operation leaves PLAIN.
const ONE_SCHEME: &[u8] = b"S,A,10000\n";

/// The same below a scheme that supports nothing.
const TWO_SCHEMES: &[u8] = b"S,R,00000\nS,A,10000\n";

#[test]
fn shapes_of_tables_with_one_unknown_type_agree() {
    let limits = Limits { unknowns: 1, arrows: 3, constants: 9, variables: 2, rows: 7 };
    let tally = compare_under(ONE_SCHEME, 3, 6, 300, &limits, tiny_table);
    tally.assert_each_verdict(51, [11; 3]);
    tally.assert_each_shape(100);
}

#[test]
fn shapes_of_tables_with_three_unknown_types_agree() {
    let limits = Limits { unknowns: 3, arrows: 3, constants: 9, variables: 1, rows: 7 };
    let tally = compare_under(ONE_SCHEME, 2, 7, 60, &limits, tiny_table);
    tally.assert_each_shape(10);
}

#[test]
fn tables_with_functions_agree() {
    let limits = Limits { unknowns: 2, arrows: 3, constants: 0, variables: 1, rows: 0 };
    let tally = compare_tables(13, 400, &limits, function_table);
    tally.assert_each_verdict(41, [101, 61, 6]);
    tally.assert_each_shape(20);
    let refusals = [FunctionCase::LinesRefused, FunctionCase::RowsRefused];
    tally.functions.0.assert_each(refusals.map(|case| (case, false)), 10);
}

#[test]
fn tables_with_functions_agree_under_one_scheme() {
    let limits = Limits { unknowns: 2, arrows: 3, constants: 0, variables: 2, rows: 0 };
    let tally = compare_under(ONE_SCHEME, 2, 14, 1_500, &limits, function_table);
    tally.assert_each_verdict(201, [401, 151, 21]);
    tally.assert_each_shape(200);
    tally.functions.assert_each(15);
}

#[test]
fn tables_with_functions_agree_under_two_schemes() {
    let limits = Limits { unknowns: 2, arrows: 3, constants: 0, variables: 1, rows: 0 };
    let tally = compare_under(TWO_SCHEMES, 2, 15, 200, &limits, function_table);
    tally.assert_each_verdict(21, [51, 31, 4]);
    tally.assert_each_shape(20);
}

#[test]
fn tables_with_one_unknown_type_agree() {
    let tally = compare_tables(
        3,
        300,
        &Limits { unknowns: 1, arrows: 3, constants: 9, variables: 2, rows: 7 },
        tiny_table,
    );
    tally.assert_each_verdict(51, [11; 3]);
}

#[test]
fn closed_tables_with_one_unknown_type_agree() {
    // The LAMs that close a table are arguments of nothing, so types nest no deeper.
    let limits = Limits { unknowns: 1, arrows: 3, constants: 9, variables: 2, rows: 4 };
    let tally = compare_tables(11, 500, &limits, closed_table);
    tally.assert_each_floor(20);
}

#[test]
fn tables_with_two_unknown_types_agree() {
    let tally = compare_tables(
        4,
        60,
        &Limits { unknowns: 2, arrows: 3, constants: 9, variables: 1, rows: 7 },
        tiny_table,
    );
    assert!(tally.accepted > 10 && tally.refused.iter().sum::<usize>() > 10, "{tally:?}");
}

#[test]
fn tables_with_a_deep_unknown_type_agree() {
    let limits = Limits { unknowns: 1, arrows: 3, constants: 9, variables: 0, rows: 7 };
    let mut random = Random::seeded(5);
    let mut compared = 0;
    while compared < 8 {
        let table = tiny_table(&mut random, SchemeTable::six(), &limits);
        let searched = Searched { order: &Order::six(), table: &table, variables: 0 };
        // Only tables that need depth 2 are worth the search.
        let shapes = searched.rows_with_shapes(3);
        if searched.rows_with_shapes(1) < shapes && searched.rows_with_shapes(2) == shapes {
            assert!(compare(searched, 2, &mut Tally::default()));
            compared += 1;
        }
    }
}
