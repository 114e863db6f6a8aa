//! The same comparison under random accepted scheme files.

use crate::compare::{compare, compare_complete, Tally};
use crate::order::Order;
use crate::search::{Found, Rules, Searched};
use crate::tables::{applying_table, chained_table, closed_table, tiny_table, Limits};
use crate::Make;
use second::counts::Counts;
use second::generate::{accepted_file_of, Place, PlainByBounds, Random, SchemeProperty};
use second::schemes::{PLAIN, SIX_FILE};
use second::{SchemeTable, Table};

/// What was seen of many tables under many scheme files.
#[derive(Debug, Default)]
struct Seen {
    tally: Tally,
    /// Tables with a typing, by the number of schemes.
    sizes: Counts<usize>,
    /// Tables with a typing, and tables without one, by what their scheme tables have.
    properties: Counts<(SchemeProperty, bool)>,
    /// Tables with a variable that only bounds make PLAIN.
    plain_by_bounds: Counts<PlainByBounds>,
}

impl Seen {
    /// Counts a table by what was found of it.
    fn take(&mut self, searched: Searched, found: &Found) {
        let (schemes, terms) = (searched.table.schemes(), &searched.table.terms);
        let has_typing = found.most_rows == Some(terms.len());
        for property in SchemeProperty::of(schemes) {
            self.properties.add((property, has_typing));
        }
        if has_typing {
            self.sizes.add(schemes.schemes().count());
            let reason = PlainByBounds::of(searched.table);
            assert_eq!(reason.is_some(), has_plain_by_bounds(searched, found));
            reason.into_iter().for_each(|reason| self.plain_by_bounds.add(reason));
        }
    }

    /// Asserts that there were so many tables with a typing and without one for each property, and with a typing for each size.
    fn assert_each_property(&self, fewest: usize) {
        for has_typing in [true, false] {
            let seen = SchemeProperty::ALL.map(|property| (property, has_typing));
            self.properties.assert_each(seen, fewest);
        }
        self.sizes.assert_each(1..=8, fewest);
    }
}

/// Tells whether a variable is PLAIN in every typing, but not in every typing without bounds.
fn has_plain_by_bounds(searched: Searched, found: &Found) -> bool {
    let Searched { order, variables, .. } = searched;
    let is_plain = |found: &Found, variable| found.greatest(order, variable) == PLAIN;
    let plain: Vec<usize> = (0..variables).filter(|&it| is_plain(found, it)).collect();
    if plain.is_empty() {
        return false;
    }
    let without_bounds = searched.typings(Rules::WithoutBounds, 0);
    plain.into_iter().any(|variable| !is_plain(&without_bounds, variable))
}

/// A random table under a random accepted file of so many schemes, with the order of these.
fn table_under(random: &mut Random, size: usize, limits: &Limits, make: Make) -> (Order, Table) {
    let file = accepted_file_of(random, size);
    let schemes = SchemeTable::open(&file).unwrap();
    (Order::of_file(&file), make(random, &schemes, limits))
}

/// Compares so many random tables without ANY rows, under files of each size in turn.
fn compare_under_files(seed: u64, tables: usize, limits: &Limits, make: Make) -> Seen {
    let mut random = Random::seeded(seed);
    let mut seen = Seen::default();
    for size in (1..=8).cycle().take(tables) {
        let (order, table) = table_under(&mut random, size, limits, make);
        let searched = Searched { order: &order, table: &table, variables: limits.variables };
        let found = compare_complete(searched, &mut seen.tally);
        seen.take(searched, &found);
    }
    seen
}

#[test]
fn the_file_of_the_six_has_the_order_by_hand() {
    assert_eq!(Order::of_file(SIX_FILE), Order::six());
}

#[test]
fn tables_without_unknown_types_agree_under_any_file() {
    let limits = Limits::without_unknowns(8);
    let seen = compare_under_files(61, 2000, &limits, tiny_table);
    seen.tally.assert_each_verdict(301, [61; 3]);
    seen.assert_each_property(40);
}

#[test]
fn closed_tables_without_unknown_types_agree_under_any_file() {
    let limits = Limits::without_unknowns(5);
    let seen = compare_under_files(62, 3000, &limits, closed_table);
    seen.tally.assert_each_verdict(0, [201; 3]);
    seen.tally.assert_each_floor(50);
    seen.tally.numbers.places.assert_each(Place::operands(), 300);
    seen.assert_each_property(40);
}

#[test]
fn closed_tables_without_arrows_agree_under_any_file() {
    let limits = Limits::without_arrows(6);
    let seen = compare_under_files(63, 1500, &limits, closed_table);
    seen.tally.assert_each_verdict(0, [0, 151, 301]);
    seen.tally.assert_each_floor(70);
    seen.assert_each_property(35);
}

#[test]
fn tables_that_apply_numbers_agree_under_any_file() {
    let limits = Limits::without_unknowns(9);
    let seen = compare_under_files(64, 1500, &limits, applying_table);
    seen.tally.assert_each_verdict(501, [0, 151, 151]);
    seen.assert_each_property(30);
}

#[test]
fn tables_with_several_bounds_agree_under_any_file() {
    let limits = Limits::without_unknowns(9);
    let seen = compare_under_files(66, 6000, &limits, chained_table);
    seen.tally.assert_each_verdict(0, [0, 101, 501]);
    seen.tally.assert_each_floor(400);
    seen.assert_each_property(80);
    seen.plain_by_bounds.assert_each([PlainByBounds::Unsupported], 400);
    seen.plain_by_bounds.assert_each([PlainByBounds::Meet], 100);
}

#[test]
fn tables_with_one_unknown_type_agree_under_any_file() {
    let limits = Limits { unknowns: 1, arrows: 3, constants: 9, variables: 2, rows: 6 };
    let mut random = Random::seeded(65);
    let mut tally = Tally::default();
    for size in (1..=8).cycle().take(800) {
        let (order, table) = table_under(&mut random, size, &limits, tiny_table);
        let searched = Searched { order: &order, table: &table, variables: limits.variables };
        compare(searched, 1, &mut tally);
    }
    tally.assert_each_verdict(201, [11; 3]);
}
