//! Compares what the solver says of one table with what the search finds, and counts the tables.

use crate::search::{Found, Rules, Searched};
use second::generate::{FunctionCounts, NumberCounts};
use second::report::LONGEST_REPORT;
use second::schemes::PLAIN;
use second::typing::{judge, judge_with_encrypted_functions, lines_have_typing, Shape};
use second::{Answer, Table};

/// How many rows have a typing; `None` where the T and P lines alone have none.
type Rows = Option<usize>;

/// How many tables of each kind a test met.
#[derive(Debug, Default)]
pub struct Tally {
    /// Tables that have a typing.
    pub accepted: usize,
    /// Tables that have none, by the numbers 21 to 23.
    pub refused: [usize; 3],
    /// Closed tables with a typing and floors that are not all PLAIN, by how many are missed: none, one, several.
    floors: [usize; 3],
    /// The NUM rows of all tables.
    pub numbers: NumberCounts,
    /// What the rule that functions are PLAIN means for the tables.
    pub functions: FunctionCounts,
    /// Slots of tables with a typing whose shapes were compared, by the shape: INT, an arrow, ANY.
    shapes: [usize; 3],
}

impl Tally {
    /// Counts a table by the refusal's number, 0 for none.
    pub fn count(&mut self, number: u32) {
        match number {
            0 => self.accepted += 1,
            _ => self.refused[number as usize - 21] += 1,
        }
    }

    /// Asserts that so many tables had a typing, and that so many had none by each of the numbers 21 to 23.
    pub fn assert_each_verdict(&self, accepted: usize, refused: [usize; 3]) {
        let enough = self.refused.iter().zip(refused).all(|(&count, fewest)| count >= fewest);
        assert!(self.accepted >= accepted && enough, "{self:?}");
    }

    /// Asserts that floors were met, that one was missed, and that several were, so often each.
    pub fn assert_each_floor(&self, fewest: usize) {
        assert!(self.floors.iter().all(|&count| count >= fewest), "{self:?}");
    }

    /// Asserts that so many shapes of each kind were compared.
    pub fn assert_each_shape(&self, fewest: usize) {
        assert!(self.shapes.iter().all(|&count| count >= fewest), "{self:?}");
    }

    /// Counts a closed table that has a typing by how many of its floors are missed.
    fn count_floors(&mut self, table: &Table, missed: usize) {
        if table.params.iter().any(|parameter| parameter.floor != PLAIN) {
            self.floors[missed.min(2)] += 1;
        }
    }
}

/// The refusal's number and row, 0 and the number of rows if there is none.
pub fn verdict(table: &Table) -> (u32, usize) {
    match judge(table) {
        Ok(_) => (0, table.terms.len()),
        Err(refusal) => (refusal.number, refusal.row as usize),
    }
}

/// The same verdict from how many of the rows have a typing by all rules, without bounds and without qualifiers.
fn searched_verdict(rows: usize, all: Rows, without_bounds: Rows, shapes: Rows) -> (u32, usize) {
    let number = match all {
        _ if all == Some(rows) => 0,
        _ if shapes == all => 21,
        _ if without_bounds == all => 22,
        _ => 23,
    };
    // "Where the T and P lines alone have no typing, the row is 0."
    (number, all.unwrap_or(0))
}

/// Asserts what infer answers for a table with this verdict by the typings found; counts the floors of a closed one.
///
/// It is 24 exactly where the table is closed and has typings, but none of them meets every floor.
fn compare_answer(searched: Searched, verdict: (u32, usize), found: &Found, tally: &mut Tally) {
    let Searched { order, table, variables } = searched;
    let expected = match verdict {
        _ if !table.closed() => (10, 0),
        (0, _) => {
            let missed = found.missed_floors(order, table, variables);
            tally.count_floors(table, missed.len());
            if found.meets_every_floor {
                (0, 0)
            } else {
                (24, missed[0])
            }
        }
        refusal => refusal,
    };
    let Answer { number, row, .. } = table.infer(&mut [0; LONGEST_REPORT]);
    assert_eq!((number, row as usize), expected, "in {table:?}");
}

/// Asserts that the solver's words are the greatest found, and that together they are a typing.
fn assert_greatest_words(searched: Searched, found: &Found) {
    let Searched { order, table, variables } = searched;
    let judgement = judge(table).unwrap();
    for &(variable, word) in &judgement.variables {
        assert_eq!(found.greatest(order, usize::from(variable)), word, "in {table:?}");
    }
    let slots = judgement.params.iter().chain(&judgement.terms);
    for (number, slot) in slots.enumerate() {
        assert_eq!(found.greatest(order, variables + number), slot.word, "in {table:?}");
    }
    assert!(found.has_reported, "the words are no typing in {table:?}");
}

/// Asserts that the solver's shapes are those found, and counts them.
fn compare_shapes(table: &Table, found: &Found, tally: &mut Tally) {
    let judgement = judge(table).unwrap();
    let slots = judgement.params.iter().chain(&judgement.terms);
    for (slot, &seen) in slots.zip(&found.shapes) {
        let (expected, place) = match seen {
            (true, true) => (Shape::Any, 2),
            (true, false) => (Shape::Int, 0),
            _ => (Shape::Arrow, 1),
        };
        assert_eq!(slot.shape, expected, "in {table:?}");
        tally.shapes[place] += 1;
    }
}

/// Compares a table with what a search to a depth that suffices found, and counts it; tells whether it has a typing.
fn compare_found(
    searched: Searched,
    depth: usize,
    all: &Found,
    shapes: Rows,
    tally: &mut Tally,
) -> bool {
    let table = searched.table;
    let without_bounds = searched.most_rows(Rules::WithoutBounds, depth);
    let expected = searched_verdict(table.terms.len(), all.most_rows, without_bounds, shapes);
    assert_eq!(verdict(table), expected, "in {table:?}");
    assert_eq!(lines_have_typing(table), all.most_rows.is_some(), "in {table:?}");
    tally.count(expected.0);
    tally.numbers.take(table);
    tally.functions.take(table);
    if expected.0 == 0 {
        assert_greatest_words(searched, all);
    }
    compare_answer(searched, expected, all, tally);
    expected.0 == 0
}

/// Compares and counts a table without ANY rows, for which the search is complete; gives what it found.
pub fn compare_complete(searched: Searched, tally: &mut Tally) -> Found {
    let all = searched.typings(Rules::All, 0);
    if compare_found(searched, 0, &all, searched.rows_with_shapes(0), tally) {
        compare_shapes(searched.table, &all, tally);
    }
    let rows = match judge_with_encrypted_functions(searched.table) {
        Ok(_) => searched.table.terms.len(),
        Err(row) => row as usize,
    };
    assert_eq!(searched.most_rows(Rules::EncryptedFunctions, 0), Some(rows));
    all
}

/// Compares a table of at most three arrows and counts it, its shapes too if a lower depth suffices; tells whether the depth does.
pub fn compare(searched: Searched, depth: usize, tally: &mut Tally) -> bool {
    let table = searched.table;
    // Depth 3 suffices for three arrows; a lower depth that reaches as far suffices too.
    let shapes = searched.rows_with_shapes(3);
    let all = searched.typings(Rules::All, depth);
    if searched.rows_with_shapes(depth) != shapes {
        // A search that misses types still never reaches further than the solver.
        assert!(all.most_rows.unwrap_or(0) <= verdict(table).1, "in {table:?}");
        return false;
    }
    let has_typing = compare_found(searched, depth, &all, shapes, tally);
    // One level more than needed shows that a shape is free.
    if has_typing && searched.rows_with_shapes(depth - 1) == shapes {
        compare_shapes(table, &all, tally);
    }
    true
}
