//! The set of programs that only their functions refuse.

use bench::rival::Rival;
use bench::sets;
use second::generate::Random;
use second::rows::TypeRow;
use second::schemes::PLAIN;
use second::Table;

/// A table with PLAIN for its last parameter, and one with PLAIN for the parts of its last type row.
fn with_plain(table: &Table) -> [Table; 2] {
    let (mut one, mut other) = (table.clone(), table.clone());
    if let Some(parameter) = one.params.last_mut() {
        parameter.qualifier = PLAIN;
    }
    if let Some(TypeRow::Arrow { argument, result }) = other.types.last_mut() {
        (argument.qualifier, result.qualifier) = (PLAIN, PLAIN);
    }
    [one, other]
}

#[test]
fn programs_that_only_their_functions_refuse() {
    let mut rival = Rival::default();
    let set = sets::functions_only(&mut Random::seeded(51), 100);
    let mut rows = vec![];
    for sample in &set {
        let refusal = rival.solve(&sample.table).unwrap_err();
        assert_eq!(refusal.number(), 22);
        rows.push(refusal.row());
        // With PLAIN for the one scheme that was added they are accepted.
        assert!(with_plain(&sample.table).iter().any(|table| rival.solve(table).is_ok()));
    }
    rows.sort();
    assert!(rows[0] > 0);
    rows.dedup();
    assert!(rows.len() > 50, "{}", rows.len());
}
