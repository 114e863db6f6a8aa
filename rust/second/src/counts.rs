//! How often each thing occurred in many comparisons.

use std::collections::BTreeMap;
use std::fmt::Debug;

/// How often each thing occurred.
#[derive(Debug)]
pub struct Counts<T>(pub BTreeMap<T, usize>);

impl<T> Default for Counts<T> {
    fn default() -> Counts<T> {
        Counts(BTreeMap::new())
    }
}

impl<T: Ord + Debug> Counts<T> {
    /// Counts a thing once more.
    pub fn add(&mut self, thing: T) {
        *self.0.entry(thing).or_insert(0) += 1;
    }

    /// How often a thing occurred.
    pub fn of(&self, thing: &T) -> usize {
        self.0.get(thing).copied().unwrap_or(0)
    }

    /// Asserts that each of these things occurred so often.
    pub fn assert_each(&self, things: impl IntoIterator<Item = T>, fewest: usize) {
        for thing in things {
            let count = self.of(&thing);
            assert!(count >= fewest, "{thing:?} occurred {count} times only, in {:?}", self.0);
        }
    }
}
