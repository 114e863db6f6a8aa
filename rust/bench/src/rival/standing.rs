//! The qualifiers that stand with unknown types: those of a class form a ring, so that two rings are joined in one step.

use super::qualifiers::{self, PLAIN};
use super::types::{self, NODES};
use second::Table;
use std::iter::successors;

/// One for each type node, and one for each qualifier of the T and P lines.
pub const PAIRS: usize = NODES + 2 * Table::TYPE_LIMIT + Table::PARAMETER_LIMIT;

/// A qualifier with the next pair of its ring.
#[derive(Clone, Copy, Default)]
struct Pair {
    qualifier: qualifiers::Node,
    next: u16,
}

/// The rings; the pair that has a root's number is in the ring of its class.
pub struct Standing {
    pairs: [Pair; PAIRS],
    count: usize,
}

impl Standing {
    /// Storage for any table; [`Standing::start`] empties it.
    pub fn new() -> Standing {
        Standing { pairs: [Pair::default(); PAIRS], count: NODES }
    }

    /// Forgets the qualifiers of the lines.
    pub fn start(&mut self) {
        self.count = NODES;
    }

    /// Begins the ring of a new type with one qualifier; PLAIN is as good as none.
    pub fn begin(&mut self, node: types::Node, qualifier: qualifiers::Node) {
        self.pairs[usize::from(node)] = Pair { qualifier, next: node };
    }

    /// Adds a qualifier to the ring of a type.
    pub fn add(&mut self, node: types::Node, qualifier: qualifiers::Node) {
        let before = &mut self.pairs[usize::from(node)].next;
        let next = std::mem::replace(before, self.count as u16);
        self.pairs[self.count] = Pair { qualifier, next };
        self.count += 1;
    }

    /// Makes the rings of two roots one.
    pub fn join(&mut self, left: usize, right: usize) {
        let next = self.pairs[left].next;
        self.pairs[left].next = std::mem::replace(&mut self.pairs[right].next, next);
    }

    /// Empties the ring of a root.
    pub fn empty(&mut self, root: usize) {
        self.begin(root as types::Node, PLAIN);
    }

    /// The qualifiers in the ring of a root, without PLAIN.
    pub fn of(&self, root: usize) -> impl Iterator<Item = qualifiers::Node> + '_ {
        let next =
            move |&at: &usize| Some(usize::from(self.pairs[at].next)).filter(|&next| next != root);
        let qualifiers = successors(Some(root), next).map(|at| self.pairs[at].qualifier);
        qualifiers.filter(|&qualifier| qualifier != PLAIN)
    }
}
