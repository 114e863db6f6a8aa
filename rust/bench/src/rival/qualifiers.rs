//! Classes of qualifiers, each with its constant and its bound.

use super::forest::root;
use second::qualifier::{FIRST_VARIABLE_CODE, GREATEST_CODE};
use second::Table;

/// The number of a qualifier node: a code from 0 to 70, or an unknown qualifier of a row.
pub type Node = u16;

/// The node of PLAIN.
pub const PLAIN: Node = 0;

/// The codes, and an unknown qualifier for each row.
const NODES: usize = CODES + Table::TERM_LIMIT;
const CODES: usize = GREATEST_CODE as usize + 1;

/// PLAIN has this rank from the start, so that it stays a root.
const GREATEST_RANK: u8 = u8::MAX;

/// Stands in the place of a constant where a class has none.
const NONE: u8 = FIRST_VARIABLE_CODE;
const RAND: u8 = 6;

/// The greatest lower bounds of the seven qualifiers; a test derives them from the order.
pub const MEET: [[u8; 7]; 7] = [
    [0, 0, 0, 0, 0, 0, 0],
    [0, 1, 1, 1, 1, 1, 1],
    [0, 1, 2, 2, 1, 1, 2],
    [0, 1, 2, 3, 1, 1, 3],
    [0, 1, 1, 1, 4, 1, 4],
    [0, 1, 1, 1, 1, 5, 5],
    [0, 1, 2, 3, 4, 5, 6],
];

/// What a root knows of its class.
#[derive(Clone, Copy)]
struct Class {
    constant: u8,
    bound: u8,
    rank: u8,
}

/// A partition of the nodes into classes.
pub struct Qualifiers {
    parent: [Node; NODES],
    class: [Class; NODES],
    count: usize,
    /// A class has a constant that is not at or below its bound.
    pub broken: bool,
}

impl Qualifiers {
    /// Storage for any table; [`Qualifiers::start`] fills it.
    pub fn new() -> Qualifiers {
        let class = Class { constant: NONE, bound: RAND, rank: 0 };
        Qualifiers { parent: [0; NODES], class: [class; NODES], count: 0, broken: false }
    }

    /// Puts every code in a class of its own.
    pub fn start(&mut self) {
        self.count = 0;
        self.broken = false;
        for code in 0..CODES {
            self.fresh();
            self.class[code].constant = NONE.min(code as u8);
        }
        self.class[usize::from(PLAIN)].rank = GREATEST_RANK;
    }

    /// A new unknown qualifier.
    pub fn fresh(&mut self) -> Node {
        let node = self.count;
        self.parent[node] = node as Node;
        self.class[node] = Class { constant: NONE, bound: RAND, rank: 0 };
        self.count += 1;
        node as Node
    }

    /// Makes two qualifiers one; false where they are two constants.
    pub fn unite(&mut self, left: Node, right: Node) -> bool {
        let (left, right) = (self.find(left), self.find(right));
        if left == right {
            return true;
        }
        let (one, other) = (self.class[left], self.class[right]);
        if one.constant != NONE && other.constant != NONE {
            return false;
        }
        let (kept, dropped) = if one.rank < other.rank { (right, left) } else { (left, right) };
        self.parent[dropped] = kept as Node;
        self.class[kept] = Class {
            constant: one.constant.min(other.constant),
            bound: meet(one.bound, other.bound),
            rank: one.rank.max(other.rank) + u8::from(one.rank == other.rank),
        };
        self.test(kept);
        true
    }

    /// Makes a qualifier PLAIN, which is below every bound; false where it is a scheme.
    pub fn make_plain(&mut self, node: Node) -> bool {
        let root = self.find(node);
        if self.class[root].constant == NONE {
            self.parent[root] = PLAIN;
            return true;
        }
        root == usize::from(PLAIN)
    }

    /// Keeps a qualifier at or below a scheme.
    pub fn restrict(&mut self, node: Node, scheme: u8) {
        let root = self.find(node);
        let class = &mut self.class[root];
        class.bound = meet(class.bound, scheme);
        self.test(root);
    }

    /// The greatest qualifier that a node can have.
    pub fn word(&mut self, node: Node) -> u8 {
        let root = self.find(node);
        let class = self.class[root];
        if class.constant == NONE {
            class.bound
        } else {
            class.constant
        }
    }

    /// Tells whether a node's class holds a scheme; a bound is none.
    pub fn is_scheme(&mut self, node: Node) -> bool {
        let root = self.find(node);
        let constant = self.class[root].constant;
        Node::from(constant) != PLAIN && constant != NONE
    }

    /// Notes whether a changed class has become impossible.
    fn test(&mut self, root: usize) {
        let Class { constant, bound, .. } = self.class[root];
        self.broken |= constant != NONE && !at_or_below(constant, bound);
    }

    /// The root above a node.
    fn find(&mut self, node: Node) -> usize {
        root(&mut self.parent, node)
    }
}

/// Tells whether one of the seven qualifiers is at or below another.
pub fn at_or_below(lower: u8, upper: u8) -> bool {
    meet(lower, upper) == lower
}

/// The greatest lower bound of two of the seven qualifiers.
fn meet(left: u8, right: u8) -> u8 {
    MEET[usize::from(left)][usize::from(right)]
}
