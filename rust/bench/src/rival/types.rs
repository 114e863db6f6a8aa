//! Types as numbered nodes that are made one by unification.

use super::forest::root;
use super::qualifiers::{self, PLAIN};
use super::standing::{Standing, PAIRS};
use second::Table;

/// The number of a type node.
pub type Node = u16;

/// INT, the type rows, and at most one new node for each row.
pub const NODES: usize = 1 + Table::TYPE_LIMIT + Table::TERM_LIMIT;

/// The node of the type INT.
pub const INT: Node = 0;

/// A qualifier with a type.
#[derive(Clone, Copy, Default)]
pub struct Qualified {
    /// The node of the qualifier.
    pub qualifier: qualifiers::Node,
    /// The node of the type.
    pub node: Node,
}

/// An argument and a result.
pub type Arrow = (Qualified, Qualified);

/// What a root stands for; its number is that of the report's shape.
#[derive(Clone, Copy, Debug, PartialEq, Eq)]
pub enum Kind {
    /// INT.
    Int,
    /// An arrow.
    Arrow,
    /// Either.
    Unknown,
}

/// Why an equation of types has no solution.
#[derive(Clone, Copy, Debug, PartialEq, Eq)]
pub enum Failure {
    /// INT would be an arrow.
    Clash,
    /// A type would contain itself.
    Cycle,
}

/// The equations taken so far in solved form; no type contains itself at any time.
pub struct Types {
    parent: [Node; NODES],
    rank: [u8; NODES],
    kind: [Kind; NODES],
    arrow: [Arrow; NODES],
    count: usize,
    /// The search that met a node last, so that marks need no clearing.
    met: [u64; NODES],
    searches: u64,
    /// What is PLAIN as soon as an unknown type is an arrow.
    standing: Standing,
    /// The qualifiers that the equations of the present row make one.
    pub pairs: Vec<(qualifiers::Node, qualifiers::Node)>,
    /// The qualifiers that the equations of the present row make PLAIN.
    pub plain: Vec<qualifiers::Node>,
}

impl Types {
    /// Storage for any table; [`Types::start`] fills it.
    pub fn new() -> Types {
        Types {
            parent: [0; NODES],
            rank: [0; NODES],
            kind: [Kind::Int; NODES],
            arrow: [Arrow::default(); NODES],
            count: 0,
            met: [0; NODES],
            searches: 0,
            standing: Standing::new(),
            pairs: Vec::with_capacity(2 * NODES),
            plain: Vec::with_capacity(PAIRS),
        }
    }

    /// Leaves only the node of INT.
    pub fn start(&mut self) {
        self.count = 0;
        self.standing.start();
        self.fresh(Kind::Int);
    }

    /// A new INT.
    pub fn fresh_int(&mut self) {
        self.fresh(Kind::Int);
    }

    /// A new unknown type with which nothing stands yet.
    pub fn fresh_any(&mut self) {
        self.fresh_unknown(PLAIN);
    }

    /// A new unknown type with a qualifier that stands with it.
    fn fresh_unknown(&mut self, qualifier: qualifiers::Node) -> Node {
        let node = self.fresh(Kind::Unknown);
        self.standing.begin(node, qualifier);
        node
    }

    /// A new node.
    fn fresh(&mut self, kind: Kind) -> Node {
        let node = self.count;
        self.parent[node] = node as Node;
        self.rank[node] = 0;
        self.kind[node] = kind;
        self.count += 1;
        node as Node
    }

    /// A new arrow.
    pub fn fresh_arrow(&mut self, argument: Qualified, result: Qualified) -> Node {
        let node = self.fresh(Kind::Arrow);
        self.arrow[usize::from(node)] = (argument, result);
        node
    }

    /// The root above a node.
    pub fn find(&mut self, node: Node) -> usize {
        root(&mut self.parent, node)
    }

    /// What a root stands for.
    pub fn kind(&self, root: usize) -> Kind {
        self.kind[root]
    }

    /// The parts of a root that is an arrow.
    pub fn parts(&self, root: usize) -> Arrow {
        self.arrow[root]
    }

    /// Makes a type INT.
    pub fn make_int(&mut self, node: Node) -> Result<(), Failure> {
        let root = self.find(node);
        if self.kind[root] == Kind::Arrow {
            return Err(Failure::Clash);
        }
        self.kind[root] = Kind::Int;
        Ok(())
    }

    /// Notes a qualifier that stands with an unknown type.
    pub fn stand(&mut self, node: Node, qualifier: qualifiers::Node) {
        self.standing.add(node, qualifier);
    }

    /// Forgets the qualifiers that the row before made one or PLAIN.
    pub fn next_row(&mut self) {
        self.pairs.clear();
        self.plain.clear();
    }

    /// Makes an unknown root INT where a scheme stands with it; before all rows are taken this would make 21 of a 22.
    #[inline(never)]
    pub fn settle(&mut self, root: usize, is_scheme: impl FnMut(qualifiers::Node) -> bool) {
        if self.standing.of(root).any(is_scheme) {
            self.kind[root] = Kind::Int;
        }
        // The next slot of this class need not look at all of them again.
        self.standing.empty(root);
    }

    /// Makes an unknown root an arrow from a type to a new unknown one, and notes the qualifiers that this makes PLAIN.
    pub fn make_arrow(
        &mut self,
        root: usize,
        argument: Qualified,
        qualifier: qualifiers::Node,
    ) -> Result<Qualified, Failure> {
        self.bind(root, argument.node)?;
        self.note_plain(root);
        let result = Qualified { qualifier, node: self.fresh_unknown(qualifier) };
        self.kind[root] = Kind::Arrow;
        self.arrow[root] = (argument, result);
        Ok(result)
    }

    /// Makes two types one, and notes the qualifiers that this makes one.
    pub fn unify(&mut self, left: Node, right: Node) -> Result<(), Failure> {
        let (left, right) = (self.find(left), self.find(right));
        if left == right {
            return Ok(());
        }
        match (self.kind[left], self.kind[right]) {
            (Kind::Int, Kind::Int) => {}
            (Kind::Int, Kind::Unknown) => self.kind[right] = Kind::Int,
            (Kind::Unknown, Kind::Int) => self.kind[left] = Kind::Int,
            (Kind::Unknown, Kind::Unknown) => {
                self.standing.join(left, right);
                self.link(left, right);
            }
            (Kind::Unknown, Kind::Arrow) => {
                self.bind(left, right as Node)?;
                self.note_plain(left);
                self.link(right, left);
            }
            (Kind::Arrow, Kind::Unknown) => {
                self.bind(right, left as Node)?;
                self.note_plain(right);
                self.link(left, right);
            }
            (Kind::Arrow, Kind::Arrow) => {
                let (one, other) = (self.arrow[left], self.arrow[right]);
                self.equate(one.0, other.0)?;
                self.equate(one.1, other.1)?;
                // Only now, so that the occurs check still sees the parts of both.
                self.link(left, right);
            }
            (Kind::Int, Kind::Arrow) | (Kind::Arrow, Kind::Int) => return Err(Failure::Clash),
        }
        Ok(())
    }

    /// Notes that what stands with an unknown root is PLAIN, as the root becomes an arrow.
    fn note_plain(&mut self, root: usize) {
        self.plain.extend(self.standing.of(root));
    }

    /// Makes two qualified types one.
    pub fn equate(&mut self, left: Qualified, right: Qualified) -> Result<(), Failure> {
        self.pairs.push((left.qualifier, right.qualifier));
        self.unify(left.node, right.node)
    }

    /// Makes two roots one class that is what the first one is.
    fn link(&mut self, known: usize, other: usize) {
        if self.rank[known] < self.rank[other] {
            self.kind[other] = self.kind[known];
            self.arrow[other] = self.arrow[known];
            self.parent[known] = other as Node;
        } else {
            self.rank[known] += u8::from(self.rank[known] == self.rank[other]);
            self.parent[other] = known as Node;
        }
    }

    /// The occurs check: an unknown root may stand for a type that does not contain it.
    fn bind(&mut self, unknown: usize, node: Node) -> Result<(), Failure> {
        self.searches += 1;
        if self.contains(node, unknown) {
            return Err(Failure::Cycle);
        }
        Ok(())
    }

    /// Tells whether a type contains an unknown root; no arrow is walked twice.
    fn contains(&mut self, node: Node, unknown: usize) -> bool {
        let root = self.find(node);
        if self.kind[root] != Kind::Arrow {
            return root == unknown;
        }
        if self.met[root] == self.searches {
            return false;
        }
        self.met[root] = self.searches;
        let (argument, result) = self.arrow[root];
        self.contains(argument.node, unknown) || self.contains(result.node, unknown)
    }
}
