//! The most general solution of equations between qualified types.
//!
//! Types are numbered nodes, so a type that is used many times is stored and compared once.

use crate::classes::{Classes, Element};
use crate::schemes::{Code, SchemeTable, PLAIN};

/// The number of a type node.
pub type TypeId = usize;

/// A qualifier with a type.
#[derive(Clone, Copy, Debug, PartialEq, Eq)]
pub struct Qualified {
    /// The qualifier.
    pub qualifier: Element,
    /// The type.
    pub type_id: TypeId,
}

/// How much of the typing rules counts.
#[derive(Clone, Copy, Debug, PartialEq, Eq)]
pub enum Strength {
    /// All qualifiers are ignored.
    Shapes,
    /// Qualifiers must be equal where the rules say so, but "at or below" is dropped.
    Equalities,
    /// The rules as they are.
    Full,
    /// The rules but for document 02, f): a function may stand under a scheme.
    EncryptedFunctions,
}

impl Strength {
    /// Tells whether a qualifier has to be at or below the highest scheme of an operation.
    fn has_bounds(self) -> bool {
        matches!(self, Strength::Full | Strength::EncryptedFunctions)
    }

    /// Tells whether a qualifier that stands with an arrow has to be PLAIN.
    fn has_plain_functions(self) -> bool {
        matches!(self, Strength::Full | Strength::Equalities)
    }
}

/// What every typing has at a place: INT, an arrow, or either.
#[derive(Clone, Copy, Debug, PartialEq, Eq)]
pub enum Shape {
    /// Every typing has INT.
    Int,
    /// Every typing has an arrow.
    Arrow,
    /// Some typing has INT and another an arrow.
    Any,
}

/// A node of the graph of types.
#[derive(Clone, Copy)]
enum TypeNode {
    Int,
    Unknown,
    Arrow(Qualified, Qualified),
    /// The same type as another node.
    Same(TypeId),
}

/// The equations taken so far in solved form. No type contains itself at any time.
pub struct Solution<'a> {
    strength: Strength,
    types: Vec<TypeNode>,
    classes: Classes<'a>,
}

impl<'a> Solution<'a> {
    /// The node of the type INT.
    pub const INT: TypeId = 0;

    /// The solution of no equations between the qualifiers of a scheme table.
    pub fn new(schemes: &'a SchemeTable, strength: Strength) -> Solution<'a> {
        Solution { strength, types: vec![TypeNode::Int], classes: Classes::new(schemes) }
    }

    /// A new unknown type.
    pub fn unknown_type(&mut self) -> TypeId {
        self.add_node(TypeNode::Unknown)
    }

    /// A new arrow.
    pub fn arrow(&mut self, argument: Qualified, result: Qualified) -> TypeId {
        self.add_node(TypeNode::Arrow(argument, result))
    }

    /// A new unknown qualifier with a new unknown type.
    pub fn unknown(&mut self) -> Qualified {
        Qualified { qualifier: self.classes.unknown(), type_id: self.unknown_type() }
    }

    /// INT under a new unknown qualifier.
    pub fn unknown_integer(&mut self) -> Qualified {
        Qualified { qualifier: self.classes.unknown(), type_id: Solution::INT }
    }

    /// Makes two qualified types equal; false if that leaves no solution.
    pub fn equate(&mut self, left: Qualified, right: Qualified) -> bool {
        self.equate_qualifiers(left.qualifier, right.qualifier)
            && self.equate_types(left.type_id, right.type_id)
    }

    /// Makes two qualifiers equal; false if that leaves no solution.
    pub fn equate_qualifiers(&mut self, left: Element, right: Element) -> bool {
        self.strength == Strength::Shapes || self.classes.equate(left, right)
    }

    /// Keeps a qualifier at or below a scheme; false if that leaves no solution.
    pub fn limit(&mut self, qualifier: Element, scheme: Code) -> bool {
        !self.strength.has_bounds() || self.classes.limit(qualifier, scheme)
    }

    /// Makes the qualifier of an arrow PLAIN; false if that leaves no solution.
    pub fn make_function_plain(&mut self, qualified: Qualified) -> bool {
        !self.strength.has_plain_functions()
            || self.shape(qualified.type_id) != Shape::Arrow
            || self.classes.equate(qualified.qualifier, PLAIN.into())
    }

    /// Makes an unknown type under a scheme INT, as it is no arrow; only once all equations are taken.
    pub fn make_encrypted_integer(&mut self, qualified: Qualified) {
        let node = self.resolve(qualified.type_id);
        if self.strength.has_plain_functions()
            && self.shape(node) == Shape::Any
            && self.classes.has_scheme(qualified.qualifier)
        {
            self.types[node] = TypeNode::Int;
        }
    }

    /// Makes two types equal; false if that leaves no solution.
    pub fn equate_types(&mut self, left: TypeId, right: TypeId) -> bool {
        let (left, right) = (self.resolve(left), self.resolve(right));
        if left == right {
            return true;
        }
        match (self.types[left], self.types[right]) {
            (TypeNode::Unknown, _) => self.bind(left, right),
            (_, TypeNode::Unknown) => self.bind(right, left),
            (TypeNode::Arrow(argument, result), TypeNode::Arrow(argument2, result2)) => {
                let equal = self.equate(argument, argument2) && self.equate(result, result2);
                if equal {
                    // From now on this pair is one node, so no path reaches the work again.
                    self.types[left] = TypeNode::Same(right);
                }
                equal
            }
            _ => false,
        }
    }

    /// The greatest qualifier that a solution gives to an element.
    pub fn greatest(&self, qualifier: Element) -> Code {
        self.classes.greatest(qualifier)
    }

    /// The shape of a type in all solutions.
    pub fn shape(&self, type_id: TypeId) -> Shape {
        match self.types[self.resolve(type_id)] {
            TypeNode::Int => Shape::Int,
            TypeNode::Arrow(..) => Shape::Arrow,
            TypeNode::Unknown | TypeNode::Same(_) => Shape::Any,
        }
    }

    /// Appends a node.
    fn add_node(&mut self, node: TypeNode) -> TypeId {
        self.types.push(node);
        self.types.len() - 1
    }

    /// Follows the links to the node that stands for this type.
    fn resolve(&self, mut type_id: TypeId) -> TypeId {
        while let TypeNode::Same(next) = self.types[type_id] {
            type_id = next;
        }
        type_id
    }

    /// Replaces an unknown type by another type, unless that type contains it.
    fn bind(&mut self, unknown: TypeId, value: TypeId) -> bool {
        if self.occurs(unknown, value) {
            return false;
        }
        self.types[unknown] = TypeNode::Same(value);
        true
    }

    /// Tells whether an unknown type occurs in another type; each node is visited once.
    fn occurs(&self, unknown: TypeId, within: TypeId) -> bool {
        let mut visited = vec![false; self.types.len()];
        let mut waiting = vec![within];
        while let Some(type_id) = waiting.pop() {
            let node = self.resolve(type_id);
            if node == unknown {
                return true;
            }
            if std::mem::replace(&mut visited[node], true) {
                continue;
            }
            if let TypeNode::Arrow(argument, result) = self.types[node] {
                waiting.extend([argument.type_id, result.type_id]);
            }
        }
        false
    }
}
