//! Classes of qualifiers that must be equal, with the constant and the bounds of each class.

use crate::schemes::{Code, SchemeTable, PLAIN};

/// A qualifier that takes part in equations. The codes of a scheme table stand for its qualifiers
/// and the named variables; greater numbers are unknown qualifiers of rows.
pub type Element = usize;

/// A partition of the elements into classes.
pub struct Classes<'a> {
    /// What the qualifiers are and how they are ordered.
    schemes: &'a SchemeTable,
    /// The class of each element.
    class_of: Vec<usize>,
    /// The qualifier that stands in each class, if any.
    constant: Vec<Option<Code>>,
    /// The greatest lower bound of the schemes that limit each class.
    bound: Vec<Code>,
}

impl<'a> Classes<'a> {
    /// The qualifiers of a scheme table and the named variables, each in a class of its own.
    pub fn new(schemes: &'a SchemeTable) -> Classes<'a> {
        let mut classes = Classes { schemes, class_of: vec![], constant: vec![], bound: vec![] };
        for _ in 0..=schemes.last_variable() {
            classes.unknown();
        }
        for qualifier in schemes.qualifiers() {
            classes.constant[usize::from(qualifier)] = Some(qualifier);
        }
        classes
    }

    /// A new element in a class of its own.
    pub fn unknown(&mut self) -> Element {
        let element = self.class_of.len();
        self.class_of.push(element);
        self.constant.push(None);
        self.bound.push(self.schemes.greatest());
        element
    }

    /// Makes two elements equal; false if that leaves no solution.
    pub fn equate(&mut self, left: Element, right: Element) -> bool {
        let (kept, dropped) = (self.class_of[left], self.class_of[right]);
        if kept == dropped {
            return true;
        }
        for class in &mut self.class_of {
            if *class == dropped {
                *class = kept;
            }
        }
        if self.constant[kept].is_some() && self.constant[dropped].is_some() {
            // Each constant is a single element, so two classes have two different ones.
            return false;
        }
        self.constant[kept] = self.constant[kept].or(self.constant[dropped]);
        self.limit(kept, self.bound[dropped])
    }

    /// Limits an element to qualifiers at or below a scheme; false if that leaves no solution.
    pub fn limit(&mut self, element: Element, scheme: Code) -> bool {
        let class = self.class_of[element];
        self.bound[class] = self.schemes.meet(self.bound[class], scheme);
        match self.constant[class] {
            Some(constant) => self.schemes.at_or_below(constant, self.bound[class]),
            // PLAIN is at or below every bound.
            None => true,
        }
    }

    /// Tells whether every solution gives one and the same scheme to an element.
    pub fn has_scheme(&self, element: Element) -> bool {
        self.constant[self.class_of[element]].is_some_and(|constant| constant != PLAIN)
    }

    /// The greatest qualifier that a solution gives to an element.
    pub fn greatest(&self, element: Element) -> Code {
        let class = self.class_of[element];
        self.constant[class].unwrap_or(self.bound[class])
    }
}
