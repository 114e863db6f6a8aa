//! Random simply typed terms, with functions that take and give functions.

use super::tree::{Names, Tree};
use crate::generate::random::Random;
use crate::operation::Operation;
use std::rc::Rc;

/// A simple type.
#[derive(Clone, PartialEq)]
pub enum Simple {
    /// The type of numbers.
    Int,
    /// The type of functions.
    Arrow(Rc<Simple>, Rc<Simple>),
}

impl Simple {
    /// The type of functions from one type to another.
    fn arrow(argument: &Simple, result: &Simple) -> Simple {
        Simple::Arrow(Rc::new(argument.clone()), Rc::new(result.clone()))
    }

    /// The type of functions on numbers.
    fn step() -> Simple {
        Simple::arrow(&Simple::Int, &Simple::Int)
    }

    /// A type for a bound parameter, mostly one of functions.
    fn random(random: &mut Random, depth: usize) -> Simple {
        match random.below(8) {
            0 | 1 => Simple::Int,
            2 | 3 => Simple::step(),
            4 => Simple::arrow(&Simple::step(), &Simple::step()),
            5 => Simple::arrow(&Simple::Int, &Simple::step()),
            _ if depth == 0 => Simple::step(),
            _ => {
                let argument = Simple::random(random, depth - 1);
                Simple::arrow(&argument, &Simple::random(random, depth - 1))
            }
        }
    }

    /// The arguments after which a value of this type gives the goal, if some number of them does.
    fn arguments_to(&self, goal: &Simple) -> Option<Vec<Rc<Simple>>> {
        if self == goal {
            return Some(vec![]);
        }
        let Simple::Arrow(argument, result) = self else {
            return None;
        };
        let mut arguments = result.arguments_to(goal)?;
        arguments.insert(0, argument.clone());
        Some(arguments)
    }
}

/// The most parameters that terms bind on purpose; the rest is for functions that are wanted as arguments.
const MOST_BOUND: u16 = 36;

/// A term under construction.
pub struct Typed<'a> {
    random: &'a mut Random,
    names: Names,
    scope: Vec<(u16, Simple)>,
    /// The operations that it is made of.
    operations: Vec<Operation>,
}

impl Typed<'_> {
    /// Leading LAMs over a body with functions, and how many parameters are bound in all.
    pub fn job(random: &mut Random) -> (Tree, u16) {
        let rows = random.between(4, 140);
        let mut typed = Typed::new(random);
        let leading = typed.leading();
        let goal = match typed.random.one_in(4) {
            true => Simple::random(typed.random, 1),
            false => Simple::Int,
        };
        // A body that is a LAM would be a leading one.
        let functions = typed.random.between(1, 5);
        let body = typed.with_functions(functions, &goal, rows);
        typed.under(leading, body)
    }

    /// Leading LAMs over a body of operations, and how many there are.
    pub fn straight_job(random: &mut Random) -> (Tree, u16) {
        let rows = random.between(1, 40);
        let mut typed = Typed::new(random);
        let leading: Vec<u16> =
            (0..typed.random.below(5)).map(|_| typed.bind(&Simple::Int)).collect();
        let body = typed.operation(rows);
        typed.under(leading, body)
    }

    /// A term with some of the operations.
    fn new(random: &mut Random) -> Typed<'_> {
        let operations = match random.below(4) {
            0 => vec![Operation::Add],
            1 => vec![Operation::Add, Operation::Add, Operation::Eq],
            2 => vec![Operation::Add, Operation::Mul, Operation::Lt],
            _ => Operation::ALL.to_vec(),
        };
        Typed { random, names: Names::default(), scope: vec![], operations }
    }

    /// The parameters of the leading LAMs: numbers, and seldom a function.
    fn leading(&mut self) -> Vec<u16> {
        let mut leading = vec![];
        for _ in 0..self.random.below(4) {
            let kind = match self.random.one_in(40) {
                true => Simple::step(),
                false => Simple::Int,
            };
            leading.push(self.bind(&kind));
        }
        leading
    }

    /// LAMs of these parameters over a body, and how many parameters are bound in all.
    fn under(self, leading: Vec<u16>, body: Tree) -> (Tree, u16) {
        let over = |body, own| Tree::Lambda(own, Box::new(body));
        (leading.into_iter().rev().fold(body, over), self.names.given)
    }

    /// A parameter of a type, in scope from now on.
    fn bind(&mut self, kind: &Simple) -> u16 {
        let own = self.names.fresh();
        self.scope.push((own, kind.clone()));
        own
    }

    /// A term of a type in about so many rows.
    fn term(&mut self, goal: &Simple, rows: usize) -> Tree {
        if rows < 3 {
            return self.leaf(goal);
        }
        match self.random.below(8) {
            0 | 1 if self.names.given < MOST_BOUND => self.bound(goal, rows),
            2..=6 => match self.headed(goal, rows) {
                Some(tree) => tree,
                None => self.direct(goal, rows),
            },
            _ => self.direct(goal, rows),
        }
    }

    /// A term made by the rule that its type suggests.
    fn direct(&mut self, goal: &Simple, rows: usize) -> Tree {
        match goal {
            Simple::Int => self.operation(rows),
            Simple::Arrow(argument, result) => self.function(argument, result, rows),
        }
    }

    /// A function of a new parameter.
    fn function(&mut self, argument: &Simple, result: &Simple, rows: usize) -> Tree {
        let own = self.bind(argument);
        let body = self.term(result, rows.saturating_sub(1));
        self.scope.pop();
        Tree::Lambda(own, Box::new(body))
    }

    /// A term with so many parameters, at least one, each with a value that may use those before it.
    fn with_functions(&mut self, functions: usize, goal: &Simple, rows: usize) -> Tree {
        let kind = Simple::random(self.random, 2);
        let value_rows = self.random.between(1, 1 + rows / (functions + 1));
        let value = self.term(&kind, value_rows);
        let (own, rows) = (self.bind(&kind), rows.saturating_sub(2 + value_rows));
        let body = match functions {
            1 => self.headed(goal, rows).unwrap_or_else(|| self.term(goal, rows)),
            _ => self.with_functions(functions - 1, goal, rows),
        };
        self.scope.pop();
        Tree::Lambda(own, Box::new(body)).applied_to(value)
    }

    /// A function applied at once, mostly to a function.
    fn bound(&mut self, goal: &Simple, rows: usize) -> Tree {
        let kind = Simple::random(self.random, 1);
        let value_rows = self.random.between(1, rows.min(14));
        let value = self.term(&kind, value_rows);
        let function = self.function(&kind, goal, rows.saturating_sub(2 + value_rows));
        function.applied_to(value)
    }

    /// A parameter in scope applied to as many terms as it takes to give the goal, if there is one.
    fn headed(&mut self, goal: &Simple, rows: usize) -> Option<Tree> {
        let gives = |(own, kind): &(u16, Simple)| Some((*own, kind.arguments_to(goal)?));
        let mut heads: Vec<_> = self.scope.iter().filter_map(gives).collect();
        if heads.iter().any(|(_, arguments)| !arguments.is_empty()) && !self.random.one_in(5) {
            heads.retain(|(_, arguments)| !arguments.is_empty());
        }
        let (own, arguments) = self.random.pick(&heads)?.clone();
        let each = rows.saturating_sub(2 * arguments.len()) / arguments.len().max(1);
        let head = Tree::Variable(own);
        Some(arguments.iter().fold(head, |head, kind| head.applied_to(self.term(kind, each))))
    }

    /// An operation on two terms; few operations have terms with many rows on one side.
    fn operation(&mut self, rows: usize) -> Tree {
        if rows < 3 {
            return self.leaf(&Simple::Int);
        }
        let operation = self.operations[self.random.below(self.operations.len())];
        let left_rows = self.random.between(1, rows - 2);
        // Without functions in scope this is a straight term.
        let is_straight = self.scope.iter().all(|(_, kind)| *kind == Simple::Int);
        let mut operand = |rows| match is_straight {
            true => self.operation(rows),
            false => self.term(&Simple::Int, rows),
        };
        let (left, right) = (operand(left_rows), operand(rows - 1 - left_rows));
        Tree::operation(operation, left, right)
    }

    /// A term of few rows: a parameter, a number, or a function of few rows.
    fn leaf(&mut self, goal: &Simple) -> Tree {
        let fits = |(own, kind): &(u16, Simple)| (kind == goal).then_some(*own);
        let fitting: Vec<u16> = self.scope.iter().filter_map(fits).collect();
        match (self.random.pick(&fitting), goal) {
            (Some(&own), _) if !self.random.one_in(4) => Tree::Variable(own),
            (_, Simple::Int) => Tree::Number(self.random.below(4) as u32),
            (_, Simple::Arrow(argument, result)) => {
                let own = self.bind(argument);
                let body = self.leaf(result);
                self.scope.pop();
                Tree::Lambda(own, Box::new(body))
            }
        }
    }
}
