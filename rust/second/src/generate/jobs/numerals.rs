//! Jobs with numerals, which apply a function so many times, and with functions that are applied to themselves.

use super::tree::{Names, Tree};
use crate::generate::random::Random;
use crate::operation::Operation;

/// Leading LAMs over a function that is iterated and applied; how many parameters are bound in all.
pub fn counted_job(random: &mut Random) -> (Tree, u16) {
    let mut names = Names::default();
    let tree = names.function(|names, number| {
        let times = counting(random, names, 2);
        match random.below(3) {
            0 => {
                let step = step(random, names);
                applied_or_not(random, times.applied_to(step), number)
            }
            _ => {
                let (change, step) = (change(random, names), step(random, names));
                applied_or_not(random, times.applied_to(change).applied_to(step), number)
            }
        }
    });
    (tree, names.given)
}

/// (\t. \k. t (t k)) applied to a function of functions, now and then twice over; copies of one LAM come to stand inside each other.
pub fn self_composed_job(random: &mut Random) -> (Tree, u16) {
    let mut names = Names::default();
    let tree = names.function(|names, number| {
        let mut function = change(random, names);
        for _ in 0..random.between(1, 4) {
            let twice = names.function_of_two(|_, taken, inner| {
                taken.clone().applied_to(taken.applied_to(inner))
            });
            function = twice.applied_to(function);
        }
        let step = step(random, names);
        applied_or_not(random, function.applied_to(step), number)
    });
    (tree, names.given)
}

/// Numerals applied to each other, so that the run is longer than any budget.
pub fn tower_job(random: &mut Random) -> (Tree, u16) {
    let mut names = Names::default();
    let tree = names.function(|names, number| {
        // The last of the powers are 2 to the 16 and 3 to the 16 or more.
        let bases = [[2, 2, 2, 2], [3, 2, 2, 2], [2, 4, 2, 2], [2, 3, 4, 2]][random.below(4)];
        let mut tower = names.numeral(bases[0]);
        for base in &bases[1..] {
            tower = tower.applied_to(names.numeral(*base));
        }
        match random.below(3) {
            0 => {
                let (change, step) = (change(random, names), step(random, names));
                tower.applied_to(change).applied_to(step).applied_to(number)
            }
            _ => {
                let adds = random.one_in(2);
                let sum = |x| if adds { Tree::sum(x, Tree::Number(1)) } else { x };
                let step = names.function(|_, x| sum(x));
                tower.applied_to(step).applied_to(number)
            }
        }
    });
    (tree, names.given)
}

/// A function applied to a number, or seldom without it, so that the job ends with the function.
fn applied_or_not(random: &mut Random, function: Tree, number: Tree) -> Tree {
    match random.one_in(6) {
        true => function,
        false => function.applied_to(number),
    }
}

/// A term that is a numeral after some steps: a numeral, or sums, products and powers of such terms.
fn counting(random: &mut Random, names: &mut Names, depth: usize) -> Tree {
    if depth == 0 || random.one_in(3) {
        return names.numeral(random.below(5));
    }
    let (one, other) = (counting(random, names, depth - 1), counting(random, names, depth - 1));
    match random.below(3) {
        // The second numeral so many times by itself: a power.
        0 => one.applied_to(other),
        1 => names.function(|_, function| one.applied_to(other.applied_to(function))),
        _ => names.function_of_two(|_, function, start| {
            let inner = other.applied_to(function.clone()).applied_to(start);
            one.applied_to(function).applied_to(inner)
        }),
    }
}

/// A function on numbers.
fn step(random: &mut Random, names: &mut Names) -> Tree {
    let number = Tree::Number(random.below(3) as u32);
    let comparison = [Operation::Eq, Operation::Lt, Operation::Gt][random.below(3)];
    match random.below(8) {
        0 => names.function(|_, x| Tree::sum(number, x)),
        1 => names.function(|_, x| Tree::sum(x.clone(), x)),
        2 => names.function(|_, x| Tree::operation(Operation::Mul, x, number)),
        3 => names.function(|_, x| Tree::operation(comparison, x, number)),
        4 => names.function(|_, x| x),
        _ => names.function(|_, x| Tree::sum(x, number)),
    }
}

/// A function that takes and gives a function on numbers.
fn change(random: &mut Random, names: &mut Names) -> Tree {
    let number = Tree::Number(random.between(1, 3) as u32);
    names.function_of_two(|names, function, x| match random.below(6) {
        0 | 1 => function.applied_to(Tree::sum(x, number)),
        2 => Tree::sum(number, function.applied_to(x)),
        3 => Tree::sum(function.applied_to(x), number),
        4 => function.clone().applied_to(function.applied_to(x)),
        _ => names.with(function, |_, again| again.applied_to(x)),
    })
}
