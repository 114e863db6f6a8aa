//! Jobs whose results are close to the greatest number.

use super::tree::{Names, Tree};
use crate::generate::random::Random;
use crate::operation::Operation;

/// Pairs of numbers with products of 4294967295 and the numbers next to it, as far as there are any.
const FACTORS: [(u32, u32); 8] = [
    (65_535, 65_537),
    (65_536, 65_536),
    (65_537, 65_537),
    (1, u32::MAX),
    (3, 1_431_655_765),
    (3, 1_431_655_766),
    (2, 2_147_483_647),
    (2, 2_147_483_648),
];

/// A job of two numbers with the numbers; how many parameters are bound in all.
pub fn limit_job(random: &mut Random) -> (Tree, u16, Vec<u32>) {
    let mut names = Names::default();
    let operation = [Operation::Add, Operation::Mul][random.below(2)];
    let tree = names.function_of_two(|names, x, y| {
        let result = Tree::operation(operation, x.clone(), y.clone());
        match random.below(4) {
            0 => result,
            // The result of the first operation is the operand of a second one, which may pass the limit too.
            1 => Tree::sum(result, Tree::Number(random.below(2) as u32)),
            2 => Tree::sum(Tree::Number(random.below(3) as u32), result),
            _ => {
                let times = names.numeral(random.between(1, 34));
                let step = names.function(|_, x| Tree::sum(x.clone(), x));
                Tree::sum(times.applied_to(step).applied_to(x), y)
            }
        }
    });
    let numbers = match operation {
        Operation::Mul => FACTORS[random.below(FACTORS.len())],
        _ if random.one_in(3) => (1 << random.below(32), random.below(2) as u32),
        _ => {
            let first = random.number() as u32;
            (first, (u32::MAX - first).wrapping_add(random.between(0, 2) as u32).wrapping_sub(1))
        }
    };
    let (first, second) = if random.one_in(2) { numbers } else { (numbers.1, numbers.0) };
    (tree, names.given, vec![first, second])
}
