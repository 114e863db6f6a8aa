//! Jobs whose deepest step stands in a known number of reduction contexts.

use super::tree::{Names, Tree};
use crate::generate::random::Random;

/// How often the function that adds contexts is iterated: the product of two numerals.
const NUMERALS: [usize; 2] = [15, 17];

/// How many contexts each iteration adds.
const CONTEXTS_OF_EACH: usize = 16;

/// The fewest contexts that a job can be made with.
pub const FEWEST: usize = NUMERALS[0] * NUMERALS[1] * CONTEXTS_OF_EACH;

/// A job of one number whose deepest step stands in exactly so many contexts, at least [`FEWEST`]; how many parameters are bound in all.
///
/// It is r[F (F (... (\x. x))) n], where r are contexts around the whole and F is \h. \x. c[h x] with contexts c: the
/// deepest step is that of \x. x. On the way down no number is added, as each c is around the next one.
pub fn deep_job(random: &mut Random, contexts: usize) -> (Tree, u16) {
    let mut names = Names::default();
    let kinds = Kinds::random(random);
    let tree = names.function(|names, number| {
        let function = names.function_of_two(|names, function, x| {
            kinds.around(random, names, CONTEXTS_OF_EACH, function.applied_to(x))
        });
        let [many, times] = NUMERALS.map(|it| names.numeral(it));
        let identity = names.function(|_, x| x);
        let iterated = many.applied_to(times.applied_to(function)).applied_to(identity);
        kinds.around(random, names, contexts - FEWEST, iterated.applied_to(number))
    });
    (tree, names.given)
}

/// Which contexts are put around a term.
#[derive(Clone, Copy)]
enum Kinds {
    /// v f R only.
    RightOperands,
    /// R f e only.
    LeftOperands,
    /// v f R, R f e, v R, and R e around v R.
    All,
}

impl Kinds {
    fn random(random: &mut Random) -> Kinds {
        [Kinds::RightOperands, Kinds::LeftOperands, Kinds::All][random.below(3)]
    }

    /// So many contexts around a term that gives a number.
    fn around(self, random: &mut Random, names: &mut Names, count: usize, inner: Tree) -> Tree {
        let one = Tree::Number(random.below(2) as u32);
        let choice = match self {
            Kinds::RightOperands => 0,
            Kinds::LeftOperands => 1,
            Kinds::All if names.given > 40 => random.below(2),
            Kinds::All => random.below(4),
        };
        match (count, choice) {
            (0, _) => inner,
            (_, 1) => self.around(random, names, count - 1, Tree::sum(inner, one)),
            (_, 2) => {
                let identity = names.function(|_, x| x);
                self.around(random, names, count - 1, identity.applied_to(inner))
            }
            (2.., 3) => {
                let first = names.function_of_two(|_, x, _| x);
                let applied = first.applied_to(inner).applied_to(one);
                self.around(random, names, count - 2, applied)
            }
            _ => self.around(random, names, count - 1, Tree::sum(one, inner)),
        }
    }
}
