//! Sets of schemes given by what they support: those whose order is accepted, and those with faults.

use super::random::Random;
use crate::operation::Operation;

/// The operations that a scheme supports: a bit for each, written in binary as a file has them.
pub type Support = u8;

/// All operations.
const EVERY_OPERATION: Support = (1 << Operation::ALL.len()) - 1;

/// How often a scheme is tried before a set that does not grow is given up.
const TRIES: usize = 60;

/// What is wrong with the order of some schemes.
#[derive(Clone, Copy, Debug, Default, PartialEq, Eq, PartialOrd, Ord)]
pub struct OrderFaults {
    /// No scheme is the greatest.
    pub greatest: bool,
    /// Two qualifiers have no greatest lower bound.
    pub meet: bool,
    /// An operation has supporters, but no single highest one.
    pub highest: bool,
}

impl OrderFaults {
    /// Nothing is wrong.
    pub const NONE: OrderFaults = OrderFaults { greatest: false, meet: false, highest: false };

    /// All that can be wrong together, nothing first.
    pub fn all() -> Vec<OrderFaults> {
        let has = |number: u8, bit: u8| number >> bit & 1 == 1;
        let faults = |number| OrderFaults {
            greatest: has(number, 0),
            meet: has(number, 1),
            highest: has(number, 2),
        };
        (0..8).map(faults).collect()
    }

    /// What is wrong with schemes that support this.
    pub fn of(supports: &[Support]) -> OrderFaults {
        let is_single = |operations: Support| has_single_highest(supports, operations);
        let meets = |left: Support| supports.iter().all(|right| is_single(left | right));
        OrderFaults {
            greatest: !is_single(0),
            meet: !supports.iter().all(|&left| meets(left)),
            highest: !(0..Operation::ALL.len()).all(|place| is_single(1 << place)),
        }
    }

    /// The number that refuses a file without faults in its lines, 0 if it is accepted.
    pub fn number(self) -> u32 {
        match self {
            OrderFaults { greatest: true, .. } | OrderFaults { meet: true, .. } => 26,
            OrderFaults { highest: true, .. } => 27,
            OrderFaults::NONE => 0,
        }
    }
}

/// Tells whether the schemes that support all of these operations are none, or one of them supports only what all of them do.
fn has_single_highest(supports: &[Support], operations: Support) -> bool {
    let supporters = || supports.iter().filter(|&support| support & operations == operations);
    let common = supporters().fold(EVERY_OPERATION, |common, support| common & support);
    supporters().next().is_none() || supports.contains(&common)
}

/// So many schemes, 1 to 8, whose order is accepted, in any order.
pub fn accepted_supports(random: &mut Random, size: usize) -> Vec<Support> {
    loop {
        let supports = grown_supports(random, size);
        if supports.len() == size {
            return shuffled(random, supports);
        }
    }
}

/// Schemes whose order is accepted: up to so many, grown from the greatest by schemes that leave it accepted.
///
/// Each accepted set comes about so: without one of its lowest schemes it is accepted too.
fn grown_supports(random: &mut Random, size: usize) -> Vec<Support> {
    let greatest = match random.one_in(2) {
        true => 0,
        false => any_support(random) & any_support(random),
    };
    let mut supports = vec![greatest];
    for _ in 0..TRIES {
        let next = greatest | any_support(random);
        if supports.len() < size && !supports.contains(&next) {
            supports.push(next);
            if OrderFaults::of(&supports) != OrderFaults::NONE {
                supports.pop();
            }
        }
    }
    supports
}

/// Schemes, at most so many, with exactly these faults.
pub fn supports_with(random: &mut Random, faults: OrderFaults, most: usize) -> Vec<Support> {
    if faults == OrderFaults::NONE {
        let size = random.between(1, most);
        return accepted_supports(random, size);
    }
    loop {
        let size = random.between(2, most);
        let mut supports = vec![];
        // A scheme that supports nothing is the greatest.
        if random.one_in(2) {
            supports.push(0);
        }
        while supports.len() < size {
            supports.push(other_support(random, &supports));
        }
        if OrderFaults::of(&supports) == faults {
            return shuffled(random, supports);
        }
    }
}

/// Any set of operations.
fn any_support(random: &mut Random) -> Support {
    random.below(usize::from(EVERY_OPERATION) + 1) as Support
}

/// Any set of operations that no scheme of these supports exactly; there must be one.
pub fn other_support(random: &mut Random, supports: &[Support]) -> Support {
    loop {
        let support = any_support(random);
        if !supports.contains(&support) {
            return support;
        }
    }
}

/// The items in any order.
fn shuffled<T>(random: &mut Random, mut items: Vec<T>) -> Vec<T> {
    for last in (1..items.len()).rev() {
        items.swap(random.below(last + 1), last);
    }
    items
}
