//! The order of a scheme table as the search has it: by hand for the six, and worked out from the bits of any file.

use second::operation::Operation;

/// The most qualifiers: PLAIN and eight schemes.
pub const MOST_CODES: usize = 9;

/// For each qualifier code, whether each code is at or below it.
type AtOrBelow = [[bool; MOST_CODES]; MOST_CODES];

/// What the search knows of the qualifiers of a scheme table.
#[derive(Debug, PartialEq)]
pub struct Order {
    /// How many qualifiers there are.
    pub codes: u8,
    at_or_below: AtOrBelow,
    /// The highest scheme of each operation.
    highest: [u8; 5],
}

/// The order of the seven qualifiers, made by hand.
const SIX: AtOrBelow = {
    const O: bool = false;
    const X: bool = true;
    [
        [X, O, O, O, O, O, O, O, O],
        [X, X, O, O, O, O, O, O, O],
        [X, X, X, O, O, O, O, O, O],
        [X, X, X, X, O, O, O, O, O],
        [X, X, O, O, X, O, O, O, O],
        [X, X, O, O, O, X, O, O, O],
        [X, X, X, X, X, X, X, O, O],
        [O, O, O, O, O, O, O, O, O],
        [O, O, O, O, O, O, O, O, O],
    ]
};

impl Order {
    /// The built-in six: PLAIN, FHE, OP, DET, MH, AH and RAND.
    pub fn six() -> Order {
        Order { codes: 7, at_or_below: SIX, highest: [5, 4, 3, 2, 2] }
    }

    /// The schemes of an accepted file: the last five bytes of each line are its bits.
    pub fn of_file(file: &[u8]) -> Order {
        let text = std::str::from_utf8(file).unwrap();
        let bits = |line: &str| u8::from_str_radix(&line[line.len() - 5..], 2).unwrap();
        let supports: Vec<u8> = text.lines().map(bits).collect();
        let mut at_or_below = AtOrBelow::default();
        // PLAIN is below all.
        (0..=supports.len()).for_each(|upper| at_or_below[upper][0] = true);
        for (upper, &fewer) in (1..).zip(&supports) {
            for (lower, &more) in (1..).zip(&supports) {
                at_or_below[upper][lower] = more & fewer == fewer;
            }
        }
        let highest = [0, 1, 2, 3, 4].map(|operation| highest(&supports, 0b10000 >> operation));
        Order { codes: supports.len() as u8 + 1, at_or_below, highest }
    }

    /// Tells whether one qualifier is at or below another.
    pub fn at_or_below(&self, lower: u8, upper: u8) -> bool {
        self.at_or_below[usize::from(upper)][usize::from(lower)]
    }

    /// Tells whether operands may have a qualifier.
    pub fn supports(&self, code: u8, operation: Operation) -> bool {
        self.at_or_below(code, self.highest[usize::from(operation.code())])
    }
}

/// The scheme that supports an operation and what all its supporters do, but nothing else; PLAIN without supporters.
fn highest(supports: &[u8], operation: u8) -> u8 {
    let supporters = supports.iter().filter(|&support| support & operation != 0);
    let Some(common) = supporters.copied().reduce(|common, support| common & support) else {
        return 0;
    };
    supports.iter().position(|&support| support == common).unwrap() as u8 + 1
}
