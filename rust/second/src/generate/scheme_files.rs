//! Random scheme files: accepted ones of each size, and refused ones for each reason and for several.

use super::random::Random;
use super::scheme_lines::{Malformation, NamedSupport};
use super::supports::{accepted_supports, other_support, supports_with, OrderFaults, Support};
use crate::schemes::SchemeTable;

/// What is wrong with the lines of a scheme file.
#[derive(Clone, Copy, Debug, PartialEq, Eq, PartialOrd, Ord)]
pub enum LineFault {
    /// There is no line.
    NoLine,
    /// There are more than eight lines, each well formed and unlike the others.
    TooManyLines,
    /// Two lines have one name.
    RepeatedName,
    /// Two lines have the same bits.
    RepeatedBits,
    /// A line is malformed in this way.
    Malformed(Malformation),
}

impl LineFault {
    /// All faults.
    pub fn all() -> Vec<LineFault> {
        let mut all = vec![
            LineFault::NoLine,
            LineFault::TooManyLines,
            LineFault::RepeatedName,
            LineFault::RepeatedBits,
        ];
        all.extend(Malformation::ALL.map(LineFault::Malformed));
        all
    }

    /// The most schemes that a file with this fault is made from.
    fn most_schemes(self) -> usize {
        match self {
            // A line is added, so that the number of lines is no fault beside it.
            LineFault::RepeatedBits | LineFault::Malformed(Malformation::Empty) => {
                SchemeTable::MOST_SCHEMES - 1
            }
            _ => SchemeTable::MOST_SCHEMES,
        }
    }

    /// The lines of some schemes with this fault.
    fn lines(self, random: &mut Random, mut schemes: Vec<NamedSupport>) -> Vec<Vec<u8>> {
        let position = random.below(schemes.len());
        match self {
            LineFault::NoLine => schemes.clear(),
            LineFault::TooManyLines => add_too_many(random, &mut schemes),
            LineFault::RepeatedName => repeat_name(random, &mut schemes),
            LineFault::RepeatedBits => {
                let again = NamedSupport::new(random, schemes[position].support, &schemes);
                schemes.insert(random.between(0, schemes.len()), again);
            }
            LineFault::Malformed(malformation) => {
                let malformed = malformation.line(random, &schemes[position]);
                let mut lines = well_formed_lines(&schemes);
                match malformation {
                    Malformation::Empty => lines.insert(random.between(0, lines.len()), malformed),
                    _ => lines[position] = malformed,
                }
                return lines;
            }
        }
        well_formed_lines(&schemes)
    }
}

/// A scheme file with all that is wrong with it.
#[derive(Clone, Debug, PartialEq, Eq)]
pub struct SchemeFile {
    /// The file; its last line feed may be missing.
    pub bytes: Vec<u8>,
    /// What is wrong with its lines, if anything is.
    pub line_fault: Option<LineFault>,
    /// What is wrong with the order of the schemes that it is made from, whatever its lines are.
    pub order_faults: OrderFaults,
}

impl SchemeFile {
    /// The number that refuses the file, 0 if it is accepted: the lines count before the order.
    pub fn number(&self) -> u32 {
        match self.line_fault {
            Some(_) => 25,
            None => self.order_faults.number(),
        }
    }

    /// A file of any kind; half of them are accepted.
    pub fn random(random: &mut Random) -> SchemeFile {
        match random.one_in(2) {
            true => SchemeFile::with(random, None, OrderFaults::NONE),
            false => SchemeFile::refused(random),
        }
    }

    /// A refused file of any kind; half of them have faults in their lines.
    pub fn refused(random: &mut Random) -> SchemeFile {
        let (faults, orders) = (LineFault::all(), OrderFaults::all());
        let fault = faults[random.below(faults.len())];
        // The first is that nothing is wrong.
        let order = orders[random.between(1, orders.len() - 1)];
        match random.below(4) {
            0 => SchemeFile::with(random, Some(fault), OrderFaults::NONE),
            1 => SchemeFile::with(random, Some(fault), order),
            _ => SchemeFile::with(random, None, order),
        }
    }

    /// A file with exactly these faults; one without lines has none in its order.
    pub fn with(
        random: &mut Random,
        line_fault: Option<LineFault>,
        order_faults: OrderFaults,
    ) -> SchemeFile {
        let most = line_fault.map_or(SchemeTable::MOST_SCHEMES, LineFault::most_schemes);
        let supports = supports_with(random, order_faults, most);
        let schemes = named(random, supports);
        let lines = match line_fault {
            None => well_formed_lines(&schemes),
            Some(fault) => fault.lines(random, schemes),
        };
        let order_faults = if lines.is_empty() { OrderFaults::NONE } else { order_faults };
        SchemeFile { bytes: joined(random, &lines), line_fault, order_faults }
    }
}

/// An accepted file of any size.
pub fn accepted_file(random: &mut Random) -> Vec<u8> {
    let size = random.between(1, SchemeTable::MOST_SCHEMES);
    accepted_file_of(random, size)
}

/// An accepted file of so many schemes, 1 to 8.
pub fn accepted_file_of(random: &mut Random, size: usize) -> Vec<u8> {
    let supports = accepted_supports(random, size);
    let schemes = named(random, supports);
    joined(random, &well_formed_lines(&schemes))
}

/// Schemes that support this, with names of their own.
fn named(random: &mut Random, supports: Vec<Support>) -> Vec<NamedSupport> {
    let mut schemes = vec![];
    for support in supports {
        schemes.push(NamedSupport::new(random, support, &schemes));
    }
    schemes
}

/// Adds schemes unlike the others until there are too many, mostly few more.
fn add_too_many(random: &mut Random, schemes: &mut Vec<NamedSupport>) {
    let fewest = SchemeTable::MOST_SCHEMES + 1;
    // There are 32 sets of operations.
    let most = if random.one_in(4) { 32 } else { fewest };
    let count = random.between(fewest, most);
    while schemes.len() < count {
        let supports: Vec<Support> = schemes.iter().map(|scheme| scheme.support).collect();
        let support = other_support(random, &supports);
        schemes.push(NamedSupport::new(random, support, schemes));
    }
}

/// Gives a scheme the name of another one; there is another one after it.
fn repeat_name(random: &mut Random, schemes: &mut Vec<NamedSupport>) {
    if schemes.len() == 1 {
        let support = other_support(random, &[schemes[0].support]);
        schemes.push(NamedSupport::new(random, support, schemes));
    }
    let one = random.below(schemes.len());
    let other = (one + random.between(1, schemes.len() - 1)) % schemes.len();
    schemes[other].name = schemes[one].name.clone();
}

/// The lines of some schemes.
fn well_formed_lines(schemes: &[NamedSupport]) -> Vec<Vec<u8>> {
    schemes.iter().map(NamedSupport::line).collect()
}

/// The file of some lines, now and then without its last line feed.
fn joined(random: &mut Random, lines: &[Vec<u8>]) -> Vec<u8> {
    let mut file: Vec<u8> = lines.iter().flat_map(|line| [line, &b"\n"[..]].concat()).collect();
    // An empty line without its line feed is no line.
    if lines.last().is_some_and(|line| !line.is_empty()) && random.one_in(3) {
        file.pop();
    }
    file
}
